# Completion of tinmove and tinplaces for bash, also of ./tinmove and ./tinplaces in a checkout. To use it:
# source recipes/tinmove.bash

# The word to complete and the one before it. Bash parts --tin=FILE at the sign.
_tinmove_words() {
    word=${COMP_WORDS[COMP_CWORD]} before=${COMP_WORDS[COMP_CWORD - 1]}
    if [ "$word" = = ]; then
        word=
    elif [ "$before" = = ] && [ "$COMP_CWORD" -gt 2 ]; then
        before=${COMP_WORDS[COMP_CWORD - 2]}
    fi
}

_tinmove_layers() {
    mapfile -t COMPREPLY < <(
        for end in '[wW][kK][tT]' '[gG][eE][oO][jJ][sS][oO][nN]' '[jJ][sS][oO][nN]' '[dD][xX][fF]'; do
            compgen -f -X "!*.$end" -- "$1"
        done
        compgen -d -- "$1"
    )
}

_tinmove_tin() {
    mapfile -t COMPREPLY < <(compgen -f -X '!*.[jJ][sS][oO][nN]' -- "$1"; compgen -d -- "$1")
}

_tinmove() {
    local word before mode=${COMP_WORDS[1]} options
    _tinmove_words
    COMPREPLY=()
    if [ "$COMP_CWORD" -eq 1 ]; then
        mapfile -t COMPREPLY < <(compgen -W 'migrate check make verify heights help --help --version' -- "$word")
        return
    fi
    compopt -o filenames 2>/dev/null
    case $mode in
        migrate) options='--tin --out --inverse --exact --inside-only --drop-other --cert --sides --help' ;;
        check) options='--tin --exact --inside-only --help' ;;
        make) options='--help' ;;
        heights) options='--tin --out --exact --inside-only --help' ;;
        verify) options='--tin --source --written --cert --inverse --exact --inside-only --drop-other --help' ;;
        *) return ;;
    esac
    case $before in
        --tin)
            _tinmove_tin "$word"
            return
            ;;
        --out)
            mapfile -t COMPREPLY < <(compgen -d -- "$word")
            return
            ;;
    esac
    if [ "$mode" = verify ]; then
        case $before in
            --source | --written | --cert)
                mapfile -t COMPREPLY < <(compgen -f -- "$word")
                return
                ;;
        esac
    fi
    case $word in
        -*) mapfile -t COMPREPLY < <(compgen -W "$options" -- "$word") ;;
        *)
            if [ "$mode" = heights ]; then
                mapfile -t COMPREPLY < <(compgen -f -- "$word")
                return
            fi
            [ "$mode" = migrate ] || return
            _tinmove_layers "$word"
            ;;
    esac
}

# The options of tinplaces are those that its help names.
_tinplaces() {
    local word before
    _tinmove_words
    COMPREPLY=()
    compopt -o filenames 2>/dev/null
    if [ "$before" = --tin ]; then
        _tinmove_tin "$word"
        return
    fi
    case $word in
        -*) mapfile -t COMPREPLY < <(compgen -W "$("$1" --help 2>/dev/null | grep -oE -- '--[a-z][a-z-]*' | sort -u)" -- "$word") ;;
        *) _tinmove_layers "$word" ;;
    esac
}
complete -F _tinmove tinmove ./tinmove
complete -F _tinplaces tinplaces ./tinplaces
