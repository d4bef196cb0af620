#!/bin/sh
# Builds a Debian package of the built programs, with their man pages and completion, asks lintian
# about it, and installs and removes it in a folder that is no system.
# usage: recipes/deb.sh [RESULT.deb]      RESULT is tinmove_VERSION_amd64.deb of this folder if left out
# The programs are those that TINMOVE and TINPLACES name, else those that the launchers built. The
# maintainer is the one of DEBFULLNAME and DEBEMAIL, else of the last commit. Needs dpkg-deb, strip,
# objdump (Debian: dpkg, binutils) and lintian.
# Status 1: lintian has an error, or the package does not come and go whole; 2: something is missing.
set -eu
refuse() { printf 'deb.sh: %s\n' "$1" >&2; exit "${2:-2}"; }
[ $# -le 1 ] || refuse 'usage: deb.sh [RESULT.deb]'
here=$(CDPATH='' cd -- "$(dirname -- "$0")" && pwd)
top=$(CDPATH='' cd -- "$here/.." && pwd)
for tool in dpkg dpkg-deb strip objdump lintian gzip; do
    command -v $tool >/dev/null || refuse "$tool is missing"
done
program=${TINMOVE:-$top/crates/tinmove/out/tinmove} places=${TINPLACES:-$top/crates/tinplaces/out/tinplaces}
[ -f "$program" ] || refuse "no built tinmove: run ./tinmove check once, or name one by TINMOVE"
[ -f "$places" ] || refuse "no built tinplaces: run ./tinplaces once, or name one by TINPLACES"
for file in "$program" "$places"; do
    [ "$(head -c 4 -- "$file" | tail -c 3)" = ELF ] || refuse "$file is no program but a script: name what it built"
done
version=$("$program" --version | sed -n 's/^tinmove \([0-9][0-9.]*\)$/\1/p')
[ -n "$version" ] || refuse "$program does not say its version"
[ "$("$places" --version)" = "tinplaces $version" ] || refuse "$places is of another version"
result=${1:-tinmove_${version}_amd64.deb}
maintainer=$(git -C "$top" log -1 --format='%an <%ae>' 2>/dev/null || true)
[ -z "${DEBEMAIL:-}" ] || maintainer="${DEBFULLNAME:-tinmove} <$DEBEMAIL>"
[ -n "$maintainer" ] || refuse 'who maintains the package? Set DEBFULLNAME and DEBEMAIL'
# The same commit gives the same package.
SOURCE_DATE_EPOCH=${SOURCE_DATE_EPOCH:-$(git -C "$top" log -1 --format=%ct 2>/dev/null || date +%s)}
export SOURCE_DATE_EPOCH
date=$(LC_ALL=C date -u -R -d "@$SOURCE_DATE_EPOCH")

folder=$(mktemp -d)
trap 'rm -rf -- "$folder"' EXIT
trap 'exit 130' INT
trap 'exit 143' TERM
umask 022
root=$folder/root
share=$root/usr/share
doc=$share/doc/tinmove
mkdir -p "$root/DEBIAN" "$root/usr/bin" "$share/man/man1" "$share/bash-completion/completions" "$doc"
for name in tinmove tinplaces; do
    if [ "$name" = tinmove ]; then cp -- "$program" "$root/usr/bin/$name"; else cp -- "$places" "$root/usr/bin/$name"; fi
    chmod 755 "$root/usr/bin/$name"
    strip --strip-unneeded --remove-section=.comment --remove-section=.note "$root/usr/bin/$name"
    gzip -9n <"$here/$name.1" >"$share/man/man1/$name.1.gz"
done
cp -- "$here/tinmove.bash" "$share/bash-completion/completions/tinmove"
ln -s tinmove "$share/bash-completion/completions/tinplaces"
cp -- "$top/docs/guide.md" "$top/docs/messages.md" "$doc"
gzip -9n "$doc/guide.md" "$doc/messages.md"
# The copyright file says what the repository says: a file LICENSE or COPYING where there is one.
license=
for file in LICENSE LICENSE.txt LICENSE.md COPYING; do
    [ -f "$top/$file" ] && license=$top/$file && break
done
{
    echo 'This package was made of the sources of tinmove by recipes/deb.sh.'
    echo
    echo "Copyright: the authors of tinmove, $(LC_ALL=C date -u -d "@$SOURCE_DATE_EPOCH" +%Y), who are named by the log of the repository."
    echo
    if [ -n "$license" ]; then cat -- "$license"; else echo 'License: the repository states none, so nothing is granted but by its authors.'; fi
} >"$doc/copyright"
{
    printf 'tinmove (%s) unstable; urgency=medium\n\n' "$version"
    printf '  * Packed at the commit %s.\n\n' "$(git -C "$top" log -1 --format=%h 2>/dev/null || echo unknown)"
    printf ' -- %s  %s\n' "$maintainer" "$date"
} | gzip -9n >"$doc/changelog.gz"
# The glibc that both programs ask for: the greatest version of their symbols.
glibc=$(objdump -T "$root/usr/bin/tinmove" "$root/usr/bin/tinplaces" | grep -o 'GLIBC_[0-9.]*' | sed 's/GLIBC_//' | sort -V | tail -n 1)
[ -n "$glibc" ] || refuse 'the programs do not say which glibc they ask for'
depends="libc6 (>= $glibc)"
if objdump -p "$root/usr/bin/tinmove" | grep -q 'NEEDED *libgcc_s'; then depends="$depends, libgcc-s1"; fi
cat >"$root/DEBIAN/control" <<CONTROL
Package: tinmove
Version: $version
Architecture: amd64
Maintainer: $maintainer
Installed-Size: $(du -k -s -- "$root/usr" | cut -f 1)
Depends: $depends
Suggests: gdal-bin, proj-bin, python3-gdal, python3-ezdxf
Section: science
Priority: optional
Description: carry map layers through a triangulation known in two frames
 tinmove carries layers in well-known text, GeoJSON and ASCII DXF from one
 plane reference frame to another, through a triangulation that is known in
 both, as PROJ's tinshift has it. It splits segments at the sides of
 triangles, computes in whole millimetres and exact fractions, and lists each
 pair of pieces that are related in another way than before. tinplaces puts
 these pairs on the map.
CONTROL
(cd "$root" && find usr -type f -exec md5sum {} +) | LC_ALL=C sort -k 2 >"$root/DEBIAN/md5sums"
find "$root" -exec touch -h -d "@$SOURCE_DATE_EPOCH" {} +
dpkg-deb --root-owner-group -Zxz --build "$root" "$folder/tinmove_${version}_amd64.deb" >/dev/null

lintian --fail-on error "$folder/tinmove_${version}_amd64.deb" || refuse 'lintian has an error' 1

# A root of its own, with an empty list of packages: what it needs is not there and not asked for.
there=$folder/there
mkdir -p "$there/var/lib/dpkg/info" "$there/var/lib/dpkg/updates" "$there/var/lib/dpkg/triggers"
: >"$there/var/lib/dpkg/status"
dpkg_there() {
    dpkg --root="$there" --log=/dev/null --force-not-root --force-depends --force-script-chrootless "$@" >"$folder/said" 2>&1 ||
        { tail -n 3 "$folder/said" >&2; refuse "dpkg $1 failed" 1; }
}
dpkg_there --install "$folder/tinmove_${version}_amd64.deb"
[ "$("$there/usr/bin/tinmove" --version)" = "tinmove $version" ] || refuse 'the installed tinmove does not run' 1
[ "$("$there/usr/bin/tinplaces" --version)" = "tinplaces $version" ] || refuse 'the installed tinplaces does not run' 1
files=$(find "$there/usr" ! -type d | wc -l)
dpkg_there --purge tinmove
left=$(find "$there/usr" ! -type d 2>/dev/null | wc -l)
[ "$left" -eq 0 ] || refuse "$left files are left behind" 1
cp -- "$folder/tinmove_${version}_amd64.deb" "$result.part"
mv -- "$result.part" "$result"
echo "$result: $(wc -c <"$result" | tr -d ' ') bytes, $((files)) files, glibc $glibc or later, installed and removed"
