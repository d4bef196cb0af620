"""Runs of tinmove, tinplaces and ogr2ogr, and the processor time that they take."""
import resource
import subprocess

OPTIONS_OF_VERIFY = ("--inverse", "--exact", "--inside-only", "--drop-other")
seconds = {"runs": 0, "own": 0.0, "other": 0.0}


def children():
    used = resource.getrusage(resource.RUSAGE_CHILDREN)
    return used.ru_utime + used.ru_stime


def run(words, folder, kind="own"):
    """Status, standard output and standard error. The status of a run that a signal ended is 128 and its number."""
    before = children()
    try:
        ran = subprocess.run(words, cwd=folder, stdin=subprocess.DEVNULL, capture_output=True, check=False)
        result = ran.returncode if ran.returncode >= 0 else 128 - ran.returncode, ran.stdout, ran.stderr
    except OSError as error:
        result = 127, b"", f"{words[0]}: {error.strerror}\n".encode("utf-8", "backslashreplace")
    seconds["runs"] += 1
    seconds[kind] += children() - before
    return result


class Refused(Exception):
    """A run that has no output, with its status and the first line of standard error."""

    def __init__(self, status, line):
        super().__init__(line)
        self.status, self.line = status, line


def output_of(words, folder):
    """Standard output of a run of tinmove or tinplaces that was not refused."""
    status, output, messages = run(words, folder)
    if status not in (0, 1):
        raise Refused(status, first_line(messages) or first_line(output))
    return output


def first_line(data):
    """The first line of standard error as text for a person: no control characters."""
    line = data.decode("utf-8", "backslashreplace").split("\n")[0]
    return shown(line)[:500]


def shown_lines(data):
    """All of standard error as text for a person."""
    return "".join(shown(it) + "\n" for it in data.decode("utf-8", "backslashreplace").splitlines())


def shown(text):
    text = text.encode("utf-8", "backslashreplace").decode()
    return "".join(it if it.isprintable() else it.encode("unicode_escape").decode() for it in text)


CHANGED = "layers changed while the workflow ran"
CAUSES = {
    2: "words",
    3: "triangulation",
    4: "layer",
    5: "outside",
    6: "reading",
    7: "writing",
    8: "memory",
    9: "limit",
    10: "not certified",
    127: "program is missing",
}
# Of these another run may end otherwise although nothing changed.
PASSING = (CHANGED, "reading", "writing", "memory", "program is missing", "signal", "conversion", "script")


def cause_of(status):
    return CAUSES.get(status, "signal" if status > 128 else "other")
