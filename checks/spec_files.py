"""The definitions of specs, and which of them a clause or a definition rests on; reading.py and definitions.py ask.

A definition is a block of a spec file that begins at its left edge, with the comment above it. A block `mutual` is one
definition. A constructor counts as its type. A type or a constant of src that specs name, as `declared.status.Status`,
is a definition too. The toolchain's own words, and what a trait leaves open (`S.files`, `L.reads`), are not followed.
"""

import re
from collections.abc import Iterable
from functools import lru_cache
from pathlib import Path

from sources import code_of, fail

Definition = tuple[Path, str]  # a file of specs or src, and a name in it

START = re.compile(r"^(?:(?:abbrev|unfoldable|pub|data|record|mutual)\b ?)+([^\s:(]*)")
INNER = re.compile(r"^\s+(?:pub )?(?:data |record )?([^\s:(]+)(?: \(.*\))? :")
USE = re.compile(r"(?m)^\s*(?:pub )?(?:ghost )?use Rattle\.(\w+)\.specs\.([\w.'«»]+?)(?:\.\{([^}]*)\}| as (\w+))?;?$")
NAME = re.compile(r"[^\s(){}.,:;→λ×=]+|>>=")


@lru_cache(maxsize=None)
def spec(crate: str, path: str) -> tuple[Path, list[str]]:
    """Gives the file of a module and what is left of its path; a crate below may be passed on by specs/Lib.antt."""
    parts = path.split(".")
    for at in range(len(parts), 0, -1):
        file = Path("crates", crate, "specs", *parts[:at]).with_suffix(".antt")
        if file.exists():
            return file, parts[at:]
    lib = Path("crates", crate, "specs/Lib.antt")
    passed = re.search(rf"(?m)^pub use Rattle\.(\w+)\.specs\.{parts[0]}$", lib.read_text(encoding="utf-8") if lib.exists() else "")
    if not passed:
        fail(f"{crate} has no file of specs for {path}")
    return spec(passed[1], path)


def declared(crate: str, path: str, name: str) -> Definition:
    """Gives a type or a constant of src: `declared.status.Status.TheVariants` is the enum Status of src/status.rt."""
    parts = path.split(".")[1:]
    kinds = [it for it in parts if it[:1].isupper() and not it.startswith("The")]
    file = Path("crates", crate, "src", *[it for it in parts if it[:1].islower()]).with_suffix(".rt")
    return file, kinds[0] if kinds else name


@lru_cache(maxsize=None)
def imports(file: Path) -> dict[str, Definition]:
    """Gives for each name that the file imports its definition, as a file and a name."""
    found, text = {}, file.read_text(encoding="utf-8")
    for crate, path, names, alias in USE.findall(text):
        if not Path("crates", crate).exists():
            continue
        pairs = [it.strip().split(" as ") for it in names.split(",") if it.strip()]
        if alias and not path.startswith("declared"):
            pairs = [[it] for it in set(re.findall(rf"\b{alias}\.(\w+)", text))]
        elif alias:
            pairs = [[alias]]
        for pair in pairs:
            if path.startswith("declared"):
                found[pair[-1].strip("◌")] = declared(crate, path, pair[0])
            else:
                at, rest = spec(crate, path)
                found[pair[-1].strip("◌")] = (at, rest[0] if rest else pair[0].strip("◌"))
    return found


@lru_cache(maxsize=None)
def blocks(file: Path) -> tuple[dict[str, list[str]], dict[str, str]]:
    """Gives the lines of each definition of a spec file, and for each constructor or inner name its definition."""
    found, alias, comment, name, kind = {}, {}, [], None, ""
    for line in file.read_text(encoding="utf-8").splitlines():
        start = START.match(line)
        if start and not line.startswith(("pub use", "pub mod")):
            name = start[1].strip("◌") or f"mutual{len(found)}"
            found[name], kind, comment = [*comment, line], start[0], []
        elif line.startswith("--"):
            name, comment = None, [*comment, line]
        elif re.match(r"use |pub use |pub mod |infix", line):
            name, comment = None, []
        elif line.strip() and name:
            found[name].append(line)
            inner = INNER.match(line)
            if inner and (" data " in f" {kind}" or "mutual" in kind):
                alias.setdefault(inner[1], name)
    return found, alias


def lines_in_src(file: Path, name: str) -> list[str]:
    """Gives the lines of a type or a constant of src with its comment."""
    head = rf"(?:^///[^\n]*\n)*(?:^#[^\n]*\n)*^(?:pub(?:\(\w+\))? )?(?:struct|enum|const|trait) {name}\b"
    body = re.search(rf"(?ms){head}.*?(?:;$|^}}|\}}$)", file.read_text(encoding="utf-8"))
    if not body:
        fail(f"{file} declares no {name}")
    return [it for it in body[0].splitlines() if it.strip()]


def follow(starts: Iterable[Definition]) -> dict[Definition, list[str]]:
    """Gives the lines of all definitions that are reached, by file and name."""
    reached: dict[Definition, list[str]] = {}
    left = list(starts)
    while left:
        file, name = left.pop()
        if file.suffix == ".rt":
            reached[file, name] = lines_in_src(file, name)
            continue
        found, alias = blocks(file)
        name = name if name in found else alias.get(name, "")
        if not name:
            fail(f"{file}: a name that others import is not defined")
        if (file, name) not in reached:
            reached[file, name] = found[name]
            used = set(NAME.findall("\n".join(it.split(" -- ")[0] for it in found[name] if not it.lstrip().startswith("--"))))
            left += [imports(file)[it] for it in used if it in imports(file)]
            left += [(file, it) for it in used if it in found or it in alias and it not in imports(file)]
    return reached


def clause(place: str) -> set[Definition]:
    """Gives the definitions that a function's conditions and some clauses name.

    A place is a file of src, a function and labels of clauses; without labels it is the clause that has none. A label
    with a dot names a field of the record that a clause cites, as `made.kept`: then that field is read, and not the rest.
    """
    path, function, *labels = place.split()
    file = Path("crates", path)
    text = code_of(file) if file.exists() else ""
    if not re.search(rf"fn {function}\b", text):
        fail(f"{file} has no function {function}, which PROMISES names")
    contract = re.search(rf"(?ms)fn {function}\b.*?(?:^\s*\{{\}}?$|;$)", text)
    rows = re.findall(r"(?s)(ensures|requires) ?(\w*) ?\{(.*?)\}\s*(?=ensures|requires|\{|;|$)", contract[0] if contract else "")
    found = {label: text for kind, label, text in rows if kind == "ensures"}
    asked = [text for kind, _, text in rows if kind == "requires"]
    for label in labels or [""]:
        if label.split(".")[0] not in found:
            fail(f"{file}: {function} has no clause {label or 'without a label'}, which PROMISES names")
    texts = [*asked, *(found[label] for label in labels or [""] if "." not in label)]
    fields = [field(file, found[label.split(".")[0]], label.split(".")[1]) for label in labels if "." in label]
    return {imports(file)[it] for text in texts for it in NAME.findall(text) if it in imports(file)}.union(*fields)


def field(file: Path, text: str, name: str) -> set[Definition]:
    """Gives the definitions that one field of a record names, which is the first definition of a clause's text."""
    at, record = next(imports(file)[it] for it in NAME.findall(text) if it in imports(file))
    found, alias = blocks(at)
    rows = re.findall(rf"(?ms)^ +pub {name} : (.*?)(?=^ +pub |^ +--|\Z)", "\n".join(found.get(record, [])))
    if not rows:
        fail(f"{at}: {record} has no field {name}, which PROMISES names")
    used = set(NAME.findall(rows[0]))
    return {imports(at)[it] for it in used if it in imports(at)} | {(at, it) for it in used if it in found or it in alias}
