"""What a run is of: its settings, and the communes of each batch, with the sizes and dates of their files.

The plan is made by the workflow before its jobs, and written where it has changed; a summary that is
not of this plan is removed first, and so are the results of communes that are no longer there.
"""
import fcntl
import glob
import os
import re
import shutil
import subprocess

import files
import layers
import programs

HERE = os.path.dirname(os.path.abspath(__file__))
FORMATS = (*layers.NATIVE, ".gpkg")
SUMMARY = ("summary.html", "summary.csv", "borders.csv", "changes.gpkg", "ledger.csv", "work/done")
DEFAULTS = {
    "options": "",
    "name": "",
    "epsg": "",
    "batch": 25,
    "tinmove": "tinmove",
    "tinplaces": "tinplaces",
    "tinledger": "",
}


class PlanFault(Exception):
    """What a person has to mend before anything can run."""


def path_of(config, name):
    if not config.get(name):
        raise PlanFault(f"the configuration has no '{name}'")
    return os.path.abspath(os.path.expanduser(str(config[name])))


def program_of(config, name):
    word = os.path.expanduser(str(config[name]))
    found = shutil.which(word)
    if not found:
        raise PlanFault(f"{name}: there is no program {word}")
    return os.path.abspath(found)


def help_of(program):
    """What the program says of its options; with no such text it is taken to have none that are new."""
    ran = subprocess.run([program, "--help"], stdin=subprocess.DEVNULL, capture_output=True, check=False)
    return ran.stdout.decode("utf-8", "replace")


def settings_of(config):
    config = DEFAULTS | {key: value for key, value in config.items() if value is not None}
    options = config["options"].split() if isinstance(config["options"], str) else [str(it) for it in config["options"]]
    plan = {"options": options, "name": str(config["name"]), "epsg": str(config["epsg"])}
    if not plan["epsg"].isdigit():
        raise PlanFault("the configuration's 'epsg' is the number of the frame of the result, as 2056")
    if not re.fullmatch("[1-9][0-9]*", str(config["batch"])):
        raise PlanFault("the configuration's 'batch' is a whole number above 0")
    for name in ("tin", "communes"):
        plan[name] = path_of(config, name)
    plan["tinmove"], plan["tinplaces"] = program_of(config, "tinmove"), program_of(config, "tinplaces")
    plan["tinledger"] = program_of(config, "tinledger") if config["tinledger"] else ""
    if not os.path.isfile(plan["tin"]):
        raise PlanFault(f"tin: there is no file {plan['tin']}")
    if not os.path.isdir(plan["communes"]):
        raise PlanFault(f"communes: there is no folder {plan['communes']}")
    offered = help_of(plan["tinplaces"])
    plan["has_name"], plan["has_across"] = "--name" in offered, "--across" in offered
    plan["options_of_places"] = [it for it in options if it not in ("--cert", "--sides")]
    return plan, int(config["batch"])


def digest_of(plan):
    """One for all that a commune's result depends on but its own files."""
    scripts = sorted(glob.glob(os.path.join(glob.escape(HERE), "*.py")))
    contents = [files.digest_of_file(it) for it in [plan["tin"], plan["tinmove"], plan["tinplaces"], *scripts]]
    rest = {key: plan[key] for key in ("tin", "options", "name", "epsg", "has_name", "has_across")}
    return files.digest_of(files.text_of([rest, contents]).encode())


def communes_of(folder):
    """Each folder that is not hidden, with its layers and the names of the files that are none."""
    found = []
    for name in sorted(os.listdir(folder)):
        path = os.path.join(folder, name)
        if name.startswith(".") or not os.path.isdir(path):
            continue
        rows, others = [], []
        for it in sorted(os.listdir(path)):
            if is_layer(path, it):
                rows.append([it, *size_and_date(os.path.join(path, it))])
            else:
                others.append(it)
        found.append({"name": name, "files": rows, "others": others})
    return found


def is_layer(folder, name):
    """A link that leads nowhere is one, and is refused; a folder or a pipe is none, whatever its name."""
    path = os.path.join(folder, name)
    return (
        name.lower().endswith(FORMATS)
        and not name.startswith(".")
        and (os.path.isfile(path) or not os.path.exists(path))
    )


def size_and_date(path):
    """Of a file that cannot be looked at, zeros: it is refused when it is read."""
    try:
        state = os.stat(path)
        return [state.st_size, state.st_mtime_ns]
    except OSError:
        return [0, 0]


def batch_of(name, count):
    """The number of the batch of a commune: by its name, so that another commune leaves it where it is."""
    return int(files.digest_of(os.fsencode(name))[:8], 16) % count


def batches_of(communes, size):
    """The communes by batches; their number is a power of two, so that it seldom changes."""
    count = 1
    while count * size < len(communes):
        count *= 2
    batches = [[] for _ in range(count)]
    for it in communes:
        batches[batch_of(it["name"], count)].append(it)
    return batches


def lock(out):
    """Held as long as the workflow runs. Its jobs are started with it closed."""
    os.makedirs(os.path.join(out, "work"), exist_ok=True)
    file = open(os.path.join(out, "work", "lock"), "a", encoding="ascii")  # stays open
    try:
        fcntl.flock(file, fcntl.LOCK_EX | fcntl.LOCK_NB)
    except OSError:
        raise PlanFault(f"another run is at work in {out}") from None
    return file


def remove(path):
    if os.path.isdir(path) and not os.path.islink(path):
        shutil.rmtree(path)
    elif os.path.lexists(path):
        os.remove(path)


def write_plan(config):
    """Writes the plan into the folder of results, where it is not there yet; gives it and the lock."""
    out = path_of(config, "out")
    plan, size = settings_of(config)
    if os.path.commonpath([out, plan["communes"]]) in (out, plan["communes"]):
        raise PlanFault("the folder of results and that of the communes may not lie in each other")
    held = lock(out)
    communes = communes_of(plan["communes"])
    plan["digest"] = digest_of(plan)
    batches = batches_of(communes, size)
    plan["batches"] = [f"{it:04}" for it in range(len(batches))]
    texts = {"work/plan.json": files.text_of(plan)}
    for number, batch in zip(plan["batches"], batches):
        texts[f"work/batches/{number}.json"] = files.text_of({"settings": plan["digest"], "communes": batch})
    bring(out, texts, {it["name"] for it in communes})
    return plan, held


def bring(out, texts, names):
    """Removes what is not of this plan, the summary first, and writes what is new of it."""

    def of_out(path):
        return os.path.join(out, path)

    def content(path):
        try:
            with open(of_out(path), encoding="ascii") as file:
                return file.read()
        except (OSError, ValueError):
            return None

    old = {it for it in gone(out, texts, names) if os.path.lexists(of_out(it))}
    new = {path: text for path, text in texts.items() if content(path) != text}
    if old or new:
        for path in SUMMARY:
            remove(of_out(path))
    for path in sorted(old):
        remove(of_out(path))
    for path, text in sorted(new.items()):
        files.write_whole(of_out(path), text)


def gone(out, texts, names):
    """Folders of communes that are no longer there, batches beyond the last, and what has to be tried again."""
    for name in os.listdir(os.path.join(out, "communes")) if os.path.isdir(os.path.join(out, "communes")) else ():
        if name not in names and not name.startswith(".new-"):
            yield os.path.join("communes", name)
    for kind in ("batches", "carried", "extents", "borders", "kept", "locks", "times"):
        folder = os.path.join(out, "work", kind)
        for name in os.listdir(folder) if os.path.isdir(folder) else ():
            number = name.split(".")[0].rsplit("-", 1)[-1]
            is_old = f"work/batches/{number}.json" not in texts
            if is_old or (
                kind in ("carried", "extents", "borders") and has_to_be_made_again(os.path.join(folder, name))
            ):
                yield os.path.join("work", kind, name)


def has_to_be_made_again(path):
    """Whether a result is not whole, or has a refusal that another run may not have."""
    rows = files.read_json(path) if path.endswith(".json") else []
    return rows is None or any(it["cause"] in programs.PASSING for it in rows)
