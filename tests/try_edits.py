#!/usr/bin/env python3
"""Tries the wrong versions of the crates' code, tests/edits/CRATE/*.edit: the prover must refuse each.

usage: try_edits.py [--fits | --untried] [--jobs N] [--clone FOLDER] [CRATE..]    all crates that have edits are the default
An edit is a line 'file: PATH' and pairs of lines 'old: TEXT' and 'new: TEXT'; each old TEXT stands once in that file.
The last commit is tried, in a clone that is removed again, N crates at a time (1 is the default). Edits of the bodies of different
functions are tried together in one check of the crate: what a function promises stays, so that no edit changes the verdict on another's
function, and each edited function must come out unproved. What that check doesn't refuse is tried alone, by `rt must-fail`.
What was tried is kept in tests/out/, by the sums of the edit, of its crate and of the crates below that one, and isn't tried again.
With --clone the clone is FOLDER, which is made where it isn't there and stays, with the libraries that it has proved.
A crate of which all edits are refused gets a line in tests/edits/tried.txt, with a sum of its edits, of itself and of all that it
stands on; with --untried the crates are listed whose line is missing or has another sum, so that they have to be tried again.
With --fits nothing is proved: it only looks whether each edit, those of crates/CRATE/must-fail/ too, which `rt ci` tries,
can be applied to the files as they stand.
Prints a line for each edit, and last how many passed; ends with 1 where an edit isn't refused.
"""
import argparse
import concurrent.futures
import contextlib
import hashlib
import pathlib
import re
import shutil
import subprocess
import sys
import tempfile

ROOT = pathlib.Path(__file__).resolve().parent.parent
KEPT = ROOT / "tests" / "out" / "edits"
RECORD = ROOT / "tests" / "edits" / "tried.txt"
RECORD_HEAD = "# A crate, the kit with which all its wrong versions were refused, how many there were then, and a sum. Written by tests/try_edits.py.\n"
TOLD = re.compile(r"must-fail (\w+)/(\S+\.edit): (refused|BAD EDIT|NOT REFUSED|NOT TRIED)(.*)")
# What `rt check` prints of a function.
VERDICT = re.compile(r"^fn (\S+): (proved|not proved|no proof)(.*)$", re.M)
CALLS = re.compile(r"(; )?it calls .* not proved")
FUNCTION = re.compile(r"(?P<indent> *)(?:pub(?:\(crate\))? )?(?:const )?fn (?P<name>\w+)")
IMPL = re.compile(r"impl(?:<.*?>)? (?:[\w:<>', ]+ for )?(?P<type>\w+)")
# What comes to the same whenever the same is tried.
SETTLED = ("refused", "BAD EDIT", "NOT REFUSED")


def edits_of(root, crate):
    return sorted((root / "tests" / "edits" / crate).glob("*.edit"))


def crates_with_edits(root):
    folders = [*(root / "tests" / "edits").iterdir(), *(folder.parent for folder in (root / "crates").glob("*/must-fail"))]
    return sorted({folder.name for folder in folders if folder.is_dir()})


def misfit(edit, folder):
    """Why an edit can't be applied to the crate in a folder, or an empty text."""
    path, old, texts, first = None, None, {}, {}
    for line in edit.read_text().split("\n"):
        if line.startswith("file: "):
            path = line[len("file: "):].strip()
            if not re.match(r"(src|specs|proofs)/", path) or not (folder / path).is_file():
                return f"there is no file {path}"
        elif line.startswith("old: "):
            old = line[len("old: "):]
        elif line.startswith("new:"):
            if path is None or not old:
                return "a 'new:' line stands before its 'file:' and 'old:' lines"
            if path not in texts:
                texts[path] = first[path] = (folder / path).read_text()
            times = texts[path].count(old)
            if times != 1:
                return f"'{old}' stands in {path} {times} times"
            texts[path], old = texts[path].replace(old, line[len("new:"):].removeprefix(" ")), None
    return "" if texts != first else "it changes nothing"


def pairs_of(edit):
    """The changes of an edit: (file, old text, new text) each."""
    path, old, pairs = None, None, []
    for line in edit.read_text().split("\n"):
        if line.startswith("file: "):
            path = line[len("file: "):].strip()
        elif line.startswith("old: "):
            old = line[len("old: "):]
        elif line.startswith("new:"):
            pairs.append((path, old, line[len("new:"):].removeprefix(" ")))
    return pairs


def function_at(text, at):
    """The function in whose body a place of a file's text stands: the type whose it is, or None, and its name; None at any other place."""
    lines, here = text.split("\n"), text.count("\n", 0, at)
    for first in range(here, -1, -1):
        opens = FUNCTION.match(lines[first])
        if not opens:
            continue
        indent = opens["indent"]
        body = next((n for n in range(first, len(lines)) if lines[n] == indent + "{" or lines[n].endswith(" {")), len(lines))
        end = next((n for n in range(first, len(lines)) if lines[n] == indent + "}"), 0)
        if not body < here < end:
            return None
        owner = next((IMPL.match(lines[n]) for n in range(first, -1, -1) if indent and lines[n].startswith("impl")), None)
        return (owner["type"] if owner else None, opens["name"])
    return None


def bodies_of(edit, folder):
    """The functions of whose bodies alone an edit changes something, as (module, type, name), or None where it changes anything else."""
    texts, found = {}, set()
    for path, old, new in pairs_of(edit):
        if not path.startswith("src/"):
            return None
        text = texts.get(path, (folder / path).read_text())
        function = function_at(text, text.index(old))
        if not function:
            return None
        module = "::".join(pathlib.PurePath(path[len("src/"):]).with_suffix("").parts)
        found.add(("" if module == "lib" else module, *function))
        texts[path] = text.replace(old, new)
    return found


def apart(edits, folder):
    """Edits of the bodies of different functions, as many as there are, each with its functions."""
    taken = []
    for edit in edits:
        bodies = bodies_of(edit, folder)
        if bodies and not any(bodies & others for _, others in taken):
            taken.append((edit, bodies))
    return taken


def verdict_on(body, crate, verdicts):
    """What a check says of a function, ('no proof', why) for instance, or None where it says nothing, or names more than one such function."""
    module, owner, name = body
    if owner:
        # (told with the module of the type, and a trait's with the name of the trait after that of the type)
        named = [it for it in verdicts if it.endswith(f"::{name}") and it.split("::")[-2].startswith(owner)]
    else:
        named = ["::".join(part for part in (crate, module, name) if part)]
    return verdicts.get(named[0]) if len(named) == 1 else None


def look_whether_they_fit(crates):
    passed = failed = 0
    for crate in crates:
        for edit in edits_of(ROOT, crate) + sorted((ROOT / "crates" / crate / "must-fail").glob("*.edit")):
            why = misfit(edit, ROOT / "crates" / crate)
            passed += not why
            failed += bool(why)
            if why:
                print(f"{crate}/{edit.name}: {why}")
    return passed, failed


def lines_of_crates(root):
    """The line of crates.txt of each crate."""
    lines = (root / "crates.txt").read_text().split("\n")
    return {line.split(":")[0].split()[0]: line for line in lines if ":" in line and not line.startswith("#")}


def below(lines):
    """The crates of the repository that each crate stands on, itself among them."""
    uses = {name: line.partition(":")[2].split() for name, line in lines.items()}
    reached = {}

    def reach(name):
        if name not in reached:
            reached[name] = {name}.union(*(reach(one) for one in uses[name] if one in uses))
        return reached[name]

    for name in uses:
        reach(name)
    return reached


def sum_of_crate(root, crate):
    total = hashlib.sha256()
    for part in ("src", "specs", "proofs"):
        for file in sorted((root / "crates" / crate / part).rglob("*")):
            if file.is_file():
                total.update(f"{file.relative_to(root)}\0".encode() + hashlib.sha256(file.read_bytes()).digest())
    return total.hexdigest()


class Trial:
    """A clone in which the edits of crates are tried."""

    def __init__(self, clone):
        self.clone, self.lines, self.sums = clone, lines_of_crates(clone), {}
        self.below = below(self.lines)
        self.kit = subprocess.run(["rt", "version"], capture_output=True, text=True, check=True).stdout

    def sum(self, crate):
        if crate not in self.sums:
            self.sums[crate] = sum_of_crate(self.clone, crate)
        return self.sums[crate]

    def place(self, crate, edit):
        """Where the result of an edit is kept."""
        stands_on = [f"{self.lines[one]} {self.sum(one)}" for one in sorted(self.below[crate])]
        said = "\0".join([self.kit, *stands_on, edit.read_text()])
        return KEPT / hashlib.sha256(f"{crate}\0{said}".encode()).hexdigest()

    def whole_sum(self, crate):
        """A sum of a crate's edits, of the crate and of all that it stands on."""
        stands_on = "\0".join(f"{self.lines[one]} {self.sum(one)}" for one in sorted(self.below[crate]))
        edits = "\0".join(f"{edit.name}\0{edit.read_text()}" for edit in edits_of(self.clone, crate))
        return hashlib.sha256(f"{stands_on}\0{edits}".encode()).hexdigest()[:16]

    @staticmethod
    def keep(place, came):
        KEPT.mkdir(parents=True, exist_ok=True)
        place.write_text("\n".join(came))

    def together(self, crate, taken):
        """What one check with all these edits, of the bodies of different functions, says of each, as (what it came to, why)."""
        folder = self.clone / "crates" / crate
        texts = {}
        for edit, _ in taken:
            for path, old, new in pairs_of(edit):
                was, text = texts.get(path) or [(folder / path).read_text()] * 2
                texts[path] = was, text.replace(old, new)
        try:
            for path, (_, text) in texts.items():
                (folder / path).write_text(text)
            ran = subprocess.run(["rt", "check", "--jobs", "1"], cwd=folder, stdin=subprocess.DEVNULL, stdout=subprocess.PIPE, stderr=subprocess.STDOUT,
                                 text=True, errors="replace")
        finally:
            for path, (was, _) in texts.items():
                (folder / path).write_text(was)
        verdicts = {match[1]: (match[2], match[3].lstrip(": ")) for match in VERDICT.finditer(ran.stdout)}
        if not verdicts and 1 < len(taken):
            # (one that isn't compiled keeps the others from the prover)
            half = len(taken) // 2
            return {**self.together(crate, taken[:half]), **self.together(crate, taken[half:])}
        came = {}
        for edit, bodies in taken:
            said = [verdict_on(body, crate, verdicts) for body in bodies]
            if None in said or all(word == "proved" for word, _ in said):
                came[edit.name] = ("not refused", "")
            else:
                came[edit.name] = next((("refused", why) for word, why in said if word != "proved" and not CALLS.match(why)), ("not reached", ""))
        return came

    def refused_together(self, crate, edits):
        """Which of the edits are refused where those of different functions are tried together, and why."""
        left, refused = edits, {}
        while taken := apart(left, self.clone / "crates" / crate):
            came = self.together(crate, taken)
            refused.update({name: it for name, it in came.items() if it[0] == "refused"})
            # (one whose function calls an edited one has its turn when that is settled)
            settled = [edit for edit, _ in taken if came[edit.name][0] != "not reached"]
            if not settled:
                break
            left = [edit for edit in left if edit not in settled]
        return refused

    def tried(self, crate):
        """What each edit of a crate came to, with what the prover said, in the edits' order."""
        edits = edits_of(self.clone, crate)
        places = {edit.name: self.place(crate, edit) for edit in edits}
        told = {name: tuple(place.read_text().split("\n", 1)) for name, place in places.items() if place.is_file()}
        new = [edit for edit in edits if edit.name not in told]
        for name, came in self.refused_together(crate, new).items():
            self.keep(places[name], came)
            told[name] = came
        new = [edit for edit in edits if edit.name not in told]
        if new:
            folder = self.clone / "crates" / crate / "must-fail"
            shutil.rmtree(folder, ignore_errors=True)
            folder.mkdir()
            for edit in new:
                shutil.copy(edit, folder)
            ran = subprocess.run(["rt", "must-fail", crate], cwd=self.clone, stdin=subprocess.DEVNULL, stdout=subprocess.PIPE,
                                 stderr=subprocess.STDOUT, text=True, errors="replace")
            found = {match[2]: (match[3], match[4].removeprefix(", as it must be").lstrip(": ")) for match in TOLD.finditer(ran.stdout) if match[1] == crate}
            for edit in new:
                came = found.get(edit.name, ("NOT TRIED", ran.stdout[-300:]))
                told[edit.name] = came
                if came[0] in SETTLED:
                    self.keep(places[edit.name], came)
        return [(f"{crate}/{edit.name}", *told[edit.name]) for edit in edits]


@contextlib.contextmanager
def cloned(folder):
    """A clone of the last commit: the folder, or one that is removed again."""
    with tempfile.TemporaryDirectory(prefix="edits-") as room:
        clone = pathlib.Path(folder).resolve() if folder else pathlib.Path(room, "clone")
        if not clone.exists():
            subprocess.run(["git", "clone", "-q", str(ROOT), str(clone)], check=True)
        for words in (["fetch", "-q", str(ROOT), "HEAD"], ["checkout", "-q", "--force", "--detach", "FETCH_HEAD"]):
            subprocess.run(["git", *words], cwd=clone, check=True)
        yield clone


def try_all(crates, jobs, folder):
    passed = failed = 0
    with cloned(folder) as clone:
        trial = Trial(clone)
        with concurrent.futures.ThreadPoolExecutor(jobs) as pool:
            for crate, results in zip(crates, pool.map(trial.tried, crates)):
                for name, came, said in results:
                    passed += came == "refused"
                    failed += came != "refused"
                    print(f"{name}: {came}: {said}", flush=True)
                if all(came == "refused" for _, came, _ in results):
                    record(crate, f"{crate} {trial.kit.split()[0]} {len(results)} {trial.whole_sum(crate)}")
    return passed, failed


def recorded():
    """The lines of the record by their crates."""
    lines = RECORD.read_text().split("\n") if RECORD.is_file() else []
    return {line.split(" ")[0]: line for line in lines if line and not line.startswith("#")}


def record(crate, line):
    lines = {**recorded(), crate: line}
    RECORD.write_text(RECORD_HEAD + "".join(f"{lines[name]}\n" for name in sorted(lines)))


def list_untried(crates):
    """Lists the crates whose edits weren't all refused as everything stands now; answers how many were, and how many weren't."""
    trial, lines = Trial(ROOT), recorded()
    untried = [crate for crate in crates if edits_of(ROOT, crate) and lines.get(crate, "").split(" ")[-1] != trial.whole_sum(crate)]
    print("".join(f"{crate}\n" for crate in untried), end="")
    return len(crates) - len(untried), len(untried)


def main():
    options = argparse.ArgumentParser(usage="try_edits.py [--fits | --untried] [--jobs N] [--clone FOLDER] [CRATE..]")
    options.add_argument("--fits", action="store_true")
    options.add_argument("--untried", action="store_true")
    options.add_argument("--jobs", type=int, default=1)
    options.add_argument("--clone")
    options.add_argument("crates", nargs="*")
    given = options.parse_args()
    every = crates_with_edits(ROOT)
    unknown = [name for name in given.crates if name not in every]
    if unknown:
        options.error(f"{unknown[0]} is no crate with edits")
    crates = given.crates or every
    if given.untried:
        tried, untried = list_untried(crates)
        print(f"crates whose edits were all refused as they stand: {tried} of {tried + untried}")
        return 0
    passed, failed = look_whether_they_fit(crates) if given.fits else try_all(crates, given.jobs, given.clone)
    print(f"{'edits that fit' if given.fits else 'edits'}: {passed} passed, {failed} failed")
    return 1 if failed or not passed else 0


if __name__ == "__main__":
    sys.exit(main())
