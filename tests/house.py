#!/usr/bin/env python3
"""house.py --check: that the documents fit the house. Each crate of crates.txt stands once in the tables of docs/ARCHITECTURE.md
and has one section in docs/PROOFS.md, under the same phase, and no other crate does; both have the phases in one order. Links of
README.md and docs/ lead to files and headings that are there. A path between backticks is there: from the top, or from docs/,
tests/, examples/ or crates/; in a crate it may begin at specs/, src/ or proofs/, or be a file's name alone, and in a crate's section
of docs/PROOFS.md it is in that crate or in one that the section names. NAME in it stands for any name.
And that no table of the sources is looked up by a hash of what an author writes: keys of hashed tables are numbers of 32 bits, which are given
in order, so that names can't be chosen to collide; tables of names or of pairs are ordered.
And that what is public is named by another crate.
"""
import pathlib
import re
import sys

TOP = pathlib.Path(__file__).resolve().parent.parent
DOCUMENTS = [TOP / "README.md", *sorted((TOP / "docs").glob("*.md"))]
PATH = re.compile(r"[\w.-]+(?:/[\w.*-]+)*/?")
SUFFIXES = (".md", ".py", ".rt", ".antt", ".wuffs", ".script", ".report", ".edit", ".txt")
# What is made by a run, or stands for what the reader has.
NOT_HERE = {"crates/wuffsc/out/wuffsc", "out/", "demo.wuffs"}


def read(name):
    return (TOP / name).read_text()


def lines_of(document):
    """The lines that are no code, with their numbers."""
    code = False
    for number, line in enumerate(document.read_text().splitlines(), 1):
        if line.startswith("```"):
            code = not code
        elif not code and not line.startswith("    "):
            yield number, line


def crates():
    return re.findall(r"^(\w+):", read("crates.txt"), re.MULTILINE)


def places(text, phase, crate):
    """The phases in order, and each crate that is told with its phase."""
    phases, told = [], []
    for line in text.splitlines():
        if found := re.match(phase, line):
            phases.append(found[1])
        elif found := re.match(crate, line):
            told.append((found[1], phases[-1]))
    return phases, told


def check_crates():
    rows = read("docs/ARCHITECTURE.md")
    in_rows = places(rows, r"## ([^:]+)(?::|$)", r"\| ([a-z]\w*) \|")
    in_sections = places(read("docs/PROOFS.md"), r"# ([^:]+)$", r"## ([a-z]\w*)$")
    for name, (_, told) in (("ARCHITECTURE.md", in_rows), ("PROOFS.md", in_sections)):
        names = [crate for crate, _ in told]
        yield from (f"docs/{name}: {crate} isn't there" for crate in crates() if crate not in names)
        yield from (f"docs/{name}: {crate} is no crate" for crate in names if crate not in crates())
        yield from (f"docs/{name}: {crate} is there twice" for crate in sorted(set(names)) if names.count(crate) > 1)
    sections = dict(in_sections[1])
    for crate, phase in in_rows[1]:
        if sections.get(crate, phase) != phase:
            yield f"docs/PROOFS.md: {crate} stands under {sections[crate]}, and in docs/ARCHITECTURE.md under {phase}"
    both = [[phase for phase in phases if phase in {of for _, of in told}] for phases, told in (in_rows, in_sections)]
    if both[0] != both[1]:
        yield "docs/PROOFS.md and docs/ARCHITECTURE.md have other phases, or others first"


def anchors(document):
    """The anchors of the headings of a document."""
    found = set()
    for _, line in lines_of(document):
        if line.startswith("#"):
            heading = re.sub(r"\[([^]]*)\]\([^)]*\)", r"\1", line.lstrip("#").strip()).lower()
            found.add(re.sub(r"[^\w -]", "", heading).replace(" ", "-"))
    return found


def check_links():
    for document in DOCUMENTS:
        for number, line in lines_of(document):
            for target in re.findall(r"\]\(([^)\s]+)\)", re.sub(r"`[^`]*`", "", line)):
                if re.match(r"https?://", target):
                    continue
                file, _, anchor = target.partition("#")
                there = document.parent / file if file else document
                if not there.exists():
                    yield f"{document.name}:{number}: there is no {file}"
                elif anchor and anchor not in anchors(there):
                    yield f"{document.name}:{number}: {there.name} has no heading {anchor}"


def sections(document):
    """The lines with their numbers and the crates that a path in them may be in; all crates where no crate is told."""
    lines, section, part = list(lines_of(document)), None, []
    for number, line in [*lines, (0, "## ")]:
        if re.match(r"##? ", line):
            named = [crate for crate in crates() if any(re.search(rf"\b{crate}\b", one) for _, one in part)] if section else crates()
            yield part, named
            found = re.fullmatch(r"## ([a-z]\w*)", line) if document.name == "PROOFS.md" else None
            section, part = found and found[1], []
        part.append((number, line))


def is_there(path, named):
    if path in NOT_HERE or any(any((TOP / at).glob(path.replace("NAME", "*"))) for at in (".", "docs", "tests", "examples", "crates")):
        return True
    ends = [path] if path.endswith(SUFFIXES) or path.endswith("/") else [path, path + ".antt", path + ".rt"]
    return any(any((TOP / "crates" / crate).glob(pattern)) for crate in named for end in ends
               for pattern in (end, "specs/" + end, "src/" + end, "proofs/" + end))


def check_paths():
    for document in DOCUMENTS:
        for part, named in sections(document):
            for number, line in part:
                for text in re.findall(r"`([^`]+)`", line):
                    path = re.sub(r"^\./", "", text.split()[0])
                    if PATH.fullmatch(path) and (path.endswith(SUFFIXES) or "/" in path) and not is_there(path, named):
                        yield f"{document.name}:{number}: there is no {path}"


def check_tables():
    for source in sorted((TOP / "crates").glob("*/src/**/*.rt")):
        for number, line in enumerate(source.read_text().splitlines(), 1):
            for key in re.findall(r"\b(?:Index|Hash)(?:Map|Set)<([^,>]*)", line):
                if key.strip() != "u32":
                    yield f"{source.relative_to(TOP)}:{number}: a table by a hash of {key}"


# What is public: a function's head, or a type with all that is in it.
PUBLIC = re.compile(r"^ *pub (?:const )?fn (\w+)[^{]*|^pub (?:struct|enum|trait|type|const) (\w+)(?:[^{;]*;|.*?^\})", re.MULTILINE | re.DOTALL)


def check_visible():
    """A module is public where something in it is, and what is public is named by another crate, by a word at least, or stands in what
    is public in its own. Laws and worked examples are for whoever reads them, and nothing stands on a crate of tests."""
    words = {crate: set() for crate in crates()}
    for crate, found in words.items():
        for source in (TOP / "crates" / crate).glob("**/*"):
            if source.suffix in (".rt", ".antt") and "out" not in source.parts:
                found.update(re.findall(r"\w+", source.read_text()))
    for crate in words:
        root, elsewhere = TOP / "crates" / crate / "src", set().union(*(found for other, found in words.items() if other != crate))
        sources = {source.stem: source.read_text() for source in sorted(root.glob("*.rt"))}
        for module in re.findall(r"^pub mod (\w+);", sources.get("lib", ""), re.MULTILINE):
            if not re.search(r"^ *pub (?!\()", sources[module], re.MULTILINE):
                yield f"crates/{crate}/src/lib.rt: nothing in {module} is public"
        public = [(stem, it) for stem, text in sources.items() for it in PUBLIC.finditer(text)]
        for stem, it in public:
            name = it[1] or it[2]
            is_law = crate.endswith(("_laws", "_tests")) or stem in ("laws", "examples") or re.search(r"\{\s*\}\s*$|^ *pub fn \w+\(\)\s*(?:ensures|requires)", it[0])
            if name not in elsewhere and not is_law and not any(re.search(rf"\b{name}\b", other[0]) for _, other in public if other is not it):
                yield f"crates/{crate}/src/{stem}.rt: no other crate names {name}"


def main():
    if sys.argv[1:] != ["--check"]:
        sys.exit(__doc__)
    wrong = [*check_crates(), *check_links(), *check_paths(), *check_tables(), *check_visible()]
    for line in wrong:
        print(line)
    print(f"house: {len(crates())} crates, {len(DOCUMENTS)} documents, {len(wrong)} failed")
    sys.exit(1 if wrong else 0)


if __name__ == "__main__":
    main()
