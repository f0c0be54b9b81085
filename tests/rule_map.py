#!/usr/bin/env python3
"""rule_map.py [--check]: writes docs/RULE-MAP.md, which tells for each rule of refusal where it stands.

The rules are the sections of docs/RULES.md. The rules of types and of names have rows in two tables, and judgements with the
names of the rows. A rule's other definitions are the constructors and the definitions in specs/ that name it, its functions
those in src/ that answer it, its tests the examples of its section, the files of tests/ with a row that expects it, and the
file of tests/second_opinion/ that refuses by it. A row of the rules of
types or of names, what code is judged by and the function that decides it in src/ have one name, with the kind of part after
it where each kind has its own; a record that is the judgement has its row's name as records are written. --check writes nothing
and fails where the page isn't what would be written, a rule lacks one of these, a row of these two tables has no such judgement
or no such function, or a function in wf_types_* or wf_names_* answers such a rule that has no row's name, nor that of a
definition beside the table.
"""
import pathlib
import re
import sys

TOP = pathlib.Path(__file__).resolve().parent.parent
PAGE = TOP / "docs" / "RULE-MAP.md"
HEAD = """# Where each rule stands

Made by `tests/rule_map.py` from docs/RULES.md, the crates and tests/; `tests/rule_map.py --check` runs in `.ci/run`. The rules of
names and those of types and effects have a table each, in which a rule has one row or more. A row has a judgement, which tells where
a part of a package breaks the rule so, and a function in src/ that judges by it; the three have one name, with the kind of part after
it where each kind has its own, and a judgement that is a record has the name as records are written. The fourth column has the
definitions in specs/ that name the rule besides: of the other rules, whose definition isn't a row, these are the definition, and
what states of it what code finds. Every rule has its printed name, and its rank among rules at one place, in wf_text
(`specs/RuleNames`, `specs/Precedence`). Tests are the files of tests/ with a row that expects the rule, and the file of the second
checker, tests/second_opinion/, that refuses by it. In the columns of specs/ `wf_types_rules/Judgements: NAME` is NAME in
`crates/wf_types_rules/specs/Judgements.antt`; in that of src/ `wf_tool/taking: NAME` is NAME in `crates/wf_tool/src/taking.rt`.

| Rule | Row of the table (specs/) | Judgement (specs/) | Other definitions (specs/) | Code (src/) | Tests |
|---|---|---|---|---|---|
"""
# A name that a definition, a constructor or a function begins with.
DEFINED = re.compile(r"^(?:unfoldable |abbrev )?(?:pub )?(?:record |data )?([A-Za-z_][\w-]*)(?: .*)?(?: :| =)")
CONSTRUCTOR = re.compile(r"^  ([a-z][\w-]*) :")
# A row of a table: a rule with the definition that tells where it is broken.
ROW = re.compile(r"^\s+(?:∷ )?\(([A-Z]\d+), ([a-z][\w-]*)\)$")
# A comment above a constructor, with the rules that it is a row of.
TOLD = re.compile(r"\s*-- ([A-Z]\d+(?:, [A-Z]\d+)*):")
# The tables whose rows have the names of functions in src/, each with what the names of the crates that these stand in begin with.
NAMED_ROWS = {"crates/wf_types_rules/specs/TypeRules.antt": "wf_types_", "crates/wf_names_rules/specs/NameRules.antt": "wf_names_"}
# Files of tests/ that name rules and expect none of them.
NO_TESTS = ("rule_map.py", "rule_examples.py", "rules.py", "wrong_rules.py")
FUNCTION = re.compile(r"^\s*(?:pub(?:\([a-z]+\))? )?(?:const )?(?:fn|const) (\w+)")


def sections(text):
    """The rules of the page in order, each with the number of its examples."""
    found, rule = {}, None
    for line in text.splitlines():
        heading = re.fullmatch(r"## ([A-Z]\d+)", line)
        if heading:
            rule = heading.group(1)
            found[rule] = 0
        elif rule and re.match(r"```wuffs|- \[(refused|passes)", line):
            found[rule] += 1
    return found


def code_only(line, mark):
    return line.split(mark)[0]


def named_in_specs(rules):
    """For each rule: crate, file and names of the rows, constructors and definitions that name it, tables of rules first."""
    found = {rule: {} for rule in rules}
    for file in sorted(TOP.glob("crates/*/specs/**/*.antt")):
        where = (file.relative_to(TOP).parts[1], file.stem)
        if where[0] == "wf_text":
            continue
        told, name = [], ""
        for line in file.read_text().splitlines():
            if line.startswith("use "):
                continue
            comment = TOLD.match(line)
            if comment:
                told = comment.group(1).split(", ")
                continue
            if line.strip().startswith("--"):
                continue
            constructor, definition, row = CONSTRUCTOR.match(line), DEFINED.match(line), ROW.match(line)
            if row:
                name = row.group(2)
            elif constructor:
                name = constructor.group(1)
            elif definition and not line.startswith(" "):
                name = definition.group(1)
            here = set(re.findall(r"\b[A-Z]\d+\b", code_only(line, "--")))
            for rule in rules:
                if rule in told and (constructor or definition) or rule in here:
                    names = found[rule].setdefault(where, [])
                    if name and name not in names:
                        names.append(name)
            if constructor or definition or row:
                told = []
    return found


def rows_of(table):
    """The rows of a table, each with its rule: a rule with a definition, or a constructor below a comment that tells its rules."""
    told = []
    for line in table.read_text().splitlines():
        comment, row, constructor = TOLD.match(line), ROW.match(line), CONSTRUCTOR.match(line)
        if comment:
            told = comment.group(1).split(", ")
        elif row:
            yield row.group(1), row.group(2)
        elif constructor:
            yield from ((rule, constructor.group(1)) for rule in told)
            told = []


def functions_of(crates):
    """The functions of the crates whose names begin so, each with its crate and file."""
    return [((file.relative_to(TOP).parts[1], file.stem), function.group(1)) for file in sorted(TOP.glob(f"crates/{crates}*/src/*.rt"))
            for line in file.read_text().splitlines() if (function := FUNCTION.match(line))]


def rows_with_functions():
    """For each rule of the tables: its rows' names, each with the functions of that name, with their crates and files."""
    found = {}
    for table, crates in NAMED_ROWS.items():
        functions = functions_of(crates)
        for rule, row in rows_of(TOP / table):
            kinds = re.compile(rf"{row}(_(in|of|by|with)_\w+)?")
            found.setdefault(rule, {})[row] = [function for function in functions if kinds.fullmatch(function[1])]
    return found


def place_of(file):
    """The crate and the name of a file."""
    return (file.relative_to(TOP).parts[1], file.stem)


def rows_with_judgements():
    """For each rule of the tables: its rows' names, each with the table's place and the definitions beside the table that have it."""
    found = {}
    for table, crates in NAMED_ROWS.items():
        files = [file for file in sorted(TOP.glob(f"crates/{crates}*/specs/**/*.antt")) if file != TOP / table]
        names = dict.fromkeys((place_of(file), definition.group(1)) for file in files for line in file.read_text().splitlines()
                              if not line.startswith((" ", "use ")) and (definition := DEFINED.match(line)))
        for rule, row in rows_of(TOP / table):
            as_record = "".join(word.capitalize() for word in row.split("_"))
            kinds = re.compile(rf"{row}(_(in|of|by|with)_\w+)?|{as_record}")
            judgements = [judgement for judgement in names if kinds.fullmatch(judgement[1])]
            found.setdefault(rule, {})[row] = (place_of(TOP / table), judgements)
    return found


def by_place(named):
    """Names by the places that they stand at, each once."""
    places = {}
    for place, name in named:
        names = places.setdefault(place, [])
        if name not in names:
            names.append(name)
    return places


def without(places, others):
    """The names that don't stand among others, and in none of the tables."""
    tables = {place_of(TOP / table) for table in NAMED_ROWS}
    return {place: left for place, names in places.items() if place not in tables
            and (left := [name for name in names if name not in others.get(place, [])])}


def names_beside(table):
    """The definitions of a table's file that aren't rows."""
    return {definition.group(1) for line in (TOP / table).read_text().splitlines() if not line.startswith(" ") and (definition := DEFINED.match(line))}


def named_in_code(rules, rows):
    """For each rule: crate, file and functions that answer it, those that have a row's name in place of who calls them."""
    found = {rule: {} for rule in rules}
    named = {rule: {name for functions in rows.get(rule, {}).values() for _, name in functions} for rule in rules}
    for file in sorted(TOP.glob("crates/*/src/**/*.rt")):
        crate = file.relative_to(TOP).parts[1]
        if crate == "wf_text" or crate.endswith("_tests"):
            continue
        name = ""
        lines = file.read_text().splitlines()
        for line, after in zip(lines, lines[1:] + [""]):
            function = FUNCTION.match(line)
            if function:
                name = function.group(1)
            for rule, called in re.findall(r"\bRule::([A-Z]\d+)\b(?:,\s*(\w+)\()?", code_only(line, "//") + after):
                if rule in found and f"Rule::{rule}" in code_only(line, "//"):
                    teller = called if called in named[rule] else name
                    names = found[rule].setdefault((crate, file.stem), [])
                    if teller and teller not in names:
                        names.append(teller)
    return found


def add_functions_of_rows(code, rows):
    """Adds the functions that have a row's name."""
    for rule, named in rows.items():
        for place, name in [function for functions in named.values() for function in functions]:
            names = code[rule].setdefault(place, [])
            if name not in names:
                names.append(name)


def without_a_row(rule, code, rows):
    """The functions that answer a rule of the two tables and have neither a row's name nor that of a definition beside the table."""
    named = {name for functions in rows.get(rule, {}).values() for _, name in functions}
    for table, crates in NAMED_ROWS.items():
        beside = names_beside(table)
        for (crate, file), names in code[rule].items():
            if crate.startswith(crates):
                yield from (f"{name} of {crate}/{file}" for name in names if name not in named | beside)


def drop_helpers(rule, code, rows):
    """Drops the functions that answer a rule of the two tables by the name of a helper of the table's file, where rows have functions."""
    named = {name for functions in rows.get(rule, {}).values() for _, name in functions}
    if not named:
        return
    for table, crates in NAMED_ROWS.items():
        helpers = names_beside(table) - named
        for place in [place for place in code[rule] if place[0].startswith(crates)]:
            code[rule][place] = [name for name in code[rule][place] if name not in helpers]
            if not code[rule][place]:
                del code[rule][place]


def named_in_tests(rules):
    """For each rule: the files with a text that is an answer by it, and those of the second checker that refuse by it."""
    found = {rule: [] for rule in rules}
    for file in sorted(TOP.glob("tests/*.py")) + sorted(TOP.glob("tests/second_opinion/*.py")):
        if file.name in NO_TESTS:
            continue
        text = "\n".join(re.sub(r"(^|\s)# .*", "", line) for line in file.read_text().splitlines())
        for rule in rules:
            if re.search(rf'"refused {rule} |"{rule}(?:"| [\d{{])|\bRule\.{rule}\b', text):
                found[rule].append(str(file.relative_to(TOP / "tests")))
    return found


def listed(places):
    """The places with their names."""
    def rank(place):
        return ("Rules" not in place[0][1], place[0])
    return "; ".join(f"{crate}/{file}: {', '.join(names)}" for (crate, file), names in sorted(places.items(), key=rank))


def main():
    if sys.argv[1:] not in ([], ["--check"]):
        sys.exit(__doc__)
    rules = sections((TOP / "docs" / "RULES.md").read_text())
    table, judged = rows_with_functions(), rows_with_judgements()
    specs, code, tests = named_in_specs(rules), named_in_code(rules, table), named_in_tests(rules)
    add_functions_of_rows(code, table)
    rows, lacks = [], []
    for rule, examples in rules.items():
        shown = ([f"{examples} examples"] if examples else []) + tests[rule]
        lacks += [f"{rule} is answered by {function}, which has no row's name" for function in without_a_row(rule, code, table)]
        drop_helpers(rule, code, table)
        told = judged.get(rule, {})
        row_names = by_place((place, row) for row, (place, _) in told.items())
        judgements = by_place(judgement for _, found in told.values() for judgement in found)
        cells = (listed(row_names), listed(judgements), listed(without(specs[rule], judgements)), listed(code[rule]), ", ".join(shown))
        rows.append(f"| [{rule}](RULES.md#{rule.lower()}) |" + "".join(f" {cell} |" if cell else " |" for cell in cells) + "\n")
        lacks += [f"{rule}'s row {row} has no function of its name" for row, functions in table.get(rule, {}).items() if not functions]
        for what, there in (("definition", specs[rule]), ("code", code[rule]), ("test", shown)):
            if not there:
                lacks.append(f"{rule} has no {what}")
    text = HEAD + "".join(rows)
    if sys.argv[1:] == ["--check"]:
        if not PAGE.exists() or PAGE.read_text() != text:
            lacks.append("docs/RULE-MAP.md isn't what tests/rule_map.py writes")
    else:
        PAGE.write_text(text)
    lacks += [f"{rule}'s row {row} has no judgement of its name" for rule, told in judged.items() for row, (_, found) in told.items()
              if not found]
    for line in lacks:
        print(line)
    print(f"rule_map: {len(rules)} passed, {len(lacks)} failed")
    sys.exit(1 if lacks else 0)


if __name__ == "__main__":
    main()
