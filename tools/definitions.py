#!/usr/bin/env python3
"""The book of `fp2`: the files of crates/*/specs that its clauses rest on, by subject and in reading order.

    tools/definitions.py            prints how many files and lines its two parts have
    tools/definitions.py --check    compares docs/DEFINITIONS.md with what it should be, and the lines with the most that
                                    each part may have; the status is 1 where they differ, or where a part has grown
    tools/definitions.py --write    makes docs/DEFINITIONS.md
    tools/definitions.py --all      prints the other files: what the public calls of the crates rest on besides, and what
                                    no clause of a public call rests on

A clause rests on the definitions that its words name, by the `ghost use` lines of its file, and on those that these name.
What a file says is the first sentence of its comment. A file that another one hands on (`pub use`) is followed to where
its definitions stand.
"""
import pathlib
import re
import sys

TOP = pathlib.Path(__file__).resolve().parent.parent
CRATES = TOP / "crates"
DOCUMENT = TOP / "docs" / "DEFINITIONS.md"
# Their public calls are parts of the parser, and of no use to others.
PARTS = ("parser_state", "parser_heads", "parser_types", "parser_operators", "parser_bodies")
SOURCES, CODES = "Commands on a source", "Codes"
# The most lines of each part. A change may lower these numbers, and none may raise them.
PARTS_OF_THE_BOOK = {SOURCES: 10038, CODES: 4247}
SLACK = 40
MOST_LINES = 199
# A file of fewer lines stands in the line of its neighbour.
SMALL = 30
# Where a file stands that no subject names.
OTHER = "The command line, and what each command answers, delivers and stores"
# In reading order: the part of the book, the subject, and its crates or files.
SUBJECTS = (
    (SOURCES, "Values, types and names",
     "fip_language/Values fip_language/Table fip_language/Every fip_trees/Names fip_trees/Sizes fip_trees/Numbers "
     "fip_base/TableView"),
    (SOURCES, "The grammar: from bytes to the tree of a text", "fip_grammar fip_language/Surface fip_language/Prefix"),
    (SOURCES, "The core form of a program",
     "fip_language/Core fip_language/CoreForm fip_language/Declarations fip_language/Statics fip_language/Mentions "
     "fip_language/CallSites fip_base/CoreView fip_language"),
    (SOURCES, "What a program means",
     "fip_language/Arithmetic fip_language/Matching fip_language/Registers fip_language/Meaning"),
    (SOURCES, "Values as text",
     "fip_language/Character fip_language/ValueText fip_language/PrintedText value_text"),
    (SOURCES, "The rules, their order, and which violation is reported",
     "fip_language/RuleText fip_language/RuleNumber fip_language/RuleOrder fip_base fip_trees/Least source_report"),
    (SOURCES, "Declarations (E10 to E15, E63)", "data_types"),
    (SOURCES, "Static parameters, instances and the typed program (E20 to E23)",
     "closed_types reached_instances static_params fip_trees"),
    (SOURCES, "Types (E30 to E34)", "type_check type_safety"),
    (SOURCES, "Matches: shapes, coverage, the missing pattern (E40 to E43)",
     "match_knowledge match_cover source_report/TreeMatches source_report/MatchRules"),
    (SOURCES, "Ownership and credits (E50 to E58, E62)", "fip_rules credit_check"),
    (SOURCES, "Tail calls, groups, stack numbers, the limits of code (E59, E60)",
     "call_groups tail_groups cell_lower/Limits"),
    (SOURCES, "What a program without static parameters means", "instance_semantics"),
    (SOURCES, "Derivations: `derive` and `audit`",
     "ownership_calculus derivation_trees derivation_check derivation_making derivation_text command_source/Derived "
     "command_source/Judged"),
    (SOURCES, "Sessions and tasks", "session_semantics task_semantics command_tasks"),
    (SOURCES, OTHER,
     "fip_outside fip_library library_sources command_words command_outcome command_source command_eval command_library "
     "command_answers command_run/ExecAnswer command_run/GaugeText fip_driver"),
    (CODES, "Codes and their files", "cell_code code_file command_source/Codes"),
    (CODES, "Sound code", "code_rules code_verify"),
    (CODES, "Runs of code",
     "fip_language/Store fip_language/Gauge machine_semantics separation_kinds separation tree_refinement "
     "run_loading/Loading lowering_simulation"),
    (CODES, "Which code is that of a source",
     "match_cover/DecisionTree match_cover/TreeOfMatch lowering_relation code_size code_bytes cell_lower "
     "command_source/CodeShape command_answers/CodeOf"),
    (CODES, "Traces", "machine_semantics/Traces run_loading command_trace"),
    (CODES, "`run`, and what a run leaves to a host",
     "command_run command_source/Entries cell_store machine_cells fip_machine fip_driver/Left fip_driver/Made "
     "fip_driver/HandedOut"),
)
HEAD_OF_THE_DOCUMENT = """# The definitions

What `fp2` is proved to do is said by its clauses (`crates/fip_driver/src/program.rt`) and those of the three traits that a host implements (`crates/fip_outside/src/outside.rt`), and a clause says no more than the definitions that it cites. They are in these files of `specs/` and in no others, beside std's plain words: by subject, each file after those that it rests on, with its lines and what it says. A file opens with what it defines, most often with an example: read that, then the definitions, and skip the `use` lines. Who asks of one command reads its line in `command_answers::Ends` and what that names. The second part is for who relies on `run`, `verify`, `compile`, `trace`, or on the cells that are left. `tools/definitions.py` makes this page; `tools/definitions.py --all` lists the other files, which the theorems of the crates rest on, or proofs alone.
"""
NAME = r"[^\W\d][\w'\-]*"
WORD = re.compile(rf"{NAME}(?:\.{NAME})*")
USE = re.compile(r"\s*(?:ghost |unfoldable |pub )*use Rattle\.(\w+)\.specs\.([\w.]+?)(?:\.\{(.*)\}| as (\w+))?;?$")
HEAD = re.compile(rf"(?:abbrev |unfoldable )*(?:pub )?(?:record |data )?({NAME}|◌\S*)")
INNER = re.compile(rf"  (?:pub )?(?:record |data )?({NAME}) ")
CASES = re.compile(r" +(?:pub )?((?:[A-Z][\w']* )+):")


def imports(lines):
    """Each imported word with its module and its name there; a module that is imported whole has no name."""
    found = {}
    for line in lines:
        matched = USE.match(line)
        if matched:
            crate, module, names, other = matched.groups()
            # a definition of another crate that this one hands on, or one that it is handed
            first, _, rest = module.partition(".")
            while rest and (CRATES / first).is_dir():
                crate, module = first, rest
                first, _, rest = module.partition(".")
            path = f"{crate}/{module}"
            if names is None:
                found[other or module.split(".")[-1]] = (path, None)
            for name in (names or "").split(","):
                there, _, here = name.strip().partition(" as ")
                found[here or there] = (path, there)
    return found


def named(text, imported):
    """The definitions of other files that a text names."""
    for word in set(WORD.findall(text)):
        first, _, rest = word.partition(".")
        if first in imported:
            path, name = imported[first]
            yield path, name or rest.split(".")[0]


class Spec:
    """A file of specs/: its definitions, those that are mutual as one, each with its text."""

    def __init__(self, path):
        lines = path.read_text().splitlines()
        self.lines = len(lines)
        self.imported = imports(lines)
        self.handed_on = imports(line for line in lines if re.match(r"(unfoldable )?pub use ", line))
        comment = []
        for line in lines:
            if not line.startswith("-- "):
                break
            comment.append(line[2:].strip())
        self.says = re.split(r"(?<=\.) (?=[A-Z`])", " ".join(comment))[0].rstrip(".").replace("|", "\\|")
        self.number, self.texts = {}, []
        for line in lines:
            line = line.split("--")[0].rstrip()
            if line and not re.match(r"infix|(unfoldable |pub )*use ", line):
                self.take(line)

    def take(self, line):
        if re.match(r"(abbrev|pub|unfoldable|mutual|record|data)\b", line):
            self.texts.append("")
            self.is_mutual = "mutual" in line
            if not self.is_mutual:
                self.number[HEAD.match(line).group(1)] = len(self.texts) - 1
        if self.is_mutual and INNER.match(line):
            self.number[INNER.match(line).group(1)] = len(self.texts) - 1
        cases = CASES.match(line)
        for case in cases.group(1).split() if cases else ():
            self.number.setdefault(case, len(self.texts) - 1)
        self.texts[-1] += "\n" + line

    def rests_on(self, number, path):
        yield from named(self.texts[number], self.imported)
        for word in WORD.findall(self.texts[number]):
            if word.split(".")[0] in self.number:
                yield path, word.split(".")[0]


def read_specs():
    """All files that the Lib files name, by `crate/Name`, in their order."""
    specs = {}
    for crate in crates():
        lib = CRATES / crate / "specs" / "Lib.antt"
        for name in re.findall(r"^(?:pub )?mod (\w+)", lib.read_text(), re.M) if lib.exists() else ():
            specs[f"{crate}/{name}"] = Spec(CRATES / crate / "specs" / f"{name}.antt")
    return specs


def crates():
    return re.findall(r"^(\w+):", (TOP / "crates.txt").read_text(), re.M)


def files_under(roots, specs):
    """The files that hold the definitions of these names, and what they rest on."""
    seen, todo = set(), list(roots)
    while todo:
        path, name = todo.pop()
        if path not in specs:
            continue
        number = specs[path].number.get(name)
        if number is None and name in specs[path].handed_on:
            todo.append(specs[path].handed_on[name])
        elif number is not None and (path, number) not in seen:
            seen.add((path, number))
            todo += specs[path].rests_on(number, path)
    return {path for path, _ in seen}


def exported(crate):
    """The modules of a crate with the names that it exports from them."""
    folder = CRATES / crate / "src"
    text = (folder / "lib.rt").read_text()
    found = {}
    for name in ["lib", *re.findall(r"^pub mod (\w+);", text, re.M)]:
        found[name] = set(re.findall(r"^pub (?:fn|struct|enum|trait) (\w+)", (folder / f"{name}.rt").read_text(), re.M))
    for name, many, one in re.findall(r"^pub use (\w+)::(?:\{([^}]*)\}|(\w+));", text, re.M):
        if (folder / f"{name}.rt").exists():
            found.setdefault(name, set()).update(re.findall(r"\w+", many or one))
    return found


def clauses(path, names):
    """Each clause of what a module exports: its call or type, its name and its text."""
    is_public = in_trait = is_ours = False
    lines = iter(path.read_text().splitlines())
    for line in lines:
        if line.startswith("mod tests {"):
            return
        item = re.match(r"(?:pub )?(fn|struct|enum|trait|impl)\b(.*)", line)
        if item:
            kind, rest = item.groups()
            in_trait = kind == "trait" or " for " in rest
            of = re.findall(r"\w+", rest.split(" for ")[-1] if in_trait else re.sub(r"^<.*?>+ ", "", rest))[0]
            is_ours = of in names
            is_public = is_ours and (kind != "impl" or in_trait)
        elif re.match(r"    (pub(\([^)]*\))? )?(const )?fn ", line) and not in_trait:
            is_public = is_ours and line.startswith("    pub ")
        clause = re.match(r"\s*(?:ensures|requires|ghost (?!use|view|invariant))\s*(\w*)(.*)", line)
        if clause:
            name, text = clause.groups()
            while text.count("{") > text.count("}"):
                text += " " + next(lines)
            if is_public:
                yield of, name, text


def theorems(crate, specs):
    """Each exported call or type of a crate, its clauses' names and the files that they rest on."""
    if not (CRATES / crate / "src" / "lib.rt").exists():
        return
    for module, names in exported(crate).items():
        path = CRATES / crate / "src" / f"{module}.rt"
        imported = imports(path.read_text().splitlines())
        for of, clause, text in clauses(path, names):
            yield of, clause, files_under(named(text, imported), specs)


def in_reading_order(paths, specs):
    """Each file behind those that it imports, and else in the order of the crates and of their Lib files."""
    order = []

    def put(path):
        if path in paths and path not in order:
            imported = {below for below, _ in specs[path].imported.values()}
            for below in specs:
                if below in imported and below != path:
                    put(below)
            order.append(path)

    for path in specs:
        put(path)
    return order


def clauses_of_the_program(specs):
    """The names of definitions that the clauses of `fp2` cite, and those of what a host implements."""
    for crate, owners in (("fip_outside", ("Source", "Sink", "Folder")), ("fip_driver", ("fp2",))):
        for module, names in exported(crate).items():
            path = CRATES / crate / "src" / f"{module}.rt"
            imported = imports(path.read_text().splitlines())
            for of, _, text in clauses(path, names):
                if of in owners:
                    yield from named(text, imported)


# ---- the book


def subject_of(path):
    """The place in SUBJECTS of the subject of a file: that which names it, else that which names its crate, else OTHER."""
    for words in (path, path.split("/")[0]):
        for place, (_, _, files) in enumerate(SUBJECTS):
            if words in files.split():
                return place
    return [title for _, title, _ in SUBJECTS].index(OTHER)


def entry(path, specs):
    return f"`{path.replace('/', '::')}`, {specs[path].lines}: {specs[path].says}"


def entries(paths, specs):
    """A line for each file; a small one stands in the line of its neighbour of the same crate."""
    rows = []
    for path in paths:
        last = rows[-1][-1] if rows else path
        is_near = path.split("/")[0] == last.split("/")[0]
        if rows and is_near and min(specs[path].lines, specs[last].lines) < SMALL:
            rows[-1].append(path)
        else:
            rows.append([path])
    return ["  - " + ". ".join(entry(path, specs) for path in row) + "." for row in rows]


def lines_of(paths, specs):
    return sum(specs[path].lines for path in paths)


class Book:
    """The files that the clauses of `fp2` rest on, by subject, each subject in reading order."""

    def __init__(self):
        self.specs = read_specs()
        paths = files_under(clauses_of_the_program(self.specs), self.specs)
        self.subjects = [[] for _ in SUBJECTS]
        for path in in_reading_order(paths, self.specs):
            self.subjects[subject_of(path)].append(path)

    def files(self, part):
        return [path for (of, _, _), paths in zip(SUBJECTS, self.subjects) if of == part for path in paths]

    def lines(self, part):
        return lines_of(self.files(part), self.specs)

    def contents(self, part):
        for (of, title, _), paths in zip(SUBJECTS, self.subjects):
            if of == part and paths:
                yield f"- **{title}** ({lines_of(paths, self.specs):,} lines)"
                yield from entries(paths, self.specs)

    def totals(self):
        return [f"{part}: {len(self.files(part))} files, {self.lines(part):,} lines" for part in PARTS_OF_THE_BOOK]

    def document(self):
        text = [HEAD_OF_THE_DOCUMENT]
        for part in PARTS_OF_THE_BOOK:
            text.append(f"## {part}: {len(self.files(part))} files, {self.lines(part):,} lines\n")
            text += [*self.contents(part), ""]
        return "\n".join(text).rstrip() + "\n"

    def faults(self):
        """Where a part has grown, or the most that it may have is no longer tight."""
        for part, most in PARTS_OF_THE_BOOK.items():
            if self.lines(part) > most:
                yield f"{part} has {self.lines(part):,} lines, more than {most:,}: it may only get shorter"
            elif self.lines(part) < most - SLACK:
                yield f"{part} has {self.lines(part):,} lines: lower its most in tools/definitions.py, {most:,}, to that"
        if len(self.document().splitlines()) > MOST_LINES:
            yield f"docs/DEFINITIONS.md has more than {MOST_LINES} lines"


# ---- the other files


def others():
    """What public calls rest on besides the book, and what no clause of a public call rests on, a crate after another."""
    specs = read_specs()
    book = files_under(clauses_of_the_program(specs), specs)
    calls = {}
    for crate in crates():
        for of, _, paths in theorems(crate, specs) if crate not in PARTS else ():
            for path in paths - book:
                calls.setdefault(path, {})[f"{crate}::{of}"] = None
    besides = [path for path in specs if path in calls]
    proofs = [path for path in specs if path not in calls and path not in book]
    yield f"What public calls rest on besides: {len(besides)} files, {lines_of(besides, specs):,} lines"
    for path in besides:
        yield f"  {entry(path, specs)} ({', '.join(calls[path])})"
    yield f"What serves proofs alone: {len(proofs)} files, {lines_of(proofs, specs):,} lines"
    for path in proofs:
        yield f"  {entry(path, specs)}"


def main():
    if sys.argv[1:] == ["--all"]:
        print("\n".join(others()))
        return
    book = Book()
    if sys.argv[1:] == ["--write"]:
        DOCUMENT.write_text(book.document())
    print("\n".join(book.totals()))
    faults = list(book.faults())
    if sys.argv[1:] == ["--check"] and DOCUMENT.read_text() != book.document():
        faults.append("docs/DEFINITIONS.md is old: tools/definitions.py --write renews it")
    print("\n".join(faults), end="\n" if faults else "")
    sys.exit(1 if faults else 0)


if __name__ == "__main__":
    main()
