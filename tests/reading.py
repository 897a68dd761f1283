#!/usr/bin/env python3
"""Compares docs/believe/READING.md, READING_ANSWERS.md and a third page with the definitions that the theorem needs.

    tests/reading.py            prints the errors of the pages; exit status 1 if there are any
    tests/reading.py --write    updates the definitions, the declarations, the counts and the index
    tests/reading.py --list     prints what is needed, by file
    tests/reading.py --more     prints the third page: what no packet depends on
    tests/reading.py --index    prints the definitions by section of the standards

Errors are: a definition that is missing, not needed or shown twice; a text, a count or an index that is out of date; a
page with more words than it states or than 6,000; a definition that names a type or a constant of the code that isn't
public; a law whose statement doesn't contain the definition that it replaces; a packet that depends on a definition
excluded by ASIDE; prose that doesn't explain a library name or a lower-case constructor.

The theorem is the clause `answered` of `drive_new`. Starting there, each name that a definition uses is resolved,
through the `use` lines, to its definition. The first page has the packets sent for each input, the second the
authenticator's responses. Two tables shorten the pages:

- LAWS: instead of a definition that computes, the reader reads the statement of a law that specifies it.
- ASIDE: a definition whose value is only stored in a field that is only copied is on the third page: no packet depends
  on it.

The third page also has the clause `bounded` of `drive_new`, field by field (APART). No packet depends on it.

The prose is written by hand, that of the third page in tests/reading_more.md, whose definitions are inserted when it is
printed. A comment `<!-- KIND: FILE: NAMES -->`, with the names in backquotes, is followed by

- definitions: these definitions, each below its comment;
- code: the types and constants of the code that definitions name; quoted: others; documented: with their own comments;
- clauses: clauses of the contract of the function named first, and its signature if `signature` is named.

`<!-- definitions -->` without names is followed by the file name and the definitions to show. To add one, write a line
with its name, and run --write.

A type is shown in one line: a record's fields, a data type's constructors with their arguments. The type of a field or
an argument is omitted if it is in UNSHOWN_TYPES or has the same name. A record with parameters or of propositions is shown
unchanged.

Each page states its maximum number of words, written by hand, so that its growth is noticed.

No toolchain is needed.
"""

from __future__ import annotations

import re
import sys
import textwrap
from collections.abc import Iterator
from dataclasses import dataclass, field
from functools import cache
from itertools import groupby
from pathlib import Path

import definitions

TOP = Path(__file__).resolve().parent.parent
PAGES = (TOP / "docs" / "believe" / "READING.md", TOP / "docs" / "believe" / "READING_ANSWERS.md")
MORE_PAGE = TOP / "tests" / "reading_more.md"
HEADLINE = TOP / "crates" / "token_session" / "src" / "driver.rt"
# The clauses of `drive_new` on the pages: the theorem, and the bounds, on which no packet depends.
STATEMENT, BOUNDS = "answered", "bounded"
BOUNDS_RECORD = "HasInternalProperties"
# Fields of the record of bounds, in the order of their sections.
APART = ("pending", "carried", "steps")
# A definition whose value is only stored in this field. The definition, and definitions that nothing else needs, have a
# section after those of APART.
ASIDE = {"cut": "name"}
# A definition, and the law that is read instead: a function of src/laws.rt in the definition's crate.
LAWS = {"canonical_tree": "trees_are_computed", "outcome_of": "outcomes_are_computed"}
LAWS |= {name: "answers_follow_history" for name in ("sent", "received", "core")}
# The laws on the first two pages. The third page has the others.
PAGE_LAWS = {"canonical_tree"}
# A premise of laws that follows from the types of the theorem's arguments. The page explains it in prose.
PREMISES = {"ValidRows"}
CLAUSE = r"pub fn drive_new<.*?ensures {} \{{(.*?)\n    (?://|ensures)"
USE = re.compile(r"use ([\w.]+)\.\{(.*)\}")
MODIFIERS = re.compile(r"(?:(?:unfoldable|abbrev|pub) )+")
DECLARATION = re.compile(r"(?:(?:unfoldable|abbrev|pub|record|data) )*(\S+)")
TOKEN = re.compile(r"[^\s(){}\[\],.;:]+")
# The names of fields: `.field`, in a record's declaration, and in a record's construction.
FIELDS = re.compile(r"(?<=[\w)])\.[a-z]\w*|^ +pub \w+ :|(?<=[{;])\s*[a-z]\w* =(?= )", re.MULTILINE)
# (a b : T), λ x., let x =
BINDERS = re.compile(r"\(([a-z][\w ]*) :|λ \(?([a-z][\w ]*?)[.:]|let (\w+) ")
BLOCK = re.compile(r"<!-- (definitions|code|documented|quoted|clauses)(?:: (\S+): `([^`]*)`)? -->\n((?:\n|    .*\n)*)")
# The first line of a definition on a page: an equation, or a data type or a record in one line.
PAGE_DEFINITION = re.compile(r"    (?:record |data )?(\S+?):?(?= |$)")
SECTION = re.compile(r"^(?=## Only for )", re.MULTILINE)
COUNTS = re.compile(r"\*\*\d+\s+definitions?,\s+[\d,]+\s+lines,\s+\d+\s+files?\*\*")
MORE_COUNT = re.compile(r"\*\*\d+\s+more\s+definitions\*\*\s+\(`(\w+)`\)")
# The maximum number of words that a page states.
WORDS = re.compile(r"\*\*at most ([\d,]+)\s+words\*\*")
MAX_WORDS = 6_000
# A line that isn't shown.
HIDDEN_LINE = re.compile(r"<!-- .* -->")
# The types of fields and arguments that aren't shown: in the code, bool and the types of numbers.
UNSHOWN_TYPES = {"ℕ", "List ℕ", "Bool"}
UNSHOWN_CODE_TYPES = re.compile(r"[ui]\d+|usize|bool")
PROPOSITION = re.compile(r"[≡≤<→]")
DECLARED = re.compile(r"Rattle\.(\w+)\.specs\.declared\.([\w.]+?)(\.The\w+)?")
LINKED = re.compile(r"\[(`[^`]*`)\]\([^)]*\)")
# How comments cite a standard, and how the pages do: there, section numbers alone refer to CTAP 2.1.
CITED = ((re.compile(r"CTAP 2\.1, sections? "), ""), (re.compile(r"WebAuthn Level 2, sections? "), "WebAuthn, "))
# The separator of pages that are processed as one text.
PAGE_SEPARATOR = "\f"
EXPORTED = r"^pub use {}::(?:\{{[^}}]*\b{}\b[^}}]*\}}|{});|^pub mod {};"


@dataclass(frozen=True, order=True)
class Name:
    """The name of a definition, or of a type or constant of the code, with its file."""

    path: Path
    name: str

    def __str__(self) -> str:
        return f"{self.path.relative_to(TOP)}: {self.name}"


@dataclass
class Definition:
    """A definition: its lines, and the comment above them."""

    name: str
    comment: str
    lines: list[str] = field(default_factory=list)

    def code(self) -> list[str]:
        """Returns the lines that are neither blank nor a comment."""
        return [line for line in self.lines if line.strip() and not line.strip().startswith("--")]

    def list_words(self, without: tuple[str, ...] = ()) -> set[str]:
        """Returns the words that may refer to other definitions, except those in the fields `without`."""
        dropped = tuple(f"pub {name} :" for name in without)
        kept = (line for line in self.code() if not line.strip().startswith(dropped))
        text = FIELDS.sub(" ", "\n".join(line.split(" -- ")[0] for line in kept))
        equations = re.split(rf"^(?= *{re.escape(self.name)}(?: |$))", text, flags=re.MULTILINE)
        return {word for equation in equations for word in list_free_words(equation)}

    def constructor_names(self) -> set[str]:
        """Returns the constructors of a data type."""
        if not re.match(r"\s*(pub )?data ", self.lines[0]):
            return set()
        found = (re.match(r"\s+(?:pub )?(\S+) :", line) for line in self.code()[1:])
        return {match.group(1) for match in found if match}

    def to_page_lines(self) -> list[str]:
        """Returns the definition as shown on the page: its comment, and its lines without modifiers."""
        end = "" if self.comment.endswith((".", "?")) else "."
        comment = self.comment[:1].upper() + self.comment[1:] + end if self.comment else ""
        for cited, short in CITED:
            comment = cited.sub(short, comment)
        lines = textwrap.wrap(comment, 113)
        return [f"-- {line}" for line in lines] + self.list_body_lines()

    def list_body_lines(self) -> list[str]:
        """Returns the lines below the comment. For a function, the line with its type is omitted."""
        compact = self.to_compact_lines()
        if compact:
            return compact
        indent = len(self.lines[0]) - len(self.lines[0].lstrip())
        code = (
            re.sub(rf"^( *){MODIFIERS.pattern}", r"\1", line[indent:])
            for line in self.lines[self.first_shown_index() :]
        )
        return [line.rstrip() for line in code]

    def to_compact_lines(self) -> list[str]:
        """Returns a data type, or a record without propositions, in one line or a few. For other definitions, returns
        an empty list."""
        head = re.fullmatch(r"\s*(?:\w+ )*?(record|data) (\S+) : Type 0 where", self.lines[0])
        if head is None:
            return []
        split = [line.strip().removeprefix("pub ").partition(" : ") for line in self.lines[1:]]
        if head[1] == "data":
            parts = (" ".join([name, *parse_arguments(of)]) for name, _, of in split)
            notes = (line.strip() for line in self.lines[1:])
            return format_data_type(
                f"data {head[2]}:", [note if note.startswith("--") else part for note, part in zip(notes, parts)]
            )
        if any(PROPOSITION.search(of) for _, _, of in split):
            return []
        return wrap_lines(" ".join([f"record {head[2]}:", *group_fields([(name, of) for name, _, of in split])]))

    def list_equations(self) -> list[str]:
        """Returns the lines shown on the page, without comments."""
        return [line for line in self.list_body_lines() if not line.strip().startswith("--")]

    def first_shown_index(self) -> int:
        """Returns the index of the first line shown on the page. For a function, this is the first equation."""
        equation = re.compile(rf" *{re.escape(self.name)}(?: |$)(?! *:)")
        return next((place for place, line in enumerate(self.lines) if equation.match(line)), 0)


def group_fields(fields: list[tuple[str, str]]) -> list[str]:
    """Returns fields or named arguments, grouped by type. The type is included unless it is in UNSHOWN_TYPES."""
    found = list[str]()
    for of, group in groupby(
        fields, key=lambda field: "" if field[1] in UNSHOWN_TYPES or field[1].lower() == field[0] else field[1]
    ):
        names = " ".join(name for name, _ in group)
        found.append(f"({names} : {of})" if of else names)
    return found


def parse_arguments(of: str) -> list[str]:
    """Returns the arguments of a constructor with this type."""
    found = list[str]()
    for part in of.split(" → ")[:-1]:
        for group in re.findall(r"\([^()]* : (?:[^()]|\([^()]*\))*\)", part) or [part]:
            names, _, kind = group[1:-1].partition(" : ")
            if group.startswith("(") and kind:
                found += group_fields([(name, kind) for name in names.split()])
            else:
                found.append(f"({group})" if " " in group else group)
    return found


def wrap_lines(text: str) -> list[str]:
    """Returns the text, wrapped into lines of which all but the first are indented."""
    return textwrap.wrap(text, 113, subsequent_indent="    ", break_on_hyphens=False)


def format_data_type(head: str, lines: list[str]) -> list[str]:
    """Returns a data type with these constructors. A comment is above its constructor."""
    found, text, between = list[str](), head, ""
    for line in lines:
        if line.startswith("--"):
            found, text = [*found, *wrap_lines(text), f"  {line}"], " "
        else:
            text, between = f"{text} {between}{line}", "| "
    return [*found, *wrap_lines(text)]


def list_free_words(equation: str) -> set[str]:
    """Returns the words of an equation or a type, except the names bound in it: lower-case parameters, and the names
    bound by `λ` and `let`."""
    left = equation.partition(" =")[0] if not re.match(r" *(?:\w+ )*\S+ :", equation) else ""
    bound = {token for token in TOKEN.findall(left) if not token[0].isupper()}
    for group in BINDERS.findall(equation):
        bound |= set(TOKEN.findall("".join(group)))
    return set(TOKEN.findall(equation)) - bound


@dataclass
class File:
    """The definitions of a file in order, and the modules of the names that it uses."""

    definitions: dict[str, Definition] = field(default_factory=dict)
    uses: dict[str, tuple[str, str]] = field(default_factory=dict)

    def find_definition_or_type(self, name: str) -> Definition | None:
        """Returns the definition with this name, or the data type with this constructor, or None."""
        if name in self.definitions:
            return self.definitions[name]
        return next(
            (definition for definition in self.definitions.values() if name in definition.constructor_names()), None
        )


def parse_use_line(found: File, line: str) -> bool:
    """Processes a `use` line. Returns False if the line isn't one."""
    use = USE.match(line)
    if use is None:
        return False
    for word in use.group(2).split(","):
        taken, _, other = word.strip().partition(" as ")
        # The name of a module inside another one: `use Rattle.cred_table.specs.{Rows.ids, Snapshots.Loads}`.
        below, _, name = taken.rpartition(".")
        found.uses[other or name] = (".".join(filter(None, (use.group(1), below))), name)
    return True


@cache
def read_definitions(path: Path) -> File:
    """Returns the definitions of a file. In a `mutual` block definitions are indented."""
    found, comment, current, indent = File(), list[str](), None, ""
    for line in path.read_text(encoding="utf-8").splitlines():
        text = line.strip()
        if not text:
            comment, current = [], None
        elif text.startswith("--") and not (current and line.startswith(indent + " ")):
            comment.append(text[2:].strip())
        elif re.fullmatch(r"(\w+ )?mutual", line):
            indent = "  "
        elif not parse_use_line(found, line):
            indent = indent if line.startswith(" ") else ""
            if not line.startswith((indent + " ", indent + "}")):
                name = DECLARATION.match(text).group(1)  # type: ignore[union-attr]
                current = found.definitions.setdefault(name, Definition(name, " ".join(comment)))
                comment = []
            if current:
                current.lines.append(line)
    return found


def find_definition(name: Name) -> Definition:
    """Returns the definition with this name."""
    return read_definitions(name.path).definitions[name.name]


def find_specs_file(module: str) -> Path | None:
    """Returns the file of a module of this repository's definitions, or None."""
    parts = module.split(".")
    if parts[0] != "Rattle" or parts[2:3] != ["specs"]:
        return None
    path = TOP / "crates" / parts[1] / "specs" / ("/".join(parts[3:]) + ".antt")
    return path if path.is_file() else None


def find_code_item(module: str, name: str) -> Name | None:
    """Returns the type or constant of the code that is imported by this name. For a constructor, returns its type."""
    found = DECLARED.fullmatch(module)
    if found is None:
        return None
    inside, _, kind = (found[2], "", name) if found[3] == ".TheConstants" else found[2].rpartition(".")
    path = TOP / "crates" / found[1] / "src" / f"{inside.replace('.', '/')}.rt"
    return Name(path, kind) if path.is_file() else None


def read_clause_names(path: Path, clause: re.Pattern[str], what: str) -> list[Name]:
    """Returns the definitions that occur in a clause of the code."""
    code, uses = path.read_text(encoding="utf-8"), File()
    for line in code.splitlines():
        parse_use_line(uses, line.removeprefix("ghost "))
    found = clause.search(code)
    if found is None:
        raise SystemExit(f"tests/reading.py: {path.relative_to(TOP)} has no {what}")
    named = (
        (find_specs_file(uses.uses[word][0]), uses.uses[word][1])
        for word in TOKEN.findall(found[1])
        if word in uses.uses
    )
    return [Name(there, name) for there, name in named if there]


class DependencyWalk:
    """What some clauses of `drive_new` need: definitions, types and constants of the code, and library names.

    Excludes what only the fields `without` or the definitions `aside` need. `laws` replace definitions."""

    def __init__(
        self, clauses: tuple[str, ...], without: tuple[str, ...], laws: dict[str, str], aside: dict[str, str]
    ) -> None:
        self.without, self.laws, self.aside = without, laws, aside
        self.needed: set[Name] = set()
        self.declared: set[Name] = set()
        self.library: set[str] = set()
        self.faults: list[str] = []
        for clause in clauses:
            pattern = re.compile(CLAUSE.format(clause), re.DOTALL)
            for name in read_clause_names(HEADLINE, pattern, f"clause `{clause}` of `drive_new`"):
                self.visit(name)

    def visit(self, name: Name) -> None:
        """Processes a definition and everything that it uses."""
        if name.name in self.laws:
            self.visit_law(name)
            return
        here = read_definitions(name.path)
        definition = here.find_definition_or_type(name.name)
        if definition is None:
            raise SystemExit(f"tests/reading.py: {name.path.relative_to(TOP)} doesn't define {name.name}")
        found = Name(name.path, definition.name)
        if found in self.needed:
            return
        self.needed.add(found)
        for word in sorted(definition.list_words(self.without if found.name == BOUNDS_RECORD else ())):
            self.visit_word(name.path, word)

    def visit_word(self, path: Path, word: str) -> None:
        """Processes the definition that a word in this file refers to, if any."""
        if word in self.aside:
            return
        here = read_definitions(path)
        if here.find_definition_or_type(word):
            self.visit(Name(path, word))
        elif word in here.uses:
            module, other = here.uses[word]
            there, code = find_specs_file(module), find_code_item(module, other)
            if there:
                self.visit(Name(there, other))
            elif code:
                self.declared.add(code)
            else:
                self.library.add(word)

    def visit_law(self, name: Name) -> None:
        """Processes the statement of the law that replaces a definition."""
        law = self.laws[name.name]
        path = name.path.parent.parent / "src" / "laws.rt"
        clause = re.compile(rf"pub fn {law}\(\)\s+ensures (?:\w+ )?\{{(.*?)\}}", re.DOTALL)
        named = read_clause_names(path, clause, f"law {law}")
        said = {word for of in named if of.name not in PREMISES for word in find_definition(of).list_words()}
        if name.name not in said:
            self.faults.append(f"{path.relative_to(TOP)}: the statement of {law} doesn't contain {name.name}")
        for of in named:
            if of.name not in PREMISES:
                self.visit(of)


@dataclass
class PagePart:
    """What a part of the pages shows: definitions, and types and constants of the code. A part is the first two pages
    together, or a section of the third page."""

    title: str
    definitions: set[Name]
    code: set[Name]


class Needs:
    """The parts of the pages, beginning with the first two pages, and the number of definitions that each law saves."""

    def __init__(self) -> None:
        both = (STATEMENT, BOUNDS)
        statement_alone = DependencyWalk((STATEMENT,), (), LAWS, ASIDE)
        walks = [DependencyWalk(both, APART[place:], LAWS, ASIDE) for place in range(len(APART) + 1)]
        whole = walks[-1]
        walks.append(DependencyWalk(both, (), LAWS, {}))
        self.parts = [PagePart("on the pages", statement_alone.needed, statement_alone.declared)]
        # The record of bounds and the law for its fields are in the introduction of the third page.
        head = PagePart("in the introduction of the third page", *subtract_needs(walks[0], statement_alone))
        self.parts.append(head)
        for name, before, walk in zip((*APART, *ASIDE), walks, walks[1:]):
            self.parts.append(PagePart(f"in the section of `{name}`", *subtract_needs(walk, before)))
        self.faults = [*walks[-1].faults, *find_aside_errors(statement_alone.needed)]
        self.library = walks[-1].library
        page_laws = {name: law for name, law in LAWS.items() if name in PAGE_LAWS}
        self.more = {law: count_saved(statement_alone, (STATEMENT,), law, page_laws) for law in page_laws.values()}
        for law in dict.fromkeys(law for name, law in LAWS.items() if name not in PAGE_LAWS):
            self.more[law] = count_saved(whole, both, law, LAWS)


def subtract_needs(walk: DependencyWalk, before: DependencyWalk) -> tuple[set[Name], set[Name]]:
    """Returns the definitions, and the types and constants of the code, that `walk` needs and `before` doesn't."""
    return walk.needed - before.needed, walk.declared - before.declared


def count_saved(walk: DependencyWalk, clauses: tuple[str, ...], law: str, laws: dict[str, str]) -> int:
    """Returns how many more definitions would be needed without a law."""
    others = {name: other for name, other in laws.items() if other != law}
    return len(DependencyWalk(clauses, (), others, ASIDE).needed - walk.needed)


def find_aside_errors(needed: set[Name]) -> list[str]:
    """Returns errors: definitions that use a name of ASIDE for anything but storing its value in the field."""
    found = list[str]()
    for word, name in ASIDE.items():
        other = re.compile(rf"(?<![\w.])(?<!\b{name} = ){word}(?![\w.])|(?<!\b{name} = )(?<![\w.])\w+\.{name}\b")
        for reader in sorted(needed):
            if other.search("\n".join(line.split(" -- ")[0] for line in find_definition(reader).code())):
                found.append(f"{reader} reads {word} or the field {name}, but no packet may depend on it")
    return found


@dataclass
class Block:
    """A block of a page: its kind, its file, and the names to show."""

    kind: str
    path: Path
    names: list[str]


def parse_block(found: re.Match[str]) -> Block:
    """Returns a block. If its comment contains no names, the first line is the file name, and each definition whose
    name begins a line is shown."""
    if found[2]:
        return Block(found[1], TOP / found[2], found[3].split())
    lines = found[4].strip("\n").splitlines()
    path = TOP / lines[0].strip().removeprefix("-- ")
    begun = (PAGE_DEFINITION.match(line) for line in lines[1:])
    names = dict.fromkeys(match[1] for match in begun if match and match[1] in read_definitions(path).definitions)
    return Block(found[1], path, list(names))


def fill_block(found: re.Match[str]) -> str:
    """Returns a block with its current text."""
    block = parse_block(found)
    return found[0].partition("\n")[0] + "\n" + format_block(block.kind, block.path, block.names)


def format_block(kind: str, path: Path, names: list[str]) -> str:
    """Returns the text of a block: a line with the file, and the content."""
    if kind == "definitions":
        found = read_definitions(path).definitions
        parts = [found[name].to_page_lines() if name in found else [f"({name} isn't defined)"] for name in names]
        blocks = join_parts(parts)
    elif kind == "clauses":
        blocks = read_clauses(path, names[0], names[1:])
    elif kind == "documented":
        blocks = join_parts([read_declaration(path, name) for name in names])
    else:
        blocks = join_parts([format_declaration(path, name) for name in names])
    mark = "//" if kind in ("clauses", "documented") else "--"
    lines = [f"{mark} {path.relative_to(TOP)}", *blocks]
    return "\n" + "".join(f"    {line}\n" if line else "\n" for line in lines) + "\n"


def join_parts(parts: list[list[str]]) -> list[str]:
    """Returns the lines of the parts, separated by blank lines except between short ones without comments."""
    found, is_short = list[str](), True
    for part in parts:
        was_short, is_short = is_short, len(part) <= 2 and not part[0].startswith("--")
        found += part if not found or (was_short and is_short) else ["", *part]
    return found


def read_declaration(path: Path, name: str) -> list[str]:
    """Returns the declaration of a type or constant of the code, without attributes and links."""
    code = path.read_text(encoding="utf-8")
    kinds = rf"const {name}: [^;]*;|(?:enum|struct) {name}\b(?:\(.*?\);|[^{{;(]*\{{.*?^\}})"
    found = re.search(rf"^pub (?:{kinds})", code, re.MULTILINE | re.DOTALL)
    if found is None:
        return [f"({name} isn't declared)"]
    plain = LINKED.sub(r"\1", found[0])
    return [line for line in plain.splitlines() if not line.strip().startswith("#[")]


def to_definition_type(of: str) -> str:
    """Returns a type of the code in the notation of definitions. Types of numbers become ℕ."""
    kind = of.strip()
    return "ℕ" if UNSHOWN_CODE_TYPES.fullmatch(kind) else re.sub(r"^Option<(.*)>$", r"Option \1", kind)


def format_declaration(path: Path, name: str) -> list[str]:
    """Returns a type or constant of the code in the form of a definition: the fields or variants, or the value."""
    lines = [line for line in read_declaration(path, name) if not line.strip().startswith("//")]
    constant = re.fullmatch(r"pub const (\w+): \w+ = (.*);", lines[0])
    if constant:
        return [f"{constant[1]} = {constant[2]}"]
    inside = [line.strip().removeprefix("pub ").removesuffix(",") for line in lines[1:-1]]
    if lines[0] == f"pub struct {name} {{":
        fields = [(field, to_definition_type(of)) for field, _, of in (line.partition(": ") for line in inside)]
        return wrap_lines(" ".join([f"record {name}:", *group_fields(fields)]))
    found = [re.fullmatch(r"(\w+)(?:\((\w.*)\)| \{ (.*) \})?", line) for line in inside]
    if lines[0] != f"pub enum {name} {{" or None in found:
        return lines
    return format_data_type(f"data {name}:", [format_variant(entry) for entry in found if entry])


def format_variant(found: re.Match[str]) -> str:
    """Returns a variant of an enum of the code in the notation of a constructor."""
    name, of, fields = found.groups()
    if of:
        kind = to_definition_type(of)
        return f"{name} ({kind})" if " " in kind else f"{name} {kind}"
    split = (field.partition(": ") for field in (fields or "").split(", ") if field)
    return " ".join([name, *group_fields([(field, to_definition_type(kind)) for field, _, kind in split])])


def read_clauses(path: Path, function: str, names: list[str]) -> list[str]:
    """Returns these clauses of a function's contract."""
    code = path.read_text(encoding="utf-8")
    found = re.search(rf"^( *)pub fn {function}\b(?:.|\n)*?\n\1\{{", code, re.MULTILINE)
    if found is None:
        return [f"({function} doesn't exist)"]
    lines = list[str]()
    signature, *parts = re.split(r"\n +(?=ensures|requires|// )", found[0].removesuffix(f"\n{found[1]}{{"))
    for name in names:
        part = (
            signature
            if name == "signature"
            else next((part for part in parts if part.startswith(f"ensures {name} ")), "")
        )
        kept = part or f"({name} isn't a clause of {function})"
        lines += textwrap.dedent(kept if name == "signature" else f"    {kept}").splitlines()
    return lines


def is_public(name: Name) -> bool:
    """Returns whether users of the crate can refer to the item: its module is public, or the crate exports it."""
    module = name.path.stem
    root = name.path.with_name("lib.rt").read_text(encoding="utf-8")
    return bool(re.search(EXPORTED.format(module, name.name, name.name, module), root, re.M))


def format_count(names: set[Name]) -> str:
    lines, files = sum(len(find_definition(name).list_equations()) for name in names), len(
        {name.path for name in names}
    )
    return f"**{len(names)} definitions, {lines:,} lines, {files} {'files' if files > 1 else 'file'}**"


def update_page(needs: Needs, page: str) -> str:
    """Returns the pages with current definitions and counts."""
    page = BLOCK.sub(fill_block, page)
    counts = iter([format_count(part.definitions) for part in needs.parts])
    page = COUNTS.sub(lambda match: replace_numbers(match[0], next(counts, match[0])), page)
    return MORE_COUNT.sub(lambda match: re.sub(r"\d+", str(needs.more.get(match[1], 0)), str(match[0]), count=1), page)


def replace_numbers(text: str, counted: str) -> str:
    """Returns the text with its numbers replaced by those in `counted`. Line breaks are kept."""
    numbers: Iterator[str] = iter(re.findall(r"[\d,]*\d", counted))
    return re.sub(r"[\d,]*\d", lambda match: next(numbers), text)


def list_names(page: str, *kinds: str) -> list[Name]:
    blocks = (parse_block(match) for match in BLOCK.finditer(page))
    return [Name(block.path, name) for block in blocks if block.kind in kinds for name in block.names]


def find_differences(where: str, has: list[Name], needs: set[Name]) -> list[str]:
    """Returns errors: names that are missing, not needed, or shown twice."""
    found = [f"{name} is needed but isn't {where}" for name in sorted(needs - set(has))]
    found += [f"{name} is {where} but isn't needed" for name in sorted(set(has) - needs)]
    return found + [f"{name} is {where} twice" for name in sorted({name for name in has if has.count(name) > 1})]


def find_unexplained(needs: Needs, page: str) -> list[str]:
    """Returns errors: lower-case constructors that the section Notation doesn't explain, and library names that the
    prose doesn't explain."""
    made = {
        symbol
        for part in needs.parts
        for name in part.definitions
        for symbol in find_definition(name).constructor_names()
        if symbol[0].islower()
    }
    notation = set(TOKEN.findall(page.partition("## Notation")[2].partition("\n## ")[0]))
    prose = set(TOKEN.findall(BLOCK.sub("", page).replace("`", " ")))
    found = [f"the section Notation doesn't mention the constructor {name}" for name in sorted(made - notation)]
    return found + [f"the library's {name} isn't explained" for name in sorted(needs.library - prose)]


def count_words(page: str) -> int:
    """Returns the number of words on a page, which are separated by spaces. Numbers and symbols count as words."""
    return sum(len(line.split()) for line in page.splitlines() if not HIDDEN_LINE.fullmatch(line))


def find_long_pages(path: Path, page: str) -> list[str]:
    """Returns errors: the page has more words than it states, or states more than MAX_WORDS."""
    name, stated = path.name, WORDS.search(page)
    if stated is None:
        return [f"{name} doesn't state its maximum number of words"]
    words, limit = count_words(page), int(stated[1].replace(",", ""))
    found = [f"{name} has {words} words, but at most {limit} are allowed"] if words > limit else []
    return found + ([f"{name} allows {limit} words, more than {MAX_WORDS}"] if limit > MAX_WORDS else [])


def find_errors(needs: Needs, pages: list[str], more: str) -> list[str]:
    """Returns the errors of the pages."""
    both = PAGE_SEPARATOR.join(pages)
    texts, found = [both, *SECTION.split(more)], [*needs.faults]
    if len(texts) != len(needs.parts):
        return [*found, f"the third page has {len(texts) - 2} sections, not {len(needs.parts) - 2}"]
    for part, text in zip(needs.parts, texts):
        found += find_differences(part.title, list_names(text, "definitions"), part.definitions)
        found += find_differences(part.title, list_names(text, "code", "documented"), part.code)
    code = sorted(name for part in needs.parts for name in part.code)
    found += [f"{name} is used by a definition but isn't public" for name in code if not is_public(name)]
    found += find_unexplained(needs, PAGE_SEPARATOR.join(texts))
    found += [fault for path, page in zip(PAGES, pages) for fault in find_long_pages(path, page)]
    whole = PAGE_SEPARATOR.join([both, more])
    if len(COUNTS.findall(whole)) != len(needs.parts) or {m[1] for m in MORE_COUNT.finditer(whole)} != set(
        LAWS.values()
    ):
        found.append("the pages don't have each count exactly once")
    if update_page(needs, whole).split(PAGE_SEPARATOR)[: len(PAGES)] != pages:
        found.append("a definition or a count on a page is out of date: run tests/reading.py --write")
    return found


def read_comments() -> dict[Path, dict[str, str]]:
    """Returns the comment above each definition in the repository, by file."""
    files = {path: read_definitions(path) for path in sorted((TOP / "crates").glob("*/specs/**/*.antt"))}
    return {
        path: {definition.name: definition.comment for definition in file.definitions.values()}
        for path, file in files.items()
    }


def format_list(needs: Needs) -> str:
    """Returns what is needed, by part and file: the definitions in order, and the types and constants of the code."""
    lines = list[str]()
    for part in needs.parts:
        for path in sorted({definition.path for definition in part.definitions}):
            kept = [name for name in read_definitions(path).definitions if Name(path, name) in part.definitions]
            lines.append(f"{part.title}: {path.relative_to(TOP)}: {' '.join(kept)}")
        lines += [f"{part.title}: {line}" for line in sorted(part.code)]
    return "\n".join([*lines, *(format_count(part.definitions) for part in needs.parts), str(needs.more)])


def main() -> int:
    """Runs the command."""
    pages, more = [path.read_text(encoding="utf-8") for path in PAGES], MORE_PAGE.read_text(encoding="utf-8")
    needs, whole = Needs(), PAGE_SEPARATOR.join([*pages, more])
    if sys.argv[1:] == ["--list"]:
        print(format_list(needs))
        return 0
    if sys.argv[1:] == ["--more"]:
        print(update_page(needs, whole).split(PAGE_SEPARATOR)[-1], end="")
        return 0
    if sys.argv[1:] == ["--index"]:
        print(definitions.build_page(read_comments()), end="")
        return 0
    if sys.argv[1:] == ["--write"]:
        for path, text in zip(PAGES, update_page(needs, whole).split(PAGE_SEPARATOR)):
            path.write_text(text, encoding="utf-8")
        return 0
    found = find_errors(needs, pages, more)
    for line in found:
        print(line)
    counted = format_count(needs.parts[0].definitions).strip("*")
    words = " and ".join(f"{path.name} {count_words(page)}" for path, page in zip(PAGES, pages))
    print(f"one statement, {counted}; words: {words}; {len(found)} errors")
    return 1 if found else 0


if __name__ == "__main__":
    sys.exit(main())
