"""What the heads of crates and the comments of definitions say, and the two pages that are printed from them."""

import re
import textwrap
from dataclasses import dataclass, field
from functools import cache
from pathlib import Path

TOP = Path(__file__).resolve().parent.parent
PRINTED = ("docs/promises.md", "docs/definitions.md")
PROMISES, STANDS_ON = "Promises", "Stands on"

# What a file of specs/ says that serves proofs alone: its definitions aren't printed.
INNER = "No public clause speaks of"

# How a law is called that stands beside its codec: the codec has the comment.
LAW = "_law"


@dataclass
class Fault:
    """What is wrong at a line of a file."""

    path: Path
    line: int
    text: str

    def __str__(self):
        return f"{self.path.relative_to(TOP)}:{self.line}: {self.text}"


@dataclass(frozen=True)
class Crate:
    """A line of crates.txt."""

    name: str
    needs: tuple[str, ...]
    line: int

    @property
    def folder(self):
        return TOP / "crates" / self.name

    @property
    def root(self):
        library = self.folder / "src" / "lib.rt"
        return library if library.exists() else self.folder / "src" / "main.rt"

    @property
    def is_library(self):
        """Whether others can call it: a test crate and a program offer nothing."""
        return self.root.name == "lib.rt" and re.search(r"^pub ", text_of(self.root), re.M) is not None


@dataclass
class Section:
    """The lines below a heading of a crate's head, each with its number; the first section has no heading."""

    line: int
    lines: list[tuple[int, str]] = field(default_factory=list)

    def prose(self):
        """The lines without the examples between fences."""
        is_example = False
        for number, text in self.lines:
            if text.startswith("```"):
                is_example = not is_example
            elif not is_example:
                yield number, text

    def bullets(self):
        """Each item of a list that begins with `- `, joined to one line, with the number of its first line."""
        items = []
        for number, text in self.lines:
            if text.startswith("- "):
                items.append((number, text[2:].strip()))
            elif items and text:
                first, before = items[-1]
                items[-1] = (first, f"{before} {text.strip()}")
        return items

    def text(self):
        """The section as it is, without examples and without the brackets that `rt doc` makes links of."""
        text = "\n".join(line for _, line in self.prose())
        return re.sub(r"\n{3,}", "\n\n", re.sub(r"\[(`[^`]*`)\](?!\()", r"\1", text)).strip()

    def words(self):
        return " ".join(text for _, text in self.lines)

    def has_example(self):
        return sum(text.startswith("```") for _, text in self.lines) >= 2


@dataclass
class Definition:
    """A public definition of a file in specs/, and the comment above it."""

    name: str
    comment: str
    line: int


@dataclass
class Specs:
    """A file of specs/: its opening comment, and its public definitions in order."""

    crate: Crate
    path: Path
    opening: str
    definitions: list[Definition]


@cache
def text_of(path):
    """The text of a file."""
    return path.read_text()


@cache
def crates():
    """The crates, lowest first."""
    found = []
    for number, line in enumerate(text_of(TOP / "crates.txt").splitlines(), 1):
        before, colon, needs = line.partition("#")[0].partition(":")
        if colon:
            found.append(Crate(before.split()[0], tuple(needs.split()), number))
    return found


@cache
def head_of(crate):
    """The sections of a crate's head by their headings; that of no heading is the opening."""
    sections = {"": Section(1)}
    section = sections[""]
    for number, line in enumerate(text_of(crate.root).splitlines(), 1):
        if not line.startswith("//!"):
            break
        text = line[4:].rstrip()
        if heading := re.match(r"# (.+)", text):
            section = sections.setdefault(heading[1], Section(number))
        else:
            section.lines.append((number, text))
    return sections


def head_faults(crate):
    """What a crate's head lacks of the form that each head has."""
    sections = head_of(crate)
    opening = sections[""]
    if not opening.text():
        yield Fault(crate.root, 1, "the head has no sentence that says what the crate is")
    if not crate.is_library:
        return
    if not opening.has_example():
        yield Fault(crate.root, 1, "the head has no lines of use between two lines ```")
    for heading in (PROMISES, STANDS_ON):
        if heading not in sections:
            yield Fault(crate.root, 1, f"the head has no section `//! # {heading}`")
    if PROMISES in sections and not sections[PROMISES].bullets():
        yield Fault(crate.root, sections[PROMISES].line, f"the section `{PROMISES}` has no line that begins with `- `")
    if STANDS_ON in sections and not sections[STANDS_ON].words().strip():
        yield Fault(crate.root, sections[STANDS_ON].line, f"the section `{STANDS_ON}` is empty")


DEFINED = re.compile(r"(?:(?:unfoldable|abbrev|opaque|pub) )*(?<=pub )(?:(?:record|data|syntax) )?(?!mod |use )([^\s:({]+)")
LEADING = re.compile(r"(?:infix[lr]?|prefix|postfix|notation|syntax)\b")


def comment_above(lines, index):
    """The lines of `--` right above a line, joined; what says how an operator binds may stand between."""
    end = index
    while end and LEADING.match(lines[end - 1].strip()):
        end -= 1
    start = end
    while start and lines[start - 1].strip().startswith("--"):
        start -= 1
    return " ".join(line.strip()[2:].strip() for line in lines[start:end])


def definition_lines(lines):
    """The lines at which a definition can begin, without their indent: those at the margin and those of a module's block, but
    not the fields of a record."""
    indent = 0
    for index, line in enumerate(lines):
        if line and not line.startswith((" ", "--")):
            indent = 2 if line.startswith("module ") else 0
        if len(line) - len(line.lstrip()) in (0, indent):
            yield index, line.strip()


def opening_of(lines):
    """The lines of `--` at the head of a file, joined."""
    texts = []
    for line in lines:
        if not line.startswith("--"):
            break
        texts.append(line[2:].strip())
    return " ".join(" ".join(texts).split())


@cache
def specs_of(crate):
    """The files of a crate's specs/ with their public definitions; `Lib.antt` has none."""
    found = []
    for path in sorted((crate.folder / "specs").rglob("*.antt")):
        if path.name == "Lib.antt":
            continue
        lines = text_of(path).splitlines()
        definitions = [
            Definition(defined[1], comment_above(lines, index), index + 1)
            for index, line in definition_lines(lines)
            if (defined := DEFINED.match(line)) and not defined[1].endswith(LAW)
        ]
        found.append(Specs(crate, path, opening_of(lines), definitions))
    return found


def specs_faults(crate):
    """Which files of specs/ and which public definitions have no comment."""
    for specs in specs_of(crate):
        if not specs.opening:
            yield Fault(specs.path, 1, "the file opens with no comment that says its idea and its public source")
        for definition in specs.definitions:
            if not definition.comment and INNER not in specs.opening:
                yield Fault(specs.path, definition.line, f"no comment stands above `{definition.name}`")


def filled(text, first="", later=""):
    """A text in lines of at most 120 characters."""
    return textwrap.fill(
        text, 120, initial_indent=first, subsequent_indent=later, break_long_words=False, break_on_hyphens=False
    )


def index(some):
    """A line of links to the sections of a page."""
    return filled(" · ".join(f"[{crate.name}](#{crate.name})" for crate in some))


def promises_page():
    """docs/promises.md: what each crate promises, as its head says it."""
    parts = [
        "# The promises",
        filled(
            "Printed by `docs/print` from the heads of the crates, lowest first: what each one promises for every input, with"
            " the public calls whose contracts carry it. Want of memory is the one answer that no clause ties to a cause;"
            " every other answer has its cause in a clause of the call that gives it."
        ),
        index(crate for crate in crates() if crate.is_library),
    ]
    for crate in crates():
        if not crate.is_library:
            continue
        sections = head_of(crate)
        parts.append(f"## `{crate.name}`")
        for heading in ("", PROMISES):
            parts.append(sections.get(heading, Section(1)).text())
        needs = ", ".join(f"`{name}`" for name in crate.needs) or "std alone"
        parts.append(filled(f"Stands on: {sections.get(STANDS_ON, Section(1)).text() or needs}"))
    return "\n\n".join(part for part in parts if part) + "\n"


def definitions_page():
    """docs/definitions.md: every public definition that contracts can cite, by crate and file."""
    parts = [
        "# The definitions",
        filled(
            "Printed by `docs/print` from the comments in each crate's `specs/`, lowest crate first: every public definition,"
            " in the words that stand above it, by file, with the public source that the file names. Of a file that serves"
            " proofs alone only the idea is told."
        ),
        index(crate for crate in crates() if specs_of(crate)),
    ]
    for crate in crates():
        files = [specs for specs in specs_of(crate) if specs.definitions]
        if files:
            parts.append(f"## `{crate.name}`")
        for specs in files:
            inside = specs.path.relative_to(crate.folder / "specs").with_suffix("")
            parts.append(f"### [{inside}](../{specs.path.relative_to(TOP)})")
            parts.append(filled(specs.opening))
            if INNER not in specs.opening:
                parts.append("\n".join(filled(f"`{one.name}`: {one.comment}", "- ", "  ") for one in specs.definitions))
    return "\n\n".join(part for part in parts if part) + "\n"


def page(name):
    """The text of a printed page."""
    return {"docs/promises.md": promises_page, "docs/definitions.md": definitions_page}[name]()
