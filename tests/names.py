"""The names that this repository has: files, crates, items of the code, definitions, printed texts, and a few words of the
kit. Whatever stands in backticks in a document has to be made of them."""

import os
import re
from functools import cache
from pathlib import Path

from heads import TOP, crates, specs_of, text_of

SKIPPED = {".git", "out", "__pycache__"}

# Words of Rattle, of the C library and of other programs that documents may name, beside what our code imports from the kit.
KIT_WORDS = set(
    """requires ensures impl main mut self ? std bool u8 u16 u32 u64 u128 usize Ok Err Some None Vec String Option Result Mutex Brand
    prove write ghosts-leave_with fsync fdatasync pwrite b2sum hashlib merkletree merkletree.BuildRangeProof
    merkletree.BuildDiffProof BuildRangeProof BuildDiffProof""".split()
)

# Commands of others, by their first words.
COMMANDS = {
    "rt": "ci check fmt tidy plant must-fail verdict version help lemma doc test try run lib all expand".split(),
    "b2sum": ["-l", "256"],
    "git": ["log", "diff"],
}


@cache
def files():
    """Every file of the repository but what is made."""
    found = []
    for folder, folders, names in os.walk(TOP):
        folders[:] = sorted(set(folders) - SKIPPED)
        found.extend(Path(folder) / name for name in sorted(names))
    return found


@cache
def file_names():
    """The files and folders, by each path that a document may write: from the top, from docs/, from crates/, from a crate,
    or by the name alone."""
    names = set()
    for path in files():
        parts = path.relative_to(TOP).parts
        for end in range(1, len(parts) + 1):
            for start in range(min(end, 3)):
                if start == 0 or parts[0] in ("docs", "crates"):
                    names.add("/".join(parts[start:end]))
        names.add(path.name)
    return names


FUNCTION = re.compile(r"^ {4}(?:ghost |unsafe |final )*fn (\w+)|^ {4}ghost (\w+):", re.M)
IMPL = re.compile(r"^impl\b[^{;]*?(\w+)(?:<[^{;]*>)?\s*\{\n(.*?)^\}", re.M | re.S)
CLAUSE = re.compile(r"^\s+(?:ensures|requires) (\w+) \{", re.M)
TYPE = re.compile(r"pub(?:\([a-z]+\))? (?:unsafe )?(?:struct|enum|trait|type) (\w+)")
BLOCK = re.compile(r"^pub (?:unsafe )?(enum|trait) (\w+)[^{;]*\{\n(.*?)^\}", re.M | re.S)
VARIANT = re.compile(r"^ {4}([A-Z]\w*)", re.M)
PUBLIC = re.compile(r"^ *pub (?:const |unsafe |ghost )*(?:fn|struct|enum|trait|type|const|static|mod|macro) (\w+)", re.M)
MACRO = re.compile(r"^macro_rules! (\w+)", re.M)
ANY = re.compile(r"^ *(?:pub(?:\([a-z]+\))? )?(?:const |unsafe |ghost )*(?:fn|struct|enum|trait|type|const|static|mod) (\w+)", re.M)
IMPORT = re.compile(r"^ *(?:ghost |pub )*use (?:Rattle\.)?(\w+)([^{;\n]*)(?:\{([^}]*)\})?", re.M)
TEXT = re.compile(r'"((?:[^"\\\n]|\\.)*)"')


def sources(crate):
    """The Rattle files of a crate."""
    return sorted((crate.folder / "src").rglob("*.rt"))


@cache
def source_texts():
    """The texts of the Rattle files, by crate."""
    return {crate.name: [text_of(path) for path in sources(crate)] for crate in crates()}


def types(crate):
    """The types and traits that a library's definitions can cite, each with its file and line."""
    for path in sources(crate) if crate.is_library else []:
        for number, line in enumerate(text_of(path).splitlines(), 1):
            if found := TYPE.match(line):
                yield path, number, found[1]


def members(text):
    """The variants of a file's public enums, and the functions and ghost members of its public traits, each with its owner."""
    for kind, owner, body in BLOCK.findall(text):
        if kind == "enum":
            yield from ((owner, name) for name in VARIANT.findall(body))
        else:
            yield from ((owner, name) for pair in FUNCTION.findall(body) for name in pair if name)
    for owner, body in IMPL.findall(text):
        yield from ((owner, name) for name in PUBLIC.findall(body))


@cache
def all_members():
    """Each member of a public type or trait, with its owner."""
    return {pair for texts in source_texts().values() for text in texts for pair in members(text)}


@cache
def public_code(name):
    """The public items of a crate's code, with the members of its enums and traits."""
    found = set()
    for text in source_texts()[name]:
        found.update(PUBLIC.findall(text))
        found.update(f"{name}!" for name in MACRO.findall(text))
        found.update(member for _, member in members(text))
    return found


@cache
def public_items(name):
    """The public items of a crate's code, and its definitions."""
    files = [specs for crate in crates() if crate.name == name for specs in specs_of(crate)]
    return public_code(name) | {one.name for specs in files for one in specs.definitions}


@cache
def clauses(name):
    """The labels of a crate's clauses."""
    return {label for text in source_texts()[name] for label in CLAUSE.findall(text)}


@cache
def all_items(name):
    """Every item of a crate's code, public or not: what the head of that crate may name."""
    return {item for text in source_texts()[name] for item in ANY.findall(text)} | public_items(name) | clauses(name)


@cache
def everywhere():
    """The public items of all crates."""
    return {item for crate in crates() for item in public_items(crate.name)}


@cache
def libraries():
    """The crates, and the libraries of the kit that they stand on."""
    return {name for crate in crates() for name in (crate.name, *crate.needs)}


@cache
def imported():
    """What our code and definitions import from std and from the kit's libraries."""
    found, of_kit = set(), {"std"} | (libraries() - set(source_texts()))
    for crate in crates():
        for text in source_texts()[crate.name] + [text_of(specs.path) for specs in specs_of(crate)]:
            for library, path, listed in IMPORT.findall(text):
                if library in of_kit:
                    found.update(re.findall(r"[^\s,.:]+", f"{path} {listed}"))
    return found


@cache
def printed_words():
    """The words of the texts in quotes, of code and definitions, and of the keys in them."""
    words = set()
    for crate in crates():
        texts = source_texts()[crate.name] + [text_of(specs.path) for specs in specs_of(crate)]
        for text in texts:
            for quoted in TEXT.findall(text):
                words.update(re.split(r"[\s.]+", quoted.replace("\\n", " ")))
    return words - {""}


def is_path(text):
    return text.rstrip("/").removeprefix("./") in file_names()


def is_item(text, crate=None):
    """Whether a text names an item, as `name`, `Type::name` or `crate::name`; in a crate's own head also one that isn't public."""
    parts = path_of(text)
    if parts and parts[0] in source_texts():
        return is_among(parts[1:], public_items(parts[0]))
    return is_among(parts, everywhere() | (all_items(crate.name) if crate else set()))


def is_code(text, crate=None):
    """Whether a text is a type, a call or a pattern that is made of items, of words of the kit and of type parameters."""
    if not re.fullmatch(r"[\w:<>&\[\];, ()'!?.*=+-]+", text) or re.search(r"(?<!mut)(?<!impl)(?<!\W) \w", text):
        return False
    paths = re.findall(r"[A-Za-z_]\w*(?:::[A-Za-z_]\w*)*", text)
    return bool(paths) and all(len(path) == 1 or path in KIT_WORDS | imported() or is_item(path, crate) for path in paths)


def is_public_call(text, crate):
    """Whether a text names a public item of a crate's code, by its path within the crate."""
    return is_among(path_of(text), public_code(crate.name))


def path_of(text):
    """The parts of an item's path, or none where a text is no path."""
    parts = re.sub(r"::<.*?>|\(\)$", "", text).split("::")
    return parts if all(re.fullmatch(r"[A-Za-z_◌>=&]['\w◌>=&]*!?", part) for part in parts) else []


def is_among(parts, items):
    """Whether the parts of a path are among these items, and each one behind a type is a member of that type."""
    is_owned = all(pair in all_members() for pair in zip(parts, parts[1:]) if pair[0][0].isupper())
    return bool(parts) and is_owned and all(part in items for part in parts)


def is_placeholder(word):
    return re.fullmatch(r"[A-Z][A-Z_]*|\.\.|[0-9a-f]*[0-9][0-9a-f]*|/tmp/\S*", word) is not None


def is_printed(text):
    """Whether a text is a command's or an answer's: each of its words is printed, is read, or stands for something."""
    words = [word for word in text.split() if not is_placeholder(word)]
    return bool(words) and all(
        word in printed_words() or is_item(word) or set(word.rstrip(":").split(".")) <= printed_words() for word in words
    )


def is_command(text):
    """Whether a text is a command line of ours or of a known program."""
    first, *others = text.split()
    if first in COMMANDS:
        return not others or others[0] in COMMANDS[first]
    is_ours = first in ("sia-v1", "./sia-v1", "sia_bench") or is_path(first)
    return is_ours and all(is_path(word) or is_placeholder(word) or is_printed(word) for word in others)


def is_formula(text):
    """Whether a text is a hash or a node of docs/formats.md and docs/trees.md, made of numbers, or an option."""
    return re.fullmatch(r"--\w+|[HN]\(.*\)|H|0x[0-9a-f]{2}|[0-9a-f^ ·+-]*[0-9][0-9a-f^ ·+-]*", text) is not None


def is_known(text, crate=None):
    """Whether what stands in backticks exists, seen from a crate's head where one is given."""
    return bool(
        (crate is not None and (crate.folder / text).exists())
        or text in libraries()
        or text in KIT_WORDS | imported()
        or re.fullmatch(r"rattle-kit-\d+[a-z]", text)
        or is_path(text)
        or is_item(text, crate)
        or is_code(text, crate)
        or is_formula(text)
        or is_command(text)
        or is_printed(text)
    )
