"""The definitions of specs/*.antt and what is declared in src/*.rt, and where each word of such a text leads.

A word is found by the `use` lines of its file. It leads to a definition in a file specs/*.antt, to a declared type or constant in
the sources of its crate, or to a word of the toolchain's libraries, which is read no further.
"""
import functools
import re
from collections import namedtuple

import crates
import tables
from crates import ROOT


class Unread(tables.Unmade):
    """A name whose definition can't be found."""


# ---- names in a text

# Words that are part of the language.
LANGUAGE = set("abbrev unfoldable opaque pub record data where let in elim as λ Type Unit tt absurd _".split())
# What a clause may name with no import.
PLAIN = set("Ok Err Some None true false if then else Self".split())
# The variants of small letters: all other such words of a pattern are names that it gives.
CONSTRUCTORS = ("true", "false", "zero", "suc")
# A name with the fields or variants behind it, and not behind a dot itself.
CHAIN = re.compile(r"(?<![\w.'])(?![₀-₉])[^\W\d][\w'?]*(?:-[a-z]\w*)*(?:\.[\w'?]+)*")


def bare(text):
    """The text without comments and strings, and without the names of fields that a record is given."""
    text = re.sub(r'"[^"]*"', "", re.sub(r"--.*", "", text))
    return re.sub(r"([{;]\s*)[\w']+ =", r"\1=", text)


def binders(text):
    """The names that a text binds: by λ, by (x y : T), and by let."""
    found = re.findall(r"λ ([^.]*)\.", text) + re.findall(r"[({]([\w' ]+) :", text) + re.findall(r"\blet ([\w']+)", text)
    return {name for names in found for name in names.split()}


def names_in(text, bound=()):
    """The names that a text cites, in order, each with what follows its first dot."""
    text = bare(text)
    bound = LANGUAGE | binders(text) | set(bound)
    for chain in CHAIN.findall(text):
        head, _, rest = chain.partition(".")
        if head not in bound:
            yield head, rest.partition(".")[0]


def has_operator(name, text):
    """Whether a text uses an operator, as ◌+◌ or if◌then◌else◌."""
    pieces = [it for it in name.split("◌") if it]
    return all(re.search(rf"(?<![^\s()]){re.escape(it)}(?![^\s()])", text) for it in pieces)


# ---- files of definitions

Imports = namedtuple("Imports", "names aliases")
USE = re.compile(r"^\s*(?:pub |ghost )*use ([\w.]+?)(?:\.\{([^}]*)\}| as (\w+));?$", re.M)


def imports_of(text):
    """Of each imported name its module and its name there, and of each alias its module."""
    found = Imports({}, {})
    for module, names, alias in USE.findall(text):
        if alias:
            found.aliases[alias] = module
        for name in filter(None, (it.strip() for it in names.split(","))):
            there, _, here = name.partition(" as ")
            found.names[here or there] = (module, there)
    return found


FIRST = "(?:abbrev|unfoldable|opaque|pub) "
START = re.compile(rf"(?={FIRST}|record |data )(?:{FIRST})*(record |data )?([^\s(){{}}:]+)(?=\s.*:|$)")
# What stands between definitions.
OUTSIDE = ("module ", "use ", "pub use ", "pub mod ", "open ", "infix")


class Definition(namedtuple("Definition", "name kind head level comment lines")):
    """A definition: its name, whether it is a record or data, the head of the module that it stands in, and how far that sets it
    in; the comment above it, and its lines.
    """

    __slots__ = ()

    @property
    def text(self):
        return "\n".join(filter(None, (self.head, *self.comment, *self.lines)))

    @property
    def members(self):
        """Of a record or data its first lines, under no name, and then the name and the text of each field or variant."""
        found = [("", self.lines[0])]
        for line in self.lines[1:]:
            member = re.match(rf" {{{self.level + 2}}}(?:pub )?([\w']+) :", line)
            if member:
                found.append((member[1], line))
            else:
                found[-1] = (found[-1][0], found[-1][1] + "\n" + line)
        return found

    @property
    def equations(self):
        """Of a definition by cases its type, and then each case, with what it is given and what it is."""
        cases = [[]]
        for line in self.lines:
            if line.startswith(" " * self.level + self.name + " "):
                cases.append([])
            cases[-1].append(line)
        yield "", "\n".join(cases[0])
        for case in cases[1:]:
            given, _, is_ = re.sub(r" =\n", " = \n", "\n".join(case)).partition(" = ")
            yield given, is_

    def names(self, is_variant):
        """The names that it cites, in order. is_variant says which words of a pattern aren't names that it gives."""
        own = binders(self.head)
        if self.kind:
            (_, first), *members = self.members
            own |= binders(bare(first))
            yield from names_in(first, own | {self.name})
            for name, text in members:
                yield from names_in(text.replace(name, "", 1), own)
                own |= {name} if self.kind == "record" else set()
            return
        for given, is_ in self.equations:
            own_words = own | {self.name} | {word for word, behind in names_in(given) if not (behind or is_variant(word))}
            yield from names_in(given, own_words)
            yield from names_in(is_, own_words)


def is_comment(line):
    return line.strip().startswith("--")


def definitions_in(text):
    """The definitions of a file, in order."""
    found, head, level, comment = [], "", 0, []
    for line in text.splitlines():
        if line and not line.startswith(" ") and not is_comment(line):
            head, level = (line, 2) if line.startswith("module ") else ("", 0)
        starts = START.match(line.removeprefix(" " * level))
        if starts and not line.startswith((*OUTSIDE, " " * (level + 1))):
            found.append(Definition(starts[2], (starts[1] or "").strip(), head, level, comment, [line]))
        elif found and line.strip() and not line.startswith(OUTSIDE):
            found[-1].lines.append(line)
        comment = [*comment, line] if is_comment(line) else []
    # (a comment that follows a definition is that of the next one, or of what comes)
    for it in found:
        while is_comment(it.lines[-1]):
            it.lines.pop()
    return found


class Definitions:
    """A file specs/*.antt."""

    def __init__(self, text):
        self.imports = imports_of(text)
        self.named = {it.name: it for it in definitions_in(text)}
        self.variants = {name: it.name for it in self.named.values() if it.kind == "data" for name, _ in it.members[1:]}

    def find(self, name):
        """The definition of that name, or of which it is a variant."""
        return self.named.get(name) or self.named.get(self.variants.get(name))


@functools.cache
def read_definitions(place):
    return Definitions((ROOT / place).read_text(encoding="utf-8"))


# ---- declared types and constants

RUST_USE = re.compile(r"^(?:pub )?use (\w+)(?:::\w+)*::(?:\{([^}]*)\}|(\w+));", re.M)


def rust_item(text, name):
    """The declaration of a type, trait or constant in a source, with the comment above it, or None."""
    lines = text.splitlines()
    declares = re.compile(rf"^(?:pub(?:\([\w ]+\))? )?(?:struct|enum|trait|type|const|static) {name}\b")
    at = next((k for k, line in enumerate(lines) if declares.match(line)), None)
    if at is None:
        return None
    begin, end = at, at
    while begin and re.match(r"(///|#\[)", lines[begin - 1]):
        begin -= 1
    closing = r"^\}|\{\}$" if lines[at].endswith(("{", "{}")) else r";$"
    while not re.search(closing, lines[end]):
        end += 1
    return "\n".join(lines[begin : end + 1])


@functools.cache
def declared(crate, name, hint):
    """The file of a crate that declares a type, trait or constant, of that module before others, or None."""
    files = sorted((ROOT / "crates" / crate / "src").rglob("*.rt"), key=lambda it: (it.stem != hint, it))
    return next((str(it.relative_to(ROOT)) for it in files if rust_item(it.read_text(encoding="utf-8"), name)), None)


# ---- where a name leads

# kind is "definition", "declared" or "given"; place is a file, and of what is given a module.
Target = namedtuple("Target", "kind place name")


@functools.cache
def ours():
    return frozenset(crates.read())


@functools.cache
def target_of(module, name):
    """Where an imported name leads."""
    root, *path = module.split(".")
    if root != "Rattle" or path[0] not in ours():
        return Target("given", module, name)
    crate, part, *path = path
    if path[0] == "declared":
        of = path[-2] if path[-1] == "TheVariants" else name
        place = declared(crate, of, path[1])
        if not place:
            raise Unread(f"no type or constant {of} in crates/{crate}/src")
        return Target("declared", place, of)
    place = f"crates/{crate}/{part}/{path[0]}.antt"
    if not (ROOT / place).is_file():
        raise Unread(f"no file {place}")
    file = read_definitions(place)
    # (behind the file may stand the data whose variant it is)
    if found := file.find(path[1] if path[1:] else name):
        return Target("definition", place, found.name)
    if name in file.imports.names:
        return target_of(*file.imports.names[name])
    raise Unread(f"no definition of {name} in {place}")


# A word of a text, the name that it has where it is defined (none: it stands for a type's variants), and where it leads.
Cited = namedtuple("Cited", "word there target")


def cited_by(texts, imports, own, rest=lambda name: None):
    """Where words lead, of which each is given with what follows its dot: by own definitions, by imports, or by the rest."""
    for head, behind in texts:
        if head in imports.aliases:
            module = imports.aliases[head]
            word, there = (head, "") if module.endswith(".TheVariants") else (f"{head}.{behind}", behind)
            yield Cited(word, there, target_of(module, behind))
        elif found := own(head):
            yield Cited(head, head, found)
        elif head in imports.names:
            yield Cited(head, imports.names[head][1], target_of(*imports.names[head]))
        elif found := rest(head):
            yield Cited(head, head, found)
        elif head not in PLAIN:
            raise Unread(head)


def operators_in(text, imports):
    for name, (module, there) in imports.names.items():
        if "◌" in name and has_operator(name, bare(text)):
            yield Cited(name, there, target_of(module, there))


@functools.cache
def cites(target):
    """What a target's text cites, in order."""
    if target.kind == "given":
        return []
    return list(cited_by_alias(target) if target.kind == "declared" else cited_by_definition(target))


def cited_by_definition(target):
    file = read_definitions(target.place)
    it = file.named[target.name]

    def own(name):
        found = file.find(name)
        return found and Target("definition", target.place, found.name)

    def is_variant(name):
        return name in CONSTRUCTORS or not name[0].islower() and (name in file.variants or name in file.imports.names)

    try:
        yield from cited_by(it.names(is_variant), file.imports, own)
    except Unread as fault:
        raise Unread(f"{target.place}, {target.name}: {fault}") from None
    yield from operators_in(it.text, file.imports)


def cited_by_alias(target):
    """Of a type that is another one's name, that one."""
    crate, text = target.place.split("/")[1], text_of(target)
    if " type " in text:
        yield from rust_names(text.partition(" = ")[2], crate, (ROOT / target.place).read_text(encoding="utf-8"))


def rust_names(text, crate, source):
    """The types of this repository that a text in a source of the crate names."""
    for name in re.findall(r"[A-Z]\w+", text):
        if found := rust_target(name, crate, source):
            yield Cited(name, name, found)


def rust_target(name, crate, source):
    if not re.match(r"[A-Z]", name):
        return None
    for root, names, one in RUST_USE.findall(source):
        if name in re.findall(r"\w+", names or one):
            crate = crate if root == "crate" else root
    place = declared(crate, name, "") if crate in ours() else None
    return place and Target("declared", place, name)


def text_of(target):
    if target.kind == "declared":
        return rust_item((ROOT / target.place).read_text(encoding="utf-8"), target.name)
    return read_definitions(target.place).named[target.name].text


def unfolded(first):
    """Where all that is cited leads, each once: one, then what it cites, and then the next."""
    found, waiting = {}, list(first)[::-1]
    while waiting:
        target = waiting.pop().target
        if target not in found:
            found[target] = None
            waiting += cites(target)[::-1]
    return list(found)
