"""The files of edits: what each changes in its crate, and the function whose proof has to fail then."""
import functools
import re

# Where the edits of a crate stand: those that the gate tries, and those that it leaves out.
TRIED, LEFT_OUT = KINDS = ("gate-edits", "more-edits")
FUNCTION = re.compile(r"^(?P<in> *)(?:pub(?:\(\w+\))? )?(?:const |unsafe |extern \S+ )*fn (?P<name>\w+)")
TYPE = re.compile(r"^(?:pub(?:\(\w+\))? )?(?:struct|enum) (\w+)", re.MULTILINE)
BLOCK = re.compile(r"^(?P<in> *)(?:pub )?(?:unsafe )?(?P<kind>impl|trait)\b(?P<of>.*)$")


class Unappliable(Exception):
    """Why an edit can't be applied to its crate."""


class Edit:
    """An edit by its file: its pairs of an old and a new text, each with the file of the crate that it stands in."""

    def __init__(self, path):
        self.path, self.folder, self.name = path, path.parent.parent, path.stem
        self.pairs, self.said = [], ""
        place = old = None
        for line in path.read_text(encoding="utf-8").splitlines():
            word, _, rest = line.partition(":")
            rest = rest.removeprefix(" ")
            if word == "file":
                place = rest.strip()
            elif word == "function":
                self.said = rest.strip()
            elif word == "old":
                old = rest
            elif word == "new":
                self.pairs.append((place, old, rest))
                old = None

    def apply(self, texts):
        """Puts its new texts in the place of the old ones; of texts by their places those that aren't there are read."""
        if not self.pairs:
            raise Unappliable("it has no 'old:' and 'new:' pair")
        for place, old, new in self.pairs:
            if place is None or old is None:
                raise Unappliable("a 'new:' line stands before any 'file:' or 'old:' line")
            if place not in texts:
                if not (self.folder / place).is_file():
                    raise Unappliable(f"there is no file {place}")
                texts[place] = (self.folder / place).read_text(encoding="utf-8")
            if texts[place].count(old) != 1:
                raise Unappliable(f"an old text is in {place} {texts[place].count(old)} times, and not once")
            texts[place] = texts[place].replace(old, new)

    def fault(self):
        """Why it can't be applied, or an empty text."""
        try:
            self.apply({})
        except Unappliable as fault:
            return str(fault)
        return ""

    @functools.cached_property
    def function(self):
        """The function whose proof has to fail, as the checker names it or by the end of that name: what a line `function:`
        says, or else the one in which the old texts stand. An empty text where no function, or several, have one."""
        if self.said:
            return self.said
        found, texts = set(), {}
        for place, old, new in self.pairs:
            text = texts.get(place) or (self.folder / place).read_text(encoding="utf-8")
            if not place.startswith("src/") or old not in text:
                return ""
            found.add(function_at(place, text, text.find(old)))
            texts[place] = text.replace(old, new)
        # (what stands outside of all functions is an import that the edit wants)
        found.discard("")
        return found.pop() if len(found) == 1 else ""

    @property
    def turns_code(self):
        """Whether all that it turns is code: what else it turns, a definition say, other functions' proofs may rest on too."""
        return all(place.startswith("src/") for place, _, _ in self.pairs)


def edits_of(crate, kinds=KINDS):
    """The edits of a crate, kind by kind, in the order of their names."""
    return [Edit(it) for kind in kinds for it in sorted((crate.folder / kind).glob("*.edit"))]


# ---- the names of functions


def words_of(text):
    """The names in a type, a trait or a list of parameters, without the bounds behind them."""
    return re.findall(r"\w+", re.sub(r": [^,<>]+(?:<[^<>]*>)?", "", text))


def parted(text):
    """The parameters in < and > with which a text begins, and what stands behind them."""
    depth = 0
    for at, letter in enumerate(text):
        depth += (letter == "<") - (letter == ">")
        if depth == 0:
            return text[1:at], text[at + 1 :]
    return "", text


def type_of(head):
    """By what name a function is known that stands in an `impl` or a `trait` with this head."""
    own, head = parted(head.strip()) if head.strip().startswith("<") else ("", head)
    head = head.partition("{")[0].partition(" where ")[0].strip()
    free = words_of(own)
    trait, is_for, of = head.partition(" for ")
    name = (of if is_for else head).strip()
    words = words_of(name)
    bound = [it for it in words[1:] if it not in free]
    if not is_for:
        return "+".join(words) if bound else words[0]
    trait = re.sub(r"^(?:\w+::)+", "", trait.strip())
    if trait == "Drop":
        return words[0]
    return "".join(it[:1].upper() + it[1:] for it in [*words, *words_of(trait)] if it not in free)


def module_of(place):
    """The module of a file of src/, as the parts of a path; none of the crate's root."""
    parts = place.removeprefix("src/").removesuffix(".rt").removesuffix("/mod").split("/")
    return [] if parts in (["lib"], ["main"]) else parts


def path_at(place, text, at):
    """The path of the function in which a place of a source file stands: its module, its type where it has one, and its name. It is
    that of the function's folder below proofs/. Nothing outside of functions, and of a function of a trait, but for its trait."""
    name, depth = "", None
    for line in reversed(text[: text.find("\n", at)].splitlines()):
        function, block = FUNCTION.match(line), BLOCK.match(line)
        if function and not name:
            name, depth = function["name"], len(function["in"])
        elif name and block and len(block["in"]) < depth:
            return [*module_of(place), type_of(block["of"]), name]
        elif not name and line == "}":
            return []
        if name and depth == 0:
            break
    return [*module_of(place), name] if name else []


def function_at(place, text, at):
    """The name of the function in which a place of a source file stands, or the end of it; an empty text outside of functions."""
    path = path_at(place, text, at)
    # (a type's name says which it is without the module)
    is_method = len(path) > 1 and path[-2][:1].isupper()
    return "::".join(path[-2:] if is_method else path)


def functions_of(folder):
    """The paths of the functions that the sources of a crate write, but for those of traits. A method's is below its type's module,
    wherever it stands."""
    texts = {str(it.relative_to(folder)): it.read_text(encoding="utf-8") for it in sorted((folder / "src").rglob("*.rt"))}
    homes = {name: module_of(place) for place, text in texts.items() for name in TYPE.findall(text)}
    found = []
    for place, text in texts.items():
        at, is_trait = 0, False
        for line in text.splitlines(keepends=True):
            block = BLOCK.match(line.rstrip("\n"))
            is_trait = block["kind"] == "trait" if block else is_trait and not line.startswith("}")
            if FUNCTION.match(line) and not is_trait:
                path = path_at(place, text, at)
                found.append([*homes.get(path[-2], path[:-2]), *path[-2:]] if len(path) > 1 else path)
            at += len(line)
    return found
