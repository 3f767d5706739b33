"""The pages and tables that are made from the code and from the tree: crates/README.md, docs/contracts.md, docs/edits.md, and a table
each in docs/c.md, docs/testing.md and docs/speed.md.

tools/documents writes them, and sees that those which stand are the same.
"""
import collections
import functools
import itertools
import json
import re
import tomllib

import crates
import edit_files
from crates import ROOT

MOST_LETTERS = 120
HEADER = ROOT / "include/rcuo.h"
ANSWER = re.compile(r"^    (RCUO_\w+) = (\d+),?\s*(?:/\*(.*?)\*/)?$", re.M | re.S)
IN_WORDS = re.compile(r'case (RCUO_\w+): return "(.*)";')
# What an edit stands in: a function, or another item, of code or of definitions; and the type whose function it is.
ITEM = re.compile(r"^\s*(?:pub(?:\(\w+\))? )?(?:const |unsafe |ghost |extern \S+ )*(?:fn|struct|enum|trait|const|static|type|macro_rules!) (\w+)")
DEFINITION = re.compile(r"^(?:(?:pub|abbrev|unfoldable|opaque|data|record) )*([^\s(){}:]+)(?: [^:]*)?:(?= |$)")
IMPL = re.compile(r"^(?:unsafe )?impl\b")
# The words that an edit may begin with, beside those that the toolchain reads.
SAYS = ("promise", "clause", "wrong body")


class Unmade(Exception):
    """Why a table can't be made."""


def anchors(headings):
    """The names that headings of one page have in links, in order: of two that are alike the second is numbered."""
    found, times = [], collections.Counter()
    for heading in headings:
        name = re.sub(r"[^\w\- ]", "", heading.replace("`", "").strip().lower()).replace(" ", "-")
        found.append(f"{name}-{times[name]}" if times[name] else name)
        times[name] += 1
    return found


# ---- the root file of a crate


def root_of(crate):
    return crate.folder / "src" / ("main.rt" if crate.is_program else "lib.rt")


def head_of(crate):
    """The comment that a crate's root file begins with."""
    return re.match(r"(?://!.*\n)*", root_of(crate).read_text(encoding="utf-8"))[0]


# ---- crates/README.md


def first_sentence(crate):
    """What a crate is, as the first sentence of its root file says it."""
    paragraph = " ".join(it.removeprefix("//!").strip() for it in head_of(crate).splitlines()).partition("  ")[0]
    found = re.match(r".*?\.(?= |$)", paragraph)
    if not found or len(found[0]) > MOST_LETTERS:
        raise Unmade(f"{root_of(crate).relative_to(ROOT)} begins with no sentence of at most {MOST_LETTERS} letters that says what the crate is")
    return found[0]


def crates_page():
    """A line a crate, under the headings of crates.txt."""
    lines = [
        "# Crates",
        "",
        "Each crate in one sentence, under the headings of [crates.txt](../crates.txt), which says what each stands on.",
        "How they fit together: [docs/architecture.md](../docs/architecture.md).",
        "This page is made by `make docs`, from the first sentence of each crate's root file.",
    ]
    named = crates.read()
    for line in (ROOT / "crates.txt").read_text(encoding="utf-8").splitlines()[1:]:
        if line.startswith("#"):
            lines += ["", f"## {line.lstrip('# ').rstrip('.')}", ""]
        elif line.strip():
            crate = named[line.partition(":")[0].split()[0]]
            lines.append(f"- [`{crate.name}`]({crate.name}): {first_sentence(crate)}")
    return "\n".join(lines) + "\n"


# ---- docs/edits.md


def bare_of_brackets(text):
    """The text without what stands between < and >."""
    while text != (text := re.sub(r"<[^<>]*>", "", text.replace("->", ""))):
        pass
    return text


def name_of_impl(line):
    """The type that an impl is of."""
    words = bare_of_brackets(line.partition("{")[0].partition(" where ")[0]).split()
    return words[-1] if words else ""


def enclosing(lines, item):
    """What the last of these lines stands in: a function, with the type or trait that it is of, or another item."""
    name = ""
    for line in reversed(lines):
        found = item.match(line)
        if IMPL.match(line):
            return "::".join(filter(None, (name_of_impl(line), name)))
        if found and not line.startswith(" "):
            return "::".join(filter(None, (found[1], name)))
        if found and not name:
            name = found[1]
    return name


def turned_by(edit):
    """What an edit turns: each function or definition in which a text of it stands, and its file."""
    found, file, crate = {}, None, edit.parent.parent
    for line in edit.read_text(encoding="utf-8").splitlines():
        if line.startswith("file: "):
            file = line.removeprefix("file: ").strip()
        elif line.startswith("old: "):
            text = (crate / file).read_text(encoding="utf-8")
            at = text.find(line.removeprefix("old: "))
            lines = text.splitlines()[: text.count("\n", 0, at) + 1]
            found.setdefault(file, {})[enclosing(lines, ITEM if file.endswith(".rt") else DEFINITION)] = None
    return found


def said_by(edit):
    """What an edit says of itself: its promise, the clauses that carry it, and the wrong bodies of the specification that it is."""
    lines = edit.read_text(encoding="utf-8").splitlines()
    said = {word: [it.removeprefix(f"{word}: ") for it in lines if it.startswith(f"{word}: ")] for word in SAYS}
    if len(said["promise"]) != 1:
        raise Unmade(f"{edit.relative_to(ROOT)} has no line, or several, that begins with 'promise: '")
    return said


def edits():
    """All edits, crate by crate, those of the gate first."""
    for crate in crates.read().values():
        for kind in edit_files.KINDS:
            yield from ((crate, it) for it in sorted((crate.folder / kind).glob("*.edit")))


def row_of(crate, edit, clauses):
    """The row of an edit: its name, its crate with what it turns, the clauses, and who tries it."""
    names = ", ".join(dict.fromkeys(f"`{name}`" for names in turned_by(edit).values() for name in names if name))
    tried = "`tools/edits`" if edit.parent.name == edit_files.LEFT_OUT else "the gate"
    return f"| `{edit.stem}` | `{crate.name}`: {names} | {'; '.join(clauses)} | {tried} |"


def wrong_bodies(all_edits):
    """Of each wrong body of the specification that a contract refuses, the edits that are it."""
    found = collections.defaultdict(list)
    for crate, edit, said in all_edits:
        for wrong in said["wrong body"]:
            found[wrong].append(f"`{edit.stem}` of `{crate.name}`")
    lines = ["## Wrong bodies of the specification", "", "Those of [wrong-bodies.md](specification/wrong-bodies.md) that a contract refuses.", ""]
    return lines + [f"- `{wrong}`: {', '.join(names)}" for wrong, names in sorted(found.items())]


def edits_page():
    """The edits, promise by promise: what each turns, the clauses that carry the promise, and who tries it."""
    all_edits = [(crate, it, said_by(it)) for crate, it in edits()]
    lines = [
        "# Promises and their edits",
        "",
        "For those who ask whether a contract says what it seems to.",
        "Each edit turns what a function or a definition means, and the prover must refuse it: its name says what it makes wrong.",
        "The gate tries those of `gate-edits/`, and `tools/edits` those of `more-edits/` too.",
        "This page is made by `make docs` from the edit files: their lines `promise:`, `clause:` and `wrong body:`.",
        "",
        *wrong_bodies(all_edits),
    ]
    promises = collections.defaultdict(list)
    for crate, edit, said in all_edits:
        promises[said["promise"][0]].append(row_of(crate, edit, said["clause"]))
    for promise, rows in promises.items():
        lines += ["", f"## {promise}", "", "| Edit | Turns | Clauses | Tried by |", "|---|---|---|---|", *rows]
    return "\n".join(lines) + "\n"


# ---- docs/contracts.md

PROVED = "//! # What is proved"


def proved_of(crate):
    """The sentences of a crate's root file that say what is proved, each as one line; none where it has no such part."""
    lines = head_of(crate).splitlines()
    part = lines[lines.index(PROVED) + 1 :] if PROVED in lines else []
    text = "\n".join(it.removeprefix("//!").removeprefix(" ") for it in part)
    return [" ".join(it.split()) for it in re.split(r"^- ", text, flags=re.MULTILINE)[1:]]


def contracts_page():
    """What is proved of each crate, by its own root file."""
    lines = [
        "# What is proved, crate by crate",
        "",
        "For those who look for the contract of a promise. The main sentences stand in the [README](../README.md), \"What is proved\".",
        "How a contract is read: [reading-contracts.md](reading-contracts.md). The edits of each promise: [edits.md](edits.md).",
        "This page is made by `make docs`, from the part \"What is proved\" of each crate's root file.",
    ]
    for crate in crates.read().values():
        proved = proved_of(crate)
        if proved:
            lines += ["", f"## {crate.name}", "", *(f"- {it}" for it in proved)]
    return "\n".join(lines) + "\n"


# ---- the answers in docs/c.md


def answers_table():
    """The answers of the library for C: their numbers, and what they say, by the header's own words."""
    header = HEADER.read_text(encoding="utf-8")
    listed = header[header.index("enum rcuo_answer {") :].partition("};")[0]
    in_words = dict(IN_WORDS.findall(header))
    lines = ["| Answer | Number | Says |", "|---|---|---|"]
    for name, number, comment in ANSWER.findall(listed):
        said = " ".join(comment.replace("\n *", "\n").split()) or in_words.get(name, "")
        if not said or len(said) > MOST_LETTERS:
            raise Unmade(f"include/rcuo.h says nothing of {name}, or more than {MOST_LETTERS} letters")
        lines.append(f"| `{name}` | {number} | {said} |")
    return "\n".join(lines) + "\n"


# ---- the totals in docs/testing.md

TEST = re.compile(r"^\s*#\[test\]$", re.MULTILINE)
CASE = re.compile(r"^    def test_\w+", re.MULTILINE)


def count(pattern, files):
    """How often a pattern stands in files."""
    return sum(len(pattern.findall(it.read_text(encoding="utf-8"))) for it in files)


def totals_table():
    """What there is to run, by the tree."""
    sources = [it for crate in crates.read().values() for it in (crate.folder / "src").rglob("*.rt")]
    there = lambda pattern: len(list(ROOT.glob(pattern)))
    rows = {
        "crates, each proved from nothing": len(crates.read()),
        "edits that the gate has the prover refuse": there("crates/*/gate-edits/*.edit"),
        "edits that `tools/edits` has beside these": there("crates/*/more-edits/*.edit"),
        "tests in Rattle, each proved and run": count(TEST, sources),
        "replays, each over the parts and over the core": there("tests/replays/*/"),
        "examples of scripts, each with a picture": there("examples/*.toml"),
        "kinds of cases in Python, of the built programs": count(CASE, ROOT.glob("tests/program/test_*.py")),
        "programs in C that test, and examples": there("tests/c/*.c") + there("examples/c/*.c"),
    }
    return "\n".join(["| What | How many |", "|---|---|", *(f"| {name} | {many} |" for name, many in rows.items())]) + "\n"


# ---- the ratios in docs/speed.md

RATIOS = "Cost of a call / callbacks a second / processor time of a callback / most memory"


def ratios_table():
    """The ratios of the C program in the last results that are kept."""
    results = ROOT / "bench/results/last.md"
    text = results.read_text(encoding="utf-8") if results.is_file() else ""
    found = re.search(re.escape(RATIOS) + r".*\n\n((?:\|.*\n)+)", text)
    if not found:
        raise Unmade("bench/results/last.md has no ratios of the C program: tools/bench makes it")
    return found[1]


# ---- the setups, scripts and outputs in docs/specification/rows.md

ROW = re.compile(r"^\*\*(?P<name>[a-z0-9-]+)\.?\*\*.*\n(?P<run>(?:- (?:Setup|Script|No script|Output)\b.*\n)+)", re.MULTILINE)
# So many lines that are the same are said by their number.
MANY = 10


def script_of(lines):
    """A script, whose first lines may be the same many times."""
    same = len(list(itertools.takewhile(lambda it: it == lines[0], lines)))
    rest = " / ".join(lines[same if same >= MANY else 0 :])
    return f"- Script: {same} lines `{lines[0]}`, then `{rest}`." if same >= MANY else f"- Script: `{rest}`."


def run_of(name, said):
    """The setup, the script and the output of a row, by the replay of its name; where there is none, as it is said."""
    folder = ROOT / "tests/replays" / name
    if not (folder / "setup.toml").is_file():
        return said
    setup = tomllib.loads((folder / "setup.toml").read_text(encoding="utf-8"))
    script = setup.pop("script", [])
    keys = [f"`{key} = {json.dumps(value)}`" for key, value in setup.items() if (key, value) != ("processors", 1)]
    output = " / ".join((folder / "stdout").read_text(encoding="utf-8").splitlines())
    lines = [f"- Setup: {', '.join(keys)}."] if keys else []
    if script:
        lines.append(script_of(script))
    elif "calls" not in setup:
        lines.append("- No script.")
    return "\n".join([*lines, f"- Output: `{output}`."]) + "\n"


def rows_page():
    """The rows, with the runs of those that are replays."""
    text = (ROOT / "docs/specification/rows.md").read_text(encoding="utf-8")
    return ROW.sub(lambda it: it[0].removesuffix(it["run"]) + run_of(it["name"], it["run"]), text)


# ---- tables within pages: the line before one, and the line behind it

BEGIN, END = re.compile(r"^<!-- made by `make docs` from .* -->\n", re.MULTILINE), "<!-- to here -->\n"


def page_with(place, table):
    """A page with its table anew."""
    text = (ROOT / place).read_text(encoding="utf-8")
    begin = BEGIN.search(text)
    if not begin or END not in text[begin.end() :]:
        raise Unmade(f"{place} has no place for its table")
    after = text[begin.end() :].partition(END)[2]
    return f"{text[: begin.end()]}\n{table()}\n{END}{after}"


# What is made: each file, and what makes it.
TABLES = {"docs/c.md": answers_table, "docs/testing.md": totals_table, "docs/speed.md": ratios_table}
MADE = {"crates/README.md": crates_page, "docs/contracts.md": contracts_page, "docs/edits.md": edits_page, "docs/specification/rows.md": rows_page}
PAGES = MADE | {
    place: functools.partial(page_with, place, table) for place, table in TABLES.items()
}
# Those of which no word is written by hand.
WHOLE = ("crates/README.md", "docs/contracts.md", "docs/edits.md")
