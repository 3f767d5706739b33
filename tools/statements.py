"""The pages of docs/statements/: a function's whole contract, with each definition that it unfolds to.

What the toolchain's libraries define is named, and not unfolded. tools/documents writes the pages, and sees that those which stand
are the same.
"""
import functools
import re
from collections import namedtuple

import tables
from crates import ROOT
from definitions import Unread, cited_by, cites, imports_of, names_in, operators_in, rust_names, rust_target, text_of, unfolded

FOLDER = "docs/statements"
# Each statement: the page's name, the file that it stands in, the function, and what it says in a few words.
Statement = namedtuple("Statement", "page file function says")
STATEMENTS = [
    Statement("every_schedule", "rcu_world_law/src/lib.rt", "every_schedule", "every history of the core is lawful, and closed at the end"),
    Statement("every_history", "rcu_parts_law/src/lib.rt", "every_history", "each history that agrees with what `close` answers is closed"),
    Statement("agreeing_is_closed", "rcu_agreement/src/lib.rt", "agreeing_is_closed", "the same over plain data: what agreeing is"),
    Statement("close", "rcu_parts/src/closing.rt", "close", "what ran and what is handed back is all that was accepted"),
    Statement("call_rcu", "rcu_part_processor/src/call.rt", "call_rcu", "how a callback is accepted, or why not"),
    Statement("poll", "rcu_part_control/src/barrier.rt", "poll", "when a barrier passes"),
    Statement("rcuo_call", "rcu_c/src/calls.rt", "rcuo_slot_call", "a call of the library for C"),
    Statement("rcuo_close", "rcu_c/src/open.rt", "rcuo_slot_close", "the close of the library for C"),
    Statement("every_history_of_slots", "rcu_c_law/src/lib.rt", "every_history_of_slots", "each history that agrees with what a close of slots has left is closed"),
]


# ---- a function's contract

Contract = namedtuple("Contract", "block signature clauses text")
FUNCTION = r"^( *)(?:pub |extern \"C\" |unsafe |const )*fn {}\b"


def contract_of(source, function):
    """A function's comment, signature and clauses, and the head of the block that it stands in."""
    lines = source.splitlines()
    at = next((k for k, line in enumerate(lines) if re.match(FUNCTION.format(function), line)), None)
    if at is None:
        raise Unread(f"no function {function}")
    indent = re.match(FUNCTION.format(function), lines[at])[1]
    begin, end = at, at
    while begin and re.match(r" *(///|#\[)", lines[begin - 1]):
        begin -= 1
    while lines[end].strip() not in ("{", "{}"):
        end += 1
    block = next((line for line in reversed(lines[:begin]) if line and not line.startswith(" ")), "") if indent else ""
    clauses = next((k for k in range(at, end) if re.match(r" *(requires|ensures|ghost)\b", lines[k])), end)
    text = "\n".join(filter(None, (block, *lines[begin:end])))
    return Contract(block, "\n".join(lines[at:clauses]), "\n".join(lines[clauses:end]), text)


def type_parameters(*heads):
    """The parameters that stand behind `impl` or a function's name."""
    found = [it for head in heads for it in re.findall(r"(?:\bimpl|\bfn \w+)<(.*?)>(?=[ (])", head)]
    return {part.strip().partition(":")[0].removeprefix("const ") for names in found for part in names.split(",")}


def without_labels(clauses):
    """The clauses' texts alone: without `requires`, `ensures` and their names."""
    return re.sub(r"^\s*(?:requires|ensures)\b\s*\w*\s*\{", "{", clauses, flags=re.M)


def cited_by_contract(statement):
    source = (ROOT / "crates" / statement.file).read_text(encoding="utf-8")
    crate = statement.file.partition("/")[0]
    contract, imports = contract_of(source, statement.function), imports_of(source)
    yield from rust_names(contract.block + contract.signature, crate, source)
    bound = {"self", "result", *re.findall(r"(\w+): ", contract.signature), *type_parameters(contract.block, contract.signature)}
    clauses = without_labels(contract.clauses)
    yield from cited_by(names_in(clauses, bound), imports, lambda name: None, lambda name: rust_target(name, crate, source))
    yield from operators_in(clauses, imports)


# ---- pages


def short(place):
    return place.removeprefix("crates/")


def names_told(cited, twice, here):
    """What the reader of a file is told of words: those that are defined under another name, or more than once on the page."""
    for word, there, target in cited:
        place = "this file" if target.place == here else f"`{short(target.place)}`"
        of = f" of {place}" if there in twice or target.kind == "given" else ""
        if not there:
            yield f"`{word}` has the variants of `{target.name}`"
        elif word != there:
            yield f"`{word}` is `{there}`{of}"
        elif word in twice:
            yield f"`{word}` is that{of}"


def shown(title, place, language, text, cited, twice):
    """A text under a title, with what is told of its words."""
    told = "; ".join(dict.fromkeys(names_told(cited, twice, place)))
    lines = ["", title, f"[{short(place)}](../../{place})" + (f". Here {told}." if told else "")]
    return [*lines, f"```{language}", text, "```"]


def shown_target(target, twice):
    language = "rust" if target.kind == "declared" else "antt"
    return shown(f"### `{target.name}`", target.place, language, text_of(target), cites(target), twice)


def listed(words):
    """Words by the places that they stand in, as (place, word) pairs give them: some in a line."""
    places = {}
    for place, word in words:
        places.setdefault(short(place), []).append(word)
    for place in sorted(places):
        yield f"- `{place}`:"
        words = sorted(places[place])
        yield from (f"  {', '.join(words[at : at + 6])}{',' if at + 6 < len(words) else ''}" for at in range(0, len(words), 6))


def links(targets):
    """A link to each definition of the page, with its place."""
    names = tables.anchors(it.name for it in targets)
    return [(it.place, f"[`{it.name}`](#{name})") for it, name in zip(targets, names)]


def page_of(statement):
    """A statement and all that it unfolds to."""
    place = f"crates/{statement.file}"
    cited = list(cited_by_contract(statement))
    targets = unfolded(cited)
    ours, given = [it for it in targets if it.kind != "given"], [it for it in targets if it.kind == "given"]
    names = [it.name for it in targets]
    twice = {it.name for it in ours if names.count(it.name) > 1}
    text = contract_of((ROOT / place).read_text(encoding="utf-8"), statement.function).text
    lines = [
        f"# `{statement.function}`, with all that it unfolds to: made by `make docs` from its contract and the definitions",
        "",
        f"- In short: {statement.says}. How to read it: [reading-contracts.md](../reading-contracts.md).",
        "- Each definition is followed by those that it cites and that didn't stand before.",
        "- A type stands as it is declared; what its fields and invariants name is not unfolded.",
        "- The toolchain's words are named last, and not unfolded.",
        *shown("## The statement", place, "rust", text, cited, twice),
        "",
        "## Its definitions, by file",
        "",
        *listed(links(ours)),
        "",
        "## What it cites",
        *(line for it in ours for line in shown_target(it, twice)),
        "",
        "## Words of the toolchain",
        "",
        *listed((it.place, f"`{it.name}`") for it in given),
    ]
    return "\n".join(lines) + "\n"


def index():
    """What there is."""
    lines = ["# Statements: each with all that it unfolds to, made by `make docs`", ""]
    lines += ["For a reader who judges a theorem by its words. How to read them: [reading-contracts.md](../reading-contracts.md).", ""]
    lines += [f"- [`{it.function}`]({it.page}.md): {it.says}." for it in STATEMENTS]
    return "\n".join(lines) + "\n"


PAGES = {f"{FOLDER}/{it.page}.md": functools.partial(page_of, it) for it in STATEMENTS} | {f"{FOLDER}/README.md": index}
