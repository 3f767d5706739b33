"""The setups with their outputs beside them: the folders of tests/replays/, and the examples.

A folder has setup.toml (standard input), args (the words, one a line), stdout, and where they aren't empty or 0
stderr and status. An example is examples/NAME.toml, and examples/NAME.out, what it writes: `threads` is run on those whose
name begins so, and `replay` on all others.
"""
import collections

from programs import EXAMPLES, REPLAYS, Run

# a run of rcuo: its name, the words, the bytes of its setup, and how it must end
Replay = collections.namedtuple("Replay", "name words setup wanted")


def text(path, otherwise=b""):
    return path.read_bytes() if path.exists() else otherwise


def of_folder(folder):
    words = text(folder / "args").decode().split("\n")[:-1]
    wanted = Run(int(text(folder / "status", b"0")), text(folder / "stdout"), text(folder / "stderr"))
    return Replay(folder.name, words, text(folder / "setup.toml"), wanted)


def of_example(setup):
    word = "threads" if setup.name.startswith("threads") else "replay"
    return Replay(f"example_{setup.stem}", [word], text(setup), Run(0, text(setup.with_suffix(".out")), b""))


def replays():
    """All of them, the folders first."""
    folders = sorted(it for it in REPLAYS.iterdir() if it.is_dir())
    return [of_folder(it) for it in folders] + [of_example(it) for it in sorted(EXAMPLES.glob("*.toml"))]


def is_plain(replay):
    """Whether it is a plain `replay`, which rcu_world_program runs too."""
    return replay.words == ["replay"]
