"""The crates of this repository, as crates.txt lists them: what they stand on, how long they are, what stands above them."""
import functools
import hashlib
import os
import pathlib
import shutil
import subprocess

import toolchain

ROOT = pathlib.Path(__file__).resolve().parent.parent
# The sum of what a crate was proved with, beside what that made.
STAMP = "out/proved"
# What a proof reads of a crate.
PARTS = ("src", "specs", "proofs")
MEGABYTE = 10**6


class Crate:
    """One line of crates.txt: the crate's name, and the names of those that it stands on."""

    def __init__(self, line, named):
        head, _, names = line.partition(":")
        self.line, self.name, self.named = line, head.split()[0], named
        self.names = names.split()
        self.folder = ROOT / "crates" / self.name

    @property
    def deps(self):
        """The crates of this repository that it names."""
        return [self.named[it] for it in self.names if it in self.named]

    @functools.cached_property
    def below(self):
        """All crates that it stands on, lowest first."""
        found = {}
        for dep in self.deps:
            found.update({it.name: it for it in [*dep.below, dep]})
        return list(found.values())

    @property
    def above(self):
        return [it for it in self.named.values() if self in it.below]

    @property
    def is_program(self):
        return (self.folder / "src/main.rt").is_file()

    @property
    def is_static(self):
        """Whether it is a static library."""
        return "staticlib" in self.line.partition(":")[0].split()

    @functools.cached_property
    def files(self):
        return sorted(it for part in PARTS for it in (self.folder / part).rglob("*") if it.is_file())

    @functools.cached_property
    def lines(self):
        return self.count(".rt")

    @functools.cached_property
    def tests(self):
        """How many #[test] functions it has."""
        return sum(it.read_bytes().count(b"#[test]") for it in self.files if it.suffix == ".rt")

    @functools.cached_property
    def proof_lines(self):
        return self.count(".antt")

    def count(self, suffix):
        return sum(it.read_bytes().count(b"\n") for it in self.files if it.suffix == suffix)

    @property
    def weight(self):
        """Roughly what a check of it takes, in lines of its code: a twentieth of those below, which it reads, count too, and so many
        more where a program is linked."""
        return self.lines + sum(it.lines for it in self.below) // 20 + (200 if self.is_program else 0)

    def needs(self, jobs):
        """The memory that a check is likely to take, in bytes: what `rt ci` counts with."""
        one = 1000 + self.lines + 0.2 * self.proof_lines + 0.08 * sum(it.lines for it in self.below)
        return one * MEGABYTE * (1 + 0.6 * (jobs - 1))

    @functools.cached_property
    def stamp(self):
        """A sum of all that its proof rests on: the toolchain, its line, its files, and those of the crates below."""
        sum = hashlib.sha256(repr((version(), self.line, [it.stamp for it in self.deps])).encode())
        for file in self.files:
            sum.update(repr((str(file.relative_to(self.folder)), file.read_bytes())).encode())
        return sum.hexdigest()

    @property
    def made(self):
        """What its proof leaves for a run, for the crates above or for C: the program, or the library."""
        if self.is_static:
            return self.folder / "out" / f"lib{self.name}.a"
        # (the folder rlib alone is there of a build that was killed too)
        return self.folder / "out" / (self.name if self.is_program else f"rlib/{self.name}.rlib/format")

    def is_built(self):
        """Whether what was made is there, and no source that it was made from is newer."""
        if not self.made.exists():
            return False
        made = self.made.stat().st_mtime
        return not any(file.stat().st_mtime > made for it in [*self.below, self] for file in it.files)

    def is_proved(self):
        """Whether what was made is there, and was proved with just these files."""
        stamp = self.folder / STAMP
        return stamp.is_file() and self.made.exists() and stamp.read_text(encoding="ascii") == self.stamp

    def note_proved(self):
        """Notes with which files it was proved."""
        (self.folder / STAMP).write_text(self.stamp, encoding="ascii")


def processors():
    return len(os.sched_getaffinity(0))


def free_memory():
    with open("/proc/meminfo", encoding="ascii") as lines:
        found = next(line for line in lines if line.startswith("MemAvailable"))
    return int(found.split()[1]) * 1024


def copy_tree(source, to):
    """A second tree of a built library, whose files are links where the disk has them: a check replaces such a file, and changes none."""

    def link(one, other):
        try:
            os.link(one, other)
        except OSError:
            shutil.copy2(one, other)

    shutil.copytree(source, to, copy_function=link)


def fill_lane(crate, at):
    """Fills a folder with a crate and those below it, and what was built of these: a check locks all that it reads, so those that
    run side by side have a folder each. What `rt ci` built has no sum by which the toolchain knows it again, and gets one."""
    os.makedirs(at, exist_ok=True)
    shutil.copy2(ROOT / "HANDLES", at / "HANDLES")
    (at / "crates.txt").write_text("".join(f"{it.line}\n" for it in [*crate.below, crate]), encoding="utf-8")
    for it in [*crate.below, crate]:
        to = at / "crates" / it.name
        for part in PARTS:
            if (it.folder / part).is_dir():
                shutil.copytree(it.folder / part, to / part)
        if it is not crate:
            copy_tree(it.folder / "out/rlib", to / "out/rlib")
    unknown = {it.name for it in crate.below if not (at / "crates" / it.name / "out/rlib/stamp").exists()}
    for name, stamp in (toolchain.stamps(at, unknown) if unknown else {}).items():
        (at / "crates" / name / "out/rlib/stamp").write_text(stamp, encoding="utf-8")


@functools.cache
def version():
    """The line by which the toolchain names itself."""
    return subprocess.run(["rt", "version"], capture_output=True, text=True).stdout


def read():
    """All crates of crates.txt, by name, in its order, which has the lowest first."""
    named = {}
    for line in (ROOT / "crates.txt").read_text(encoding="utf-8").splitlines():
        if line.strip() and not line.startswith("#"):
            crate = Crate(line, named)
            named[crate.name] = crate
    return named
