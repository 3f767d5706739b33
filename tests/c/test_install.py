"""Installs librcuo into a folder, builds the first example with what is there, and removes it: python3 tests/c/test_install.py

It wants the libraries built (tools/build librcuo), a C compiler and pkg-config, and no `rt`.
"""
import os
import pathlib
import re
import shutil
import subprocess
import sys
import tempfile
import unittest

ROOT = pathlib.Path(__file__).resolve().parent.parent.parent
EXAMPLE = ROOT / "examples/c/first.c"
SAYS = "freed the old version\nclosed: done\n"
RUNTIME_EXAMPLE = ROOT / "examples/c/runtime.c"
RUNTIME_SAYS = "published 1000, freed 999, faults 0\n"
VERSION = re.search(r'^#define RCUO_VERSION "(.*)"$', (ROOT / "include/rcuo.h").read_text(encoding="utf-8"), re.MULTILINE).group(1)
MAJOR = VERSION.partition(".")[0]
# Whether liburcu's headers are here, without which its names can't be built.
URCU = not subprocess.run(["cc", "-E", "-xc", "-"], input=b"#include <urcu/urcu-qsbr.h>", capture_output=True).returncode
NAMES = ("rcuo", "rcuo-runtime", "rcuo-urcu-qsbr") if URCU else ("rcuo", "rcuo-runtime")
LIBRARIES = {f"lib{name}.{it}" for name in NAMES for it in ("a", "so", f"so.{MAJOR}", f"so.{VERSION}")}
LIBRARIES |= {f"pkgconfig/{name}.pc" for name in NAMES}
HEADERS = {"rcuo.h", "rcuo/runtime.h", "rcuo/runtime.hpp"} | ({"rcuo/urcu-qsbr.h", "rcuo/liburcu/urcu/urcu-qsbr.h"} if URCU else set())
URCU_EXAMPLE = ROOT / "tests/c/liburcu.c"
# (the words of liburcu that inlined readers report to, and what its library has for systems without futex)
NOT_OFFERED = {"urcu_qsbr_gp", "urcu_qsbr_reader"}
COMPATIBLE = re.compile(r"_*(urcu_)?compat_futex_\w+")
MANUALS = {f"man{it.suffix[1:]}/{it.name}" for it in (ROOT / "docs/man").glob("*.[37]")}


def run(*words, **variables):
    """Runs a command that is to end well. Returns what it printed."""
    ended = subprocess.run(words, env={**os.environ, **variables}, capture_output=True, text=True)
    if ended.returncode:
        raise AssertionError(f"{words} ended with {ended.returncode}:\n{ended.stdout}{ended.stderr}")
    return ended.stdout


def path_without_rt(folder):
    """A PATH with links to the commands that an install uses, and no rt."""
    for name in ("bash", "sed", "realpath", "readlink", "dirname", "install", "ln", "cat", "rm"):
        os.symlink(shutil.which(name), folder / name)
    os.symlink(sys.executable, folder / "python3")
    return str(folder)


class Install(unittest.TestCase):
    @classmethod
    def setUpClass(cls):
        run("make", "-s", "-C", ROOT / "lib", "all" if URCU else "runtime")

    def setUp(self):
        folder = tempfile.TemporaryDirectory()
        self.addCleanup(folder.cleanup)
        self.work = pathlib.Path(folder.name)
        self.stage = self.work / "stage"

    def tool(self, *words, root=ROOT, **variables):
        command = [root / "tools/install-librcuo", *words]
        clean = {name: it for name, it in os.environ.items() if name not in ("PREFIX", "LIBDIR", "DESTDIR")}
        return subprocess.run(command, env={**clean, **variables}, cwd=self.work, capture_output=True, text=True)

    def installs(self, *words, **variables):
        ended = self.tool(*words, **variables)
        self.assertEqual(ended.returncode, 0, ended.stderr)
        return ended

    def refuses(self, status, text, *words, **variables):
        ended = self.tool(*words, **variables)
        self.assertEqual(ended.returncode, status, ended.stderr)
        self.assertIn(text, ended.stderr)
        self.assertEqual(len(ended.stderr.splitlines()), 1)

    def files(self, folder):
        return {str(it.relative_to(folder)) for it in folder.rglob("*") if it.is_symlink() or it.is_file()}

    def built(self, name, how, package="rcuo", example=EXAMPLE, flags=("-Wall", "-Wextra", "-Werror")):
        """An example, linked in this way with what pkg-config says of a staged library."""
        variables = {"PKG_CONFIG_LIBDIR": str(self.stage / "usr/lib/pkgconfig"), "PKG_CONFIG_SYSROOT_DIR": str(self.stage)}
        said = run("pkg-config", "--cflags", "--libs", package, **variables).split()
        run("cc", "-std=gnu11", *flags, "-o", self.work / name, example, how, *said, "-Wl,-Bdynamic")
        return self.work / name

    def needed(self, program):
        """The names of the shared libraries that a file asks for."""
        return set(re.findall(r"\(NEEDED\).*\[(.*)\]", run("readelf", "-d", program)))

    def offered(self, library):
        return {line.split()[-1] for line in run("nm", "-D", "--defined-only", library).splitlines()}

    def test_staged_used_and_removed(self):
        self.installs("PREFIX=/usr", f"DESTDIR={self.stage}")
        libraries = {f"usr/lib/{it}" for it in LIBRARIES}
        manuals = {f"usr/share/man/{it}" for it in MANUALS}
        self.assertEqual(self.files(self.stage), {*(f"usr/include/{it}" for it in HEADERS), *libraries, *manuals})
        with self.subTest("the archive"):
            archived = self.built("archived", "-Wl,-Bstatic")
            self.assertEqual(run(archived), SAYS)
            self.assertNotIn("librcuo", run("readelf", "-d", archived))
        with self.subTest("the shared library"):
            shared = self.built("shared", "-Wl,-Bdynamic")
            self.assertIn(f"librcuo.so.{MAJOR}", self.needed(shared))
            self.assertEqual(run(shared, LD_LIBRARY_PATH=str(self.stage / "usr/lib")), SAYS)
        for how in ("-Wl,-Bstatic", "-Wl,-Bdynamic"):
            with self.subTest("the managed runtime", how=how):
                program = self.built("runtime", how, "rcuo-runtime", RUNTIME_EXAMPLE)
                self.assertEqual(f"librcuo-runtime.so.{MAJOR}" in self.needed(program), how == "-Wl,-Bdynamic")
                self.assertEqual(run(program, "1000", LD_LIBRARY_PATH=str(self.stage / "usr/lib")), RUNTIME_SAYS)
            with self.subTest("a program of liburcu, as it is", how=how):
                if not URCU:
                    self.skipTest("liburcu-dev isn't here")
                program = self.built("liburcu", how, "rcuo-urcu-qsbr", URCU_EXAMPLE, ("-w", "-Wl,--no-as-needed", "-lurcu-cds"))
                self.assertEqual(f"librcuo-urcu-qsbr.so.{MAJOR}" in self.needed(program), how == "-Wl,-Bdynamic")
                said = run(program, "8", "100", LD_LIBRARY_PATH=str(self.stage / "usr/lib"))
                self.assertIn("threads 8, deferred 8, called again 20, lost 0, dead 0", said)
        self.installs("--uninstall", "PREFIX=/usr", f"DESTDIR={self.stage}")
        self.assertEqual(self.files(self.stage), set())

    def test_the_manuals_name_what_the_headers_declare(self):
        headers = "".join((ROOT / f"include/{it}").read_text(encoding="utf-8") for it in ("rcuo.h", "rcuo/runtime.h"))
        for page in (ROOT / "docs/man").glob("*.3"):
            for name in re.findall(r"^\.Fn (\w+)", page.read_text(encoding="utf-8").partition("\n.Sh DESCRIPTION")[0], re.MULTILINE):
                with self.subTest(page.name, name=name):
                    self.assertRegex(headers, rf"\b{name}\(")

    @unittest.skipUnless(shutil.which("mandoc"), "mandoc reads the manuals")
    def test_the_manuals_are_in_order(self):
        run("mandoc", "-T", "lint", "-W", "warning", *(ROOT / "docs/man").iterdir())

    def test_the_managed_runtime_offers_what_its_header_declares(self):
        self.installs("PREFIX=/usr", f"DESTDIR={self.stage}")
        said = run("nm", "-g", "--defined-only", self.stage / "usr/lib/librcuo-runtime.a").splitlines()
        archived = {line.split()[-1] for line in said if len(line.split()) == 3}
        header = (ROOT / "include/rcuo/runtime.h").read_text(encoding="utf-8")
        declared = re.findall(r"^(?:enum rcuo_answer|void|bool|pthread_t) (rcuo_\w+)\(|^extern __thread .* (rcuo_\w+);", header, re.MULTILINE)
        self.assertEqual(archived, {one or other for one, other in declared})
        self.assertEqual(self.offered(self.stage / "usr/lib/librcuo-runtime.so"), archived)

    def test_the_shared_libraries_name_each_other(self):
        self.installs("PREFIX=/usr", f"DESTDIR={self.stage}")
        for name, below in zip(NAMES, (None, *NAMES)):
            library = self.stage / f"usr/lib/lib{name}.so"
            self.assertIn(f"Library soname: [lib{name}.so.{MAJOR}]", run("readelf", "-d", library))
            # (a thread's end calls into the managed runtime)
            self.assertEqual("NODELETE" in run("readelf", "-d", library), name != "rcuo")
            self.assertEqual({it for it in self.needed(library) if "rcuo" in it}, {f"lib{below}.so.{MAJOR}"} if below else set())

    def test_what_loads_it_at_run_time_finds_room_for_its_threads_words(self):
        self.installs("PREFIX=/usr", f"DESTDIR={self.stage}")
        load = "import ctypes, sys; print(ctypes.CDLL(sys.argv[1]).rcuo_register())"
        library = str(self.stage / f"usr/lib/librcuo-runtime.so.{MAJOR}")
        self.assertEqual(run(sys.executable, "-c", load, library, LD_LIBRARY_PATH=str(self.stage / "usr/lib")), "6\n")

    @unittest.skipUnless(URCU, "liburcu-dev isn't here")
    def test_liburcus_names_are_all_there_but_the_words_of_inlined_readers(self):
        self.installs("PREFIX=/usr", f"DESTDIR={self.stage}")
        theirs = run("cc", "-print-file-name=liburcu-qsbr.so").strip()
        wanted = {name for name in self.offered(theirs) - NOT_OFFERED if not COMPATIBLE.fullmatch(name)}
        self.assertIn("urcu_qsbr_call_rcu", wanted)
        self.assertEqual(self.offered(self.stage / "usr/lib/librcuo-urcu-qsbr.so"), wanted)

    def test_the_shared_library_offers_what_the_header_declares(self):
        self.installs("PREFIX=/usr", f"DESTDIR={self.stage}")
        library = self.stage / "usr/lib/librcuo.so"
        header = (ROOT / "include/rcuo.h").read_text(encoding="utf-8")
        self.assertEqual(self.offered(library), set(re.findall(r"^uint32_t (rcuo_\w+)\(", header, re.MULTILINE)))
        wanted = {line.split()[-1].partition("@")[0] for line in run("nm", "-D", "--undefined-only", library).splitlines()}
        wanted -= {"__cxa_finalize", "__gmon_start__", "_ITM_deregisterTMCloneTable", "_ITM_registerTMCloneTable"}
        self.assertEqual(wanted, {"malloc", "realloc", "free", "memcpy", "memmove", "memset"})

    def test_the_environment_and_a_folder_for_libraries(self):
        self.installs(PREFIX="/opt/rcuo/", LIBDIR="/usr/lib/some-system", DESTDIR="stage")
        headers, libraries = (f"opt/rcuo/include/{it}" for it in HEADERS), (f"usr/lib/some-system/{it}" for it in LIBRARIES)
        self.assertEqual(self.files(self.stage), {*headers, *libraries, *(f"opt/rcuo/share/man/{it}" for it in MANUALS)})
        described = (self.stage / "usr/lib/some-system/pkgconfig/rcuo.pc").read_text(encoding="utf-8")
        self.assertIn("prefix=/opt/rcuo\n", described)
        self.assertIn("libdir=/usr/lib/some-system\n", described)
        self.assertIn(f"Version: {VERSION}\n", described)
        self.assertNotIn(str(self.stage), described)
        self.installs("--uninstall", PREFIX="/opt/rcuo", LIBDIR="/usr/lib/some-system/", DESTDIR="stage")
        self.assertEqual(self.files(self.stage), set())

    def test_uninstall_leaves_what_others_put_there(self):
        prefix = self.work / "with a space"
        self.installs(f"PREFIX={prefix}")
        other = prefix / "lib/libother.so"
        other.write_text("", encoding="utf-8")
        said = run("pkg-config", "--variable=libdir", "rcuo", PKG_CONFIG_LIBDIR=str(prefix / "lib/pkgconfig"))
        self.assertEqual(said.replace("\\", "").strip(), str(prefix / "lib"))
        self.installs("--uninstall", f"PREFIX={prefix}")
        self.assertEqual(self.files(prefix), {"lib/libother.so"})
        self.assertIn("nothing to remove", self.installs("--uninstall", f"PREFIX={prefix}").stdout)

    def test_uninstall_of_an_earlier_version(self):
        self.installs("PREFIX=/usr", f"DESTDIR={self.stage}")
        libraries = self.stage / "usr/lib"
        for name in NAMES:
            os.rename(libraries / f"lib{name}.so.{VERSION}", libraries / f"lib{name}.so.0.0.9")
        described = libraries / "pkgconfig/rcuo.pc"
        described.write_text(described.read_text(encoding="utf-8").replace(VERSION, "0.0.9"), encoding="utf-8")
        self.installs("--uninstall", "PREFIX=/usr", f"DESTDIR={self.stage}")
        self.assertEqual(self.files(self.stage), set())

    def test_no_rt_is_needed_where_the_library_is_built(self):
        path = self.work / "path"
        path.mkdir()
        ended = self.installs("PREFIX=/usr", f"DESTDIR={self.stage}", PATH=path_without_rt(path))
        self.assertIn("nothing is proved or built", ended.stdout)

    def test_without_rt_and_not_built(self):
        path, root = self.work / "path", self.work / "copy"
        path.mkdir()
        shutil.copytree(ROOT / "tools", root / "tools")
        shutil.copytree(ROOT / "include", root / "include")
        shutil.copy(ROOT / "crates.txt", root / "crates.txt")
        self.refuses(1, "the command rt", "PREFIX=/usr", f"DESTDIR={self.stage}", root=root, PATH=path_without_rt(path))
        self.assertFalse(self.stage.exists())

    def test_bad_folders(self):
        self.refuses(2, "PREFIX is usr, and has to be an absolute path", "PREFIX=usr")
        self.refuses(2, "LIBDIR is lib", "PREFIX=/usr", "LIBDIR=lib", f"DESTDIR={self.stage}")
        self.refuses(2, "unknown word /usr", "/usr")
        blocked = self.work / "file"
        blocked.write_text("", encoding="utf-8")
        self.refuses(1, f"{blocked}/include can't be written to", f"PREFIX={blocked}")
        self.assertEqual(self.files(self.work), {"file"})

    @unittest.skipIf(os.geteuid() == 0 and not shutil.which("setpriv"), "a folder that root can't write to isn't had")
    def test_a_folder_of_another_user(self):
        os.chmod(self.work, 0o755)
        owned = self.work / "owned"
        owned.mkdir(mode=0o555)
        nobody = ["setpriv", "--reuid=65534", "--regid=65534", "--clear-groups"] if os.geteuid() == 0 else []
        command = [*nobody, ROOT / "tools/install-librcuo", f"PREFIX={owned}"]
        ended = subprocess.run(command, capture_output=True, text=True)
        self.assertEqual(ended.returncode, 1, ended.stderr)
        self.assertIn(f"{owned}/include can't be written to", ended.stderr)


if __name__ == "__main__":
    unittest.main()
