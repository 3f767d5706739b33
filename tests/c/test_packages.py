"""Makes the Debian packages, the packages of the crates, and the archive of `make dist`, unpacks them, and builds programs with what
is there alone:
python3 tests/c/test_packages.py

It wants what is built (tools/build librcuo), debhelper, lintian, compilers for C and C++, pkg-config and cargo.
"""
import os
import pathlib
import shutil
import subprocess
import sys
import tempfile
import unittest

ROOT = pathlib.Path(__file__).resolve().parent.parent.parent
DEBS = ROOT / "out/deb"
SYSTEM = subprocess.run(["gcc", "-print-multiarch"], capture_output=True, text=True, check=True).stdout.strip()


def run(*words, **options):
    """Runs a command that is to end well. Returns what it printed."""
    variables = options.pop("variables", {})
    ended = subprocess.run([str(it) for it in words], env={**os.environ, **variables}, capture_output=True, text=True, **options)
    if ended.returncode:
        raise AssertionError(f"{words} ended with {ended.returncode}:\n{ended.stdout}{ended.stderr}")
    return ended.stdout


class Packages(unittest.TestCase):
    @classmethod
    def setUpClass(cls):
        folder = tempfile.TemporaryDirectory()
        cls.addClassCleanup(folder.cleanup)
        cls.work = pathlib.Path(folder.name)
        cls.there = cls.work / "there"
        run(ROOT / "tools/deb")
        for package in DEBS.glob("*.deb"):
            run("dpkg", "-x", package, cls.there)
        cls.libraries = cls.there / "usr/lib" / SYSTEM
        cls.variables = {
            "PKG_CONFIG_LIBDIR": str(cls.libraries / "pkgconfig"),
            "PKG_CONFIG_SYSROOT_DIR": str(cls.there),
            "LD_LIBRARY_PATH": str(cls.libraries),
        }
        # (what names the libraries of this repository isn't heeded)
        os.environ.pop("RCUO_LIB", None)

    def said(self, package):
        return run("pkg-config", "--cflags", "--libs", package, variables=self.variables).split()

    def ran(self, *words, **options):
        return run(*words, variables=self.variables, **options)

    def test_there_is_no_error_in_them(self):
        run("lintian", "--fail-on", "error", "--allow-root", *DEBS.glob("*.deb"))

    def test_each_package_has_its_files(self):
        names = {it.name.partition("_")[0] for it in DEBS.glob("*.deb")}
        self.assertLessEqual({"librcuo0", "librcuo-dev"}, names)
        for file in ("include/rcuo.h", "include/rcuo/runtime.h", "include/rcuo/runtime.hpp", "share/man/man3/rcuo.3.gz",
                     "share/man/man7/rcuo-urcu.7.gz",
                     "share/doc/librcuo-dev/examples/c/first.c"):
            self.assertTrue((self.there / "usr" / file).exists(), file)
        for file in ("librcuo.a", "librcuo.so", "librcuo.so.0", "librcuo-runtime.a"):
            self.assertTrue((self.libraries / file).exists(), file)

    def test_a_program_in_c(self):
        example = self.there / "usr/share/doc/librcuo-dev/examples/c/runtime.c"
        for name, how in (("shared", "-Wl,-Bdynamic"), ("archived", "-Wl,-Bstatic")):
            with self.subTest(name):
                program = self.work / name
                run("cc", "-std=gnu11", "-o", program, example, how, *self.said("rcuo-runtime"), "-Wl,-Bdynamic")
                self.assertEqual(self.ran(program, "1000"), "published 1000, freed 999, faults 0\n")

    def test_a_program_in_cpp(self):
        example, program = self.there / "usr/share/doc/librcuo-dev/examples/cpp/readers.cpp", self.work / "readers"
        run("c++", "-std=c++11", "-o", program, example, *self.said("rcuo-runtime"))
        self.assertEqual(self.ran(program, "1000"), "published 1000, faults 0\n")

    @unittest.skipUnless(shutil.which("cargo"), "cargo builds the crates")
    def test_a_program_in_rust(self):
        """The crates from their own packages, by the library that pkg-config finds."""
        run("cargo", "package", "--workspace", "--offline", "--no-verify", "--allow-dirty", "--target-dir", self.work / "target", cwd=ROOT / "bindings")
        for package in (self.work / "target/package").glob("*.crate"):
            run("tar", "-xf", package, "-C", self.work)
        crate = self.work / "program"
        (crate / "src").mkdir(parents=True)
        shutil.copy(ROOT / "bindings/rust/examples/first.rs", crate / "src/main.rs")
        version = (ROOT / "bindings/Cargo.toml").read_text(encoding="utf-8").partition('version = "')[2].partition('"')[0]
        (crate / "Cargo.toml").write_text(
            '[package]\nname = "program"\nversion = "0.1.0"\nedition = "2021"\n'
            f'[dependencies]\nrcuo = {{ path = "../rcuo-{version}" }}\n'
            f'[patch.crates-io]\nrcuo-sys = {{ path = "../rcuo-sys-{version}" }}\n', encoding="utf-8")
        printed = self.ran("cargo", "run", "--offline", "--quiet", "--target-dir", self.work / "built", cwd=crate)
        self.assertEqual(printed, "read the old version\nthe old version is gone\nleft the new version\n")
        with self.subTest("a library that isn't there is named"):
            for variables, text in (({"RCUO_LIB": str(crate)}, f"librcuo-runtime.a isn't in {crate}, which RCUO_LIB names"),
                                    ({"PKG_CONFIG_LIBDIR": str(crate)}, "install librcuo, or name the folder of its archives by RCUO_LIB")):
                with self.assertRaisesRegex(AssertionError, text):
                    run("cargo", "build", "--offline", "--target-dir", self.work / "built", cwd=crate, variables=variables)

    def test_an_archive_without_the_prover(self):
        """What `make dist` makes, unpacked: programs in C, C++ and Rust by the commands of its README, and its sums."""
        (archive,) = run(ROOT / "tools/dist").split()[-1:]
        run("tar", "-xf", ROOT / archive, "-C", self.work)
        folder = self.work / pathlib.Path(archive).name.removesuffix(".tar.gz")
        readme = (folder / "README.md").read_text(encoding="utf-8")
        path = os.pathsep.join(it for it in os.environ["PATH"].split(os.pathsep) if not os.access(pathlib.Path(it) / "rt", os.X_OK))
        script = [line.removeprefix("$ ") for line in readme.splitlines() if line.startswith("$ ")]
        self.assertEqual(len(script), 5)
        if not (folder / "bin/rcuo").exists() or not shutil.which("cargo"):
            script = [line for line in script if not line.startswith("bin/") and (shutil.which("cargo") or not line.startswith("cargo"))]
        printed = run("bash", "-e", "-c", "\n".join(script), cwd=folder, variables={"PATH": path, "CARGO_TARGET_DIR": str(self.work / "dist")})
        self.assertIn("published 100000, freed 99999, faults 0\npublished 100000, faults 0\n", printed)
        if shutil.which("cargo"):
            self.assertIn("left the new version\n", printed)
        os.unlink(folder / "a.out")
        run("sha256sum", "--check", "--quiet", "FILES", cwd=folder)
        run("sha256sum", "--check", "--quiet", folder / "SOURCES", cwd=ROOT)

    def test_the_program(self):
        program = self.there / "usr/bin/rcuo"
        if not program.exists():
            self.skipTest("the program isn't built")
        with open(ROOT / "examples/first-run.toml", encoding="utf-8") as script:
            printed = run(program, "replay", stdin=script)
        self.assertIn("cpu 0 ran 1 back 0", printed)


if __name__ == "__main__":
    if missing := [it for it in ("dh", "lintian", "dpkg-deb", "pkg-config", "cc", "c++") if not shutil.which(it)]:
        sys.exit(f"{', '.join(missing)} is wanted")
    unittest.main()
