"""Compares the picture beside each example with what rcuo_picture draws, and sees what else it writes: a page, a script that is too
long, words and a setup that are refused. tools/pictures draws the pictures anew.
"""
import re
import unittest

from programs import EXAMPLES, ProgramTest, Run, built, one_each, run

# Of a longer script so many commands are drawn.
MOST_COMMANDS = 500
PAGE = """<!DOCTYPE html>
<html lang="en">
<head><meta charset="utf-8"><title>A run of rcuo</title></head>
<body>
{picture}<ol>
{answers}</ol>
</body>
</html>
"""


def drawn():
    """The examples that have a script; one without is run in threads, and has no picture."""
    return [it for it in sorted(EXAMPLES.glob("*.toml")) if re.search(r"^script", it.read_text("utf-8"), re.M)]


@one_each((it.stem, it) for it in drawn())
class Pictures(ProgramTest):
    """Each example's picture."""

    def check(self, setup):
        picture = setup.with_suffix(".svg").read_bytes()
        self.assertEqual(run([built("rcuo_picture")], setup.read_bytes()), Run(0, picture, b""))


class OtherOutput(ProgramTest):
    def test_page(self):
        """A page has the picture, and the answers of all commands, which the output has before the totals."""
        first = EXAMPLES / "first-run.toml"
        lines = first.with_suffix(".out").read_text("utf-8").splitlines()[:-2]
        answers = "".join(f"<li><code>{it}</code></li>\n" for it in lines)
        page = PAGE.format(picture=first.with_suffix(".svg").read_text("utf-8"), answers=answers)
        self.assertEqual(run([built("rcuo_picture"), "--html"], first.read_bytes()), Run(0, page.encode(), b""))

    def test_script_that_is_too_long(self):
        """Its first commands are drawn, and the title says so."""
        script = '  "driver",\n' * (MOST_COMMANDS + 1)
        ended = run([built("rcuo_picture")], f'processors = 1\nroutes = ["a=1"]\nscript = [\n{script}]\n'.encode())
        self.assertEqual((ended.status, ended.stderr), (0, b""))
        lines = ended.stdout.decode().splitlines()
        title = f">The first {MOST_COMMANDS} of {MOST_COMMANDS + 1} commands on 1 processor<"
        self.assertTrue(any(title in it for it in lines), lines[:20])
        self.assertEqual(sum('class="step"' in it for it in lines), MOST_COMMANDS)

    def test_words_that_are_refused(self):
        ended = run([built("rcuo_picture"), "--wrong"])
        self.assertEqual((ended.status, ended.stdout), (2, b""))

    def test_setup_that_is_refused(self):
        ended = run([built("rcuo_picture")])
        self.assertEqual((ended.status, ended.stdout), (1, b""))


if __name__ == "__main__":
    unittest.main()
