"""The Python of docs/PYTHON.md and the example that draws run as they are."""

import importlib.util
import os
import re
import subprocess
import sys
import tempfile
import unittest

from cases import TOP

FENCE = re.compile(r"^```python([^\n]*)\n(.*?)^```$", re.M | re.S)


def is_here(name):
    """Whether a package can be imported; scipy and matplotlib stand on numpy, which a run without it shuts out."""
    needed = [name, "numpy"] if name in ("scipy", "matplotlib") else [name]
    return all(sys.modules.get(it, it) is not None and importlib.util.find_spec(it) for it in needed)


def lacking(names):
    return [name for name in names if not is_here(name)]


class Page(unittest.TestCase):
    def test_each_piece_of_python(self):
        fences = []
        for page in ("README.md", "docs/PYTHON.md"):
            with open(f"{TOP}/{page}") as file:
                fences += FENCE.findall(file.read())
        space, count = {}, 0
        for words, text in fences:
            kind, *names = words.split() or ["needs"]
            if kind == "theirs" or lacking(names):
                continue
            with self.subTest(text.splitlines()[0]):
                exec(compile(text, "docs/PYTHON.md", "exec"), space)
            count += 1
        self.assertGreater(count, 4)

    def test_every_function_has_a_row(self):
        """Each function here, by its name without the format, is in the table of the page."""
        import tozbirem

        with open(f"{TOP}/docs/PYTHON.md") as file:
            table = file.read().partition("| cmsisdsp |")[2]
        for name in tozbirem._functions():
            if not re.match(r"arm_q\d+_to_", name):
                self.assertRegex(table, rf"`{re.sub(r'_q(7|15|31)$', '', name)}_(\*|q15|q31)")

    @unittest.skipIf(lacking(["numpy", "scipy"]), "no numpy and scipy")
    def test_the_design(self):
        """It draws in letters, and a picture where matplotlib is here."""
        with tempfile.TemporaryDirectory() as folder:
            picture = f"{folder}/x.png"
            for words in [], [picture]:
                ran = subprocess.run([sys.executable, f"{TOP}/examples/library/design.py", *words], stdout=subprocess.PIPE,
                                     text=True, env=dict(os.environ, PYTHONPATH=f"{TOP}/python"))  # fmt: skip
                self.assertEqual(ran.returncode, 0)
                said, *lines = ran.stdout.splitlines()
                self.assertGreater(float(re.fullmatch(r"signal to noise: ([\d.]+) dB", said)[1]), 70)
                is_drawn = bool(words) and is_here("matplotlib")
                self.assertEqual((os.path.exists(picture), len(lines)), (is_drawn, 0 if is_drawn else 54))
                self.assertTrue(all("*" in line for line in lines))
            if is_here("matplotlib"):
                with open(picture, "rb") as file:
                    self.assertEqual(file.read(8), b"\x89PNG\r\n\x1a\n")


if __name__ == "__main__":
    unittest.main()
