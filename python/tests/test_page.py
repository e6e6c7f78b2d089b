"""The blocks of docs/HOST.md and both READMEs: each is run, and prints what the page says."""
import contextlib
import io
import os
import re
import unittest

from .examples import REPOSITORY

# a block of Python, and what stands behind `prints`
BLOCK = re.compile(r"^```python\n(.*?)^```\n(?:\nprints\n\n```\n(.*?)^```\n)?", re.M | re.S)


class Page(unittest.TestCase):
    def run_blocks(self, text: str) -> int:
        """Runs a text's blocks from the first to the last, and tells how many there are."""
        names: dict[str, object] = {}
        blocks = BLOCK.findall(text)
        self.addCleanup(os.chdir, os.getcwd())
        os.chdir(REPOSITORY)
        for code, wanted in blocks:
            printed = io.StringIO()
            with contextlib.redirect_stdout(printed):
                exec(code, names)
            if wanted:
                self.assertEqual(printed.getvalue(), wanted)
        return len(blocks)

    def test_host(self) -> None:
        text = (REPOSITORY / "docs" / "HOST.md").read_text()
        begin, end = text.index("## From Python"), text.index("## Two programs to copy")
        self.assertGreaterEqual(self.run_blocks(text[begin:end]), 7)

    def test_readmes(self) -> None:
        for folder in (REPOSITORY, REPOSITORY / "python"):
            with self.subTest(folder):
                self.assertEqual(self.run_blocks((folder / "README.md").read_text()), 1)


if __name__ == "__main__":
    unittest.main()
