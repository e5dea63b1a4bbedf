"""What several tests share. Importing it finds the package, the second reader and the program: that
which VCDKIT names, else ./vcdkit of the repository."""
import os
import shutil
import sys
import tempfile
import unittest

HERE = os.path.dirname(os.path.abspath(__file__))
PYTHON = os.path.dirname(HERE)
TOP = os.path.dirname(PYTHON)
NESTED = os.path.join(TOP, "samples", "nested.vcd")
sys.path[:0] = [PYTHON, os.path.join(HERE, "second_reader")]
os.environ["VCDKIT"] = os.path.abspath(
    shutil.which(os.environ.get("VCDKIT", "")) or os.path.join(TOP, "vcdkit"))


class Case(unittest.TestCase):
    """A case that writes files."""

    def setUp(self):
        folder = tempfile.TemporaryDirectory()
        self.addCleanup(folder.cleanup)
        self.folder = folder.name

    def file(self, name, data=None):
        """Returns the path of a file, which is new if it has data."""
        path = os.path.join(self.folder, name)
        if data is not None:
            with open(path, "wb") as file:
                file.write(data)
        return path


def text_of(path):
    """Returns the bytes of a file."""
    with open(path, "rb") as file:
        return file.read()
