#!/usr/bin/env python3
"""Tests how the package is built: imports go down, no module uses a private name of another one,
no two classes have one name, and the page of the scripts has what tables of the package have."""
import ast
import collections
import glob
import os
import re
import unittest

from cases import PYTHON, TOP
from vcdkit.forms.text import FORMS
from vcdkit.questions.expression import FUNCTIONS, LEVELS, UNARY
from vcdkit.reading.formats import FORMATS

PACKAGE = os.path.join(PYTHON, "vcdkit")
LAYERS = ["errors", "model", "reading", "questions", "forms", "commands"]  # the lowest first
# Of a NamedTuple, of argparse and of C.
PUBLIC = {"_asdict", "_make", "_replace", "_ActionsContainer", "_PyBytes_Resize"}


class Layers(unittest.TestCase):
    def setUp(self):
        self.trees = {}
        for path in glob.glob(os.path.join(PACKAGE, "**", "*.py"), recursive=True):
            with open(path, encoding="utf-8") as file:
                self.trees[os.path.relpath(path, PACKAGE)] = list(ast.walk(ast.parse(file.read())))

    def test_imports_go_down(self):
        for path, nodes in self.trees.items():
            names = [(one.module or "").partition(".")[0] for one in nodes
                     if isinstance(one, ast.ImportFrom) and one.level == 2]
            layer = path.partition(os.sep)[0]
            for name in filter(None, names):
                self.assertLess(LAYERS.index(name), LAYERS.index(layer), path)

    def test_private_names(self):
        for path, nodes in self.trees.items():
            self.assertEqual([one.attr for one in nodes if isinstance(one, ast.Attribute)
                              and one.attr[0] == "_" != one.attr[1:2] and one.attr not in PUBLIC
                              and getattr(one.value, "id", "") not in ("self", "_python")],
                             [], path)

    def test_names_of_classes(self):
        names = collections.Counter(one.name for nodes in self.trees.values() for one in nodes
                                    if isinstance(one, ast.ClassDef))
        self.assertEqual([name for name, count in names.items() if count > 1], [])


class Page(unittest.TestCase):
    """The page of the scripts, whose words are those of its code spans."""

    def setUp(self):
        with open(os.path.join(TOP, "extras", "README.md"), encoding="utf-8") as file:
            self.text = file.read()

    def words(self, begin, end):
        part = self.text[self.text.index(begin):self.text.index(end)]
        return {word for code in re.findall("`([^`]+)`", part)
                for word in code.replace("\\|", "|").split()}

    def test_operators(self):
        words = self.words("### Conditions", "### Notes")
        functions = {word.partition("(")[0].lstrip("$") for word in words if "(" in word}
        self.assertEqual(set(LEVELS) - words, set())
        self.assertEqual({sign for sign in UNARY if not words & {sign, sign + "a"}}, set())
        self.assertEqual(set(FUNCTIONS) - functions, set())

    def test_forms_and_formats(self):
        words = self.words("### What they share", "### Examples")
        self.assertEqual({"--" + name for name in FORMS} - words, set())
        self.assertEqual([one.unpacker[0] for one in FORMATS
                          if one.unpacker and one.unpacker[0] not in self.text], [])


if __name__ == "__main__":
    unittest.main()
