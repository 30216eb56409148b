"""The package's own code: nothing is imported for nothing, and mypy is told to overlook nothing."""
import ast
import glob
import os
import unittest

from tests.support import PYTHON


def unused(tree):
    """Names that are imported and not used, in __all__ neither."""
    nodes = list(ast.walk(tree))
    names = {(name.asname or name.name).split(".")[0] for node in nodes if isinstance(node, (ast.Import, ast.ImportFrom))
             for name in node.names}
    words = {node.value for node in nodes if isinstance(node, ast.Constant) and isinstance(node.value, str)}
    return sorted(names - {node.id for node in nodes if isinstance(node, ast.Name)} - words)


class Source(unittest.TestCase):
    def test_imports_and_types(self):
        paths = sorted(glob.glob(os.path.join(PYTHON, "lizardwire", "*.py")) + glob.glob(os.path.join(PYTHON, "tests", "*.py")))
        self.assertGreater(len(paths), 20)
        for path in paths:
            with open(path, encoding="utf-8") as stream:
                text = stream.read()
            self.assertEqual(unused(ast.parse(text)), [], path)
            self.assertFalse("# type:" + " ignore" in text, path)


if __name__ == "__main__":
    unittest.main()
