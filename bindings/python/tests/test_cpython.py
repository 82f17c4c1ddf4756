"""CPython's own tests of UTF-16, with the codecs of this package instead of CPython's.

The modules of CPython's test suite are compiled with every name of a UTF-16
codec, and every function ``codecs.utf_16_..``, replaced. Of each module, only
the tests run in which something was replaced.
"""

import ast
import importlib.util
import sys
import types
import unittest

import dethrux._codecs

STR_TESTS = "test_str" if sys.version_info >= (3, 13) else "test_unicode"
MODULES = ("test_codecs", "test_codeccallbacks", "test_io", STR_TESTS)
NAMES = {
    "utf16": "dethrux-utf-16",
    "utf16le": "dethrux-utf-16-le",
    "utf16be": "dethrux-utf-16-be",
}
# The tests that fail, with the reason. One that passes is reported.
EXCEPTIONS = {
    "test_codeccallbacks.CodecCallbackTest.test_badandgoodsurrogatepassexceptions": (
        "it makes exceptions that name the encoding, and surrogatepass knows only CPython's "
        "names, which the exceptions of these codecs have"
    ),
}


class Replacement(ast.NodeTransformer):
    """Replaces the codecs in a module, and collects the classes and functions that have them."""

    def __init__(self):
        self.places = set()
        self._path = ()
        self._lists = set()

    def _visit_scope(self, node):
        self._path += (node.name,)
        self.generic_visit(node)
        self._path = self._path[:-1]
        return node

    visit_ClassDef = visit_FunctionDef = _visit_scope

    def visit_Assign(self, node):
        self.generic_visit(node)
        if () in self.places:
            self._lists.add(getattr(node.targets[0], "id", ""))
            self.places.remove(())
        return node

    def visit_Name(self, node):
        if node.id in self._lists:
            self.places.add(self._path[:2])
        return node

    def visit_Constant(self, node):
        name = node.value.lower() if isinstance(node.value, str) else ""
        replaced = NAMES.get(name.replace("-", "").replace("_", ""))
        if replaced is None:
            return node
        self.places.add(self._path[:2])
        value = replaced.replace("-", "_") if "_" in name else replaced
        return ast.copy_location(ast.Constant(value), node)

    def visit_Attribute(self, node):
        self.generic_visit(node)
        if getattr(node.value, "id", "") == "codecs" and node.attr.startswith("utf_16_"):
            self.places.add(self._path[:2])
            node.value = ast.copy_location(ast.Name("dethrux_codecs", ast.Load()), node)
        return node


def load(name):
    """Return a module of CPython's test suite with its codecs replaced, and the places of these."""
    spec = importlib.util.find_spec(f"test.{name}")
    replacement = Replacement()
    tree = replacement.visit(ast.parse(spec.loader.get_source(spec.name)))
    module = types.ModuleType(f"dethrux_{name}")
    module.__file__, module.dethrux_codecs = spec.origin, dethrux._codecs
    sys.modules[module.__name__] = module
    exec(compile(tree, spec.origin, "exec"), module.__dict__)
    return module, replacement.places


def flattened(tests):
    """Return the tests of a suite in one list."""
    if isinstance(tests, unittest.TestCase):
        return [tests]
    return [test for each in tests for test in flattened(each)]


def concerns(test, places):
    """Return whether a codec was replaced in a test, in its module or in a class of it."""
    function = getattr(test, test._testMethodName)
    path = tuple(function.__qualname__.split("."))
    classes = {(each.__name__,) for each in type(test).__mro__}
    return path in places or bool(classes & places)


def missing(name, error):
    """Return a test that fails, because a module of CPython's test suite is missing."""

    def fail():
        raise AssertionError(
            f"there is no test.{name} ({error}): install the test suite of this Python, in Debian "
            f"libpython{sys.version_info[0]}.{sys.version_info[1]}-testsuite"
        )

    return unittest.FunctionTestCase(fail, description=f"test.{name} is there")


class Table(unittest.TestCase):
    """The table of exceptions names only tests that exist."""

    found = set()

    def test_every_exception_is_a_test(self):
        self.assertEqual(set(EXCEPTIONS) - self.found, set())


def load_tests(loader, standard_tests, pattern):
    """Return the tests of CPython, for unittest."""
    suite = unittest.TestSuite()
    for name in MODULES:
        try:
            module, places = load(name)
        except (ImportError, AttributeError) as error:
            suite.addTest(missing(name, error))
            continue
        tests = [
            test
            for test in flattened(loader.loadTestsFromModule(module))
            if concerns(test, places)
        ]
        if not tests:
            suite.addTest(missing(name, "no test of UTF-16 in it"))
        for test in tests:
            path = f"{name}.{type(test).__name__}.{test._testMethodName}"
            Table.found.add(path)
            if path in EXCEPTIONS:
                setattr(test, "__unittest_expecting_failure__", True)
        suite.addTests(tests)
    suite.addTests(standard_tests)
    return suite


if __name__ == "__main__":
    unittest.main()
