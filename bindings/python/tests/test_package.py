"""The extension; the version; the program of the README; the public names."""

import ast
import os
import re
import shutil
import subprocess
import sys
import sysconfig
import tempfile
import unittest
from pathlib import Path

import dethrux
from dethrux import _native, _types
from expected import TOP, stub

FOLDER = Path(dethrux.__file__).parent
EXTENSION = f"_native{sysconfig.get_config_var('EXT_SUFFIX')}"
# What /proc/cpuinfo has of x86-64-v3 beyond x86-64-v2.
FEATURES = {"avx2", "bmi1", "bmi2", "f16c", "fma", "abm", "movbe"}


class Extension(unittest.TestCase):
    def test_kernel(self):
        """The functions run the code for the processor."""
        level = "v3" if FEATURES <= {*Path("/proc/cpuinfo").read_text().split()} else "v2"
        machine = os.uname().machine
        self.assertEqual(dethrux.kernel(), f"x86-64-{level}" if machine == "x86_64" else machine)
        with self.assertRaisesRegex(TypeError, r"^kernel\(\) takes at most 0 arguments"):
            dethrux.kernel(5)
        with self.assertRaisesRegex(TypeError, "got an unexpected keyword argument 'other'$"):
            dethrux.kernel(other=5)

    def test_none(self):
        message = (
            r"^dethrux: the package has no extension for this Python \(.+\): install it with pip, "
            r"which needs a C compiler and Python\.h$"
        )
        script = (
            "try:\n    import dethrux\n"
            "except ImportError as error:\n    print(error.name, error, sep=': ')"
        )
        ignored = shutil.ignore_patterns("*.so", "__pycache__")
        with tempfile.TemporaryDirectory() as folder:
            package = shutil.copytree(FOLDER, Path(folder, "dethrux"), ignore=ignored)
            for _ in range(2):
                words = [sys.executable, "-B", "-c", script]
                found = subprocess.check_output(words, env={"PYTHONPATH": folder}, text=True)
                self.assertRegex(found, message)
                (package / EXTENSION).write_bytes(b"no extension")

    def test_nothing_else_is_loaded(self):
        """No ctypes, and no shared library but the extension."""
        script = (
            "import sys\nimport dethrux\nassert 'ctypes' not in sys.modules\n"
            "print(*[line.split()[-1] for line in open('/proc/self/maps') if 'dethrux' in line])"
        )
        words = [sys.executable, "-B", "-c", script]
        environment = {"PYTHONPATH": str(FOLDER.parent)}
        run = subprocess.run(words, env=environment, stdout=subprocess.PIPE, check=True)
        self.assertEqual({*run.stdout.decode().split()}, {dethrux._native.__file__})


class Version(unittest.TestCase):
    def test_is_that_of_the_tree(self):
        self.assertEqual(dethrux.__version__, (TOP / "VERSION").read_text().strip())

    def test_is_that_of_the_header(self):
        header = (TOP / "include" / "dethrux.h").read_text()
        parts = zip(("MAJOR", "MINOR", "PATCH"), dethrux.__version__.split("."))
        for name, number in parts:
            self.assertIn(f"#define DETHRUX_VERSION_{name} {number}\n", header)


class Readme(unittest.TestCase):
    def test_its_program(self):
        text = (TOP / "bindings" / "python" / "README.md").read_text(encoding="utf-8")
        program = re.search(r"```python\n(.*?)```", text, re.DOTALL)[1]
        before, names = os.getcwd(), {}
        with tempfile.TemporaryDirectory() as folder:
            (Path(folder) / "export.reg").write_bytes("\ufeffGrüße 😀".encode("utf-16-be"))
            os.chdir(folder)
            try:
                exec(program, names)
            finally:
                os.chdir(before)
        self.assertEqual(names["utf8"], "Grüße 😀".encode())


class Names(unittest.TestCase):
    def test_names(self):
        """The functions of the extension are those that type checkers see."""
        lists = stub((ast.Assign, ast.AugAssign))
        functions = {name for it in lists for name in ast.literal_eval(it.value)}
        self.assertEqual({*_native.__all__}, functions)
        names = {"Decoder", "Encoder", "StrictDecoder", "StrictEncoder", "StreamError"}
        names |= {"decode_to_wtf8", "encode_from_wtf8", "iter_errors", "__version__"}
        self.assertEqual(dethrux.__all__, sorted({*names, *_types.__all__, *functions}))


if __name__ == "__main__":
    unittest.main()
