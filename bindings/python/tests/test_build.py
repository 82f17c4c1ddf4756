"""What setup.py builds, and the one line that it prints if something is missing."""

import os
import re
import shutil
import subprocess
import sys
import sysconfig
import tarfile
import tempfile
import unittest
from pathlib import Path

from expected import TOP

PYTHON = TOP / "bindings" / "python"
VERSION = (TOP / "VERSION").read_text().strip()
EXTENSION = f"_native{sysconfig.get_config_var('EXT_SUFFIX')}"
# What a source distribution takes from around the folder of the package: all but what is for
# Windows, and the programs.
AROUND = ["LICENSE-MIT", "LICENSE-APACHE", "THIRD-PARTY.md", "dist/include/dethrux.h"]
AROUND += [f"dist/src/{it.name}" for it in (TOP / "dist" / "src").glob("[clm]*.*")]
# The number of each machine in the header of an ELF file.
MACHINES = {"x86_64": 62, "aarch64": 183}


class Build(unittest.TestCase):
    def setUp(self):
        """Copy what is built, with nothing else around it."""
        folder = tempfile.TemporaryDirectory()
        self.addCleanup(folder.cleanup)
        self.room = Path(folder.name)
        self.here = self.room / "top" / "bindings" / "python"
        ignored = shutil.ignore_patterns("*.so", "__pycache__", "tests", "*.egg-info", "build")
        shutil.copytree(PYTHON, self.here, ignore=ignored)
        for name in AROUND:
            path = self.room / "top" / name
            path.parent.mkdir(parents=True, exist_ok=True)
            shutil.copy(TOP / name, path)

    def setup(self, *words, before="", here=None, **environment):
        """Run a command of setup.py, after some lines of Python."""
        script = f"import runpy, sys\nsys.argv[0] = 'setup.py'\n{before}\n"
        script += "runpy.run_path('setup.py')"
        environment = {**os.environ, "PYTHONDONTWRITEBYTECODE": "1", **environment}
        environment = {name: it for name, it in environment.items() if it is not None}
        return subprocess.run(
            [sys.executable, "-c", script, "-q", *words],
            cwd=here or self.here,
            env=environment,
            stdout=subprocess.PIPE,
            stderr=subprocess.STDOUT,
            universal_newlines=True,
        )

    def built(self, **how):
        """Build the package, and return its files."""
        out = self.room / "out"
        words = "--build-base", str(self.room / "base"), "--build-lib", str(out)
        done = self.setup("build", *words, **how)
        self.assertEqual(done.returncode, 0, done.stdout)
        package = out / "dethrux"
        return {str(it.relative_to(package)): it for it in package.rglob("*") if it.is_file()}

    def assert_extension(self, path, machine):
        """Test the marks of an extension, and that it has the library in it and hides it."""
        data = path.read_bytes()
        self.assertEqual(data[:4], b"\x7fELF")
        self.assertEqual(int.from_bytes(data[18:20], "little"), MACHINES[machine])
        words = ["readelf", "-W", "-l", "-n", "--dyn-syms", str(path)]
        run = subprocess.run(words, stdout=subprocess.PIPE, check=True, universal_newlines=True)
        rows = [line.split() for line in run.stdout.splitlines() if re.match(r" +\d+: ", line)]
        defined = [row[7] for row in rows if len(row) > 7 and "UND" != row[6] and row[3] == "FUNC"]
        self.assertEqual(defined, ["PyInit__native"])
        self.assertNotIn("dethrux_", run.stdout)
        self.assertNotIn("dlsym", run.stdout)
        self.assertRegex(run.stdout, r" GNU_STACK .* RW +0x")
        # The loader wants this level of the processor. The code finds out if it has more.
        level = "x86 ISA needed: x86-64-baseline, x86-64-v2\n"
        self.assertEqual(level in run.stdout, machine == "x86_64")
        for way in (bytes(TOP), bytes(self.room)):
            self.assertNotIn(way, data)

    def check_package(self, found):
        """Test the modules, and the extension for this machine."""
        sources = (PYTHON / "src" / "dethrux").iterdir()
        names = {it.name for it in sources if it.suffix in (".py", ".pyi", ".typed")}
        self.assertEqual(set(found), {*names, EXTENSION})
        self.assert_extension(found[EXTENSION], os.uname().machine)

    def test_another_machine(self):
        """The compiler decides it. It has the headers of this Python, which are the same."""
        for machine in {*MACHINES} - {os.uname().machine}:
            compiler = f"{machine}-linux-gnu-gcc"
            if not shutil.which(compiler):
                self.fail(f"there is no {compiler}: apt-get install gcc-{machine}-linux-gnu")
            self.assert_extension(self.built(CC=compiler)[EXTENSION], machine)

    def test_in_place(self):
        """An editable installation has the extension next to the sources."""
        done = self.setup("build_ext", "--inplace", "--build-temp", str(self.room / "base"))
        self.assertEqual(done.returncode, 0, done.stdout)
        sources = self.here / "src" / "dethrux"
        found = [str(it.relative_to(sources)) for it in sources.rglob("*.so")]
        self.assertEqual(found, [EXTENSION])

    def assert_refused(self, message, **how):
        done = self.setup("build", "--build-base", str(self.room / "base"), **how)
        self.assertEqual(done.returncode, 1)
        self.assertEqual(done.stdout.strip().splitlines()[-1], f"dethrux: {message}")

    def test_what_is_missing(self):
        advice = "install gcc or clang, or set CC"
        self.assert_refused(f"there is no C compiler nothing: {advice}", CC="nothing -m64")
        name = sysconfig.get_config_var("CC").split()[0]
        message = f"there is no C compiler {name}: {advice}"
        self.assert_refused(message, CC=None, PATH=str(self.room))
        self.assert_refused(
            "there is no /nowhere/Python.h: install Python's headers, in Debian python3-dev",
            before="import sysconfig\nget = sysconfig.get_path\n"
            "sysconfig.get_path = lambda it, *rest, **how: "
            "'/nowhere' if it == 'include' else get(it, *rest, **how)",
        )
        message = "false --quiet failed: set CC to a gcc or clang of this machine"
        self.assert_refused(message, CC="false --quiet")
        self.assert_refused(
            "it is for CPython",
            before="import types\nsys.implementation = types.SimpleNamespace("
            "**{**vars(sys.implementation), 'name': 'pypy'})",
        )

    def test_other_targets(self):
        for target in ("riscv64-linux-gnu", "x86_64-linux-gnux32", "x86_64-w64-mingw32"):
            compiler = self.room / "compiler"
            compiler.write_text(f"#!/bin/sh\necho {target}\n")
            compiler.chmod(0o755)
            message = f"there is no assembly for {target}: only for Linux and macOS on x86-64 and "
            self.assert_refused(message + "ARM64", CC=str(compiler))

    def test_macos(self):
        """The assembly has the options of the code in C, and one function is visible."""
        compiler, said = self.room / "compiler", self.room / "said"
        compiler.write_text(
            "#!/bin/sh\n[ $1 = -dumpmachine ] && echo arm64-apple-darwin23 && exit\n"
            f'[ $2 = -Werror ] && exit 1\necho "$*" >> {said}\n'
            'while [ $# != 0 ]; do [ "$1" != -o ] || : > "$2"; shift; done\n'
        )
        compiler.chmod(0o755)
        before = "import sysconfig\nsysconfig.get_config_vars()\nsys.platform = 'darwin'"
        built = self.built(before=before, CC=str(compiler), CFLAGS="-mcpu=apple-m1")
        self.assertEqual([it for it in built if it.endswith(".so")], [EXTENSION])
        *compiled, linked = said.read_text().splitlines()
        found = [re.search(r" -mcpu=apple-m1 .* -c (\S+) ", it)[1] for it in compiled]
        folder = f"{self.room}/top/dist/src"
        names = [f"{folder}/{name}.S" for name in ("choose", "macos", "macos-v3")]
        self.assertEqual(found, [*names, "src/dethrux/_native.c"])
        self.assertEqual([f" -I{folder} " in it for it in compiled], [True, True, True, False])
        self.assertTrue(linked.endswith(" -Wl,-exported_symbol,_PyInit__native"))
        self.assertNotIn("-z,relro", linked)

    def test_the_package_and_its_sources(self):
        """A source distribution takes nothing from around it, and makes the same extension."""
        first = self.built()
        self.check_package(first)
        before = {name: it.read_bytes() for name, it in first.items()}
        done = self.setup("sdist", "--dist-dir", str(self.room))
        self.assertEqual(done.returncode, 0, done.stdout)
        base = f"dethrux-{VERSION}"
        with tarfile.open(self.room / f"{base}.tar.gz") as archive:
            archive.extractall(self.room / "other" / "place")
        place = self.room / "other" / "place" / base
        found = {str(it.relative_to(place)) for it in place.rglob("*") if it.is_file()}
        found = {it for it in found if "egg-info" not in it} - {"PKG-INFO", "setup.cfg"}
        expected = {f"src/dethrux/{it.name}" for it in (self.here / "src" / "dethrux").iterdir()}
        expected |= {"MANIFEST.in", "README.md", "pyproject.toml", "setup.py", *AROUND}
        self.assertEqual(found, expected)
        for name in AROUND:
            self.assertEqual((place / name).read_bytes(), (TOP / name).read_bytes())
            wrong = place.parents[1] / name
            wrong.parent.mkdir(parents=True, exist_ok=True)
            wrong.write_bytes(b"of another program")
        for name in ("base", "out"):
            shutil.rmtree(self.room / name)
        again = {name: it.read_bytes() for name, it in self.built(here=place).items()}
        self.assertEqual(set(again), set(before))
        for name, data in again.items():
            self.assertTrue(data == before[name], name)
        metadata = (place / "PKG-INFO").read_text(encoding="utf-8")
        for line in (f"Version: {VERSION}", "License: MIT OR Apache-2.0", "Requires-Python: >=3.9"):
            self.assertIn(f"\n{line}\n", metadata)
        self.assertIn((PYTHON / "README.md").read_text(encoding="utf-8").strip(), metadata)


if __name__ == "__main__":
    unittest.main()
