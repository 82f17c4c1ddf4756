"""Builds the package: an extension in C with the library's assembly. CC names another compiler."""

import os
import shlex
import shutil
import subprocess
import sys
import sysconfig
from pathlib import Path

from setuptools import Extension, setup
from setuptools.command.build_ext import build_ext
from setuptools.command.sdist import sdist

HERE = Path(__file__).resolve().parent
# The top of the clone or of the release archive. A source distribution is its own top: what is
# around it belongs to something else.
TOP = HERE if (HERE / "PKG-INFO").is_file() else HERE.parent.parent
DIST = TOP / "dist" / "src"
# The assembly of each machine. On macOS it is that of each architecture that Python is built for.
ASSEMBLY = {
    "x86_64": ["choose.S", "linux-x86-64-v2.s", "linux-x86-64-v3.s"],
    "aarch64": ["choose.S", "linux-aarch64.s"],
    "macos": ["choose.S", "macos.S", "macos-v3.S"],
}
INCLUDED = ["calls.inc", "macos-aarch64.s", "macos-x86-64-v2.s", "macos-x86-64-v3.s"]
LICENCES = ["LICENSE-MIT", "LICENSE-APACHE", "THIRD-PARTY.md"]
# What a source distribution has from around this folder.
AROUND = [*LICENCES, "dist/include/dethrux.h"]
AROUND += [f"dist/src/{name}" for name in sorted({*sum(ASSEMBLY.values(), INCLUDED)})]
SOURCES = "src/dethrux"
# These come after the options of Python's own build. Other packages may have the library too, so
# the map hides all but the function that Python calls.
COMPILE = ["-std=c11", "-O2", "-g0", "-DNDEBUG"]
LINK = ["-Wl,-z,relro,-z,now", "-Wl,--build-id=sha1", "-Wl,--strip-all"]
LINK += [f"-Wl,--version-script={SOURCES}/_native.map"]
if sys.platform == "darwin":
    LINK = ["-Wl,-exported_symbol,_PyInit__native"]


def fail(message):
    """End the build with one line."""
    raise SystemExit(f"dethrux: {message}")


def compiler():
    """Return the words that call the C compiler."""
    return shlex.split(os.environ.get("CC") or sysconfig.get_config_var("CC") or "cc")


def call(*words):
    """Return what the compiler prints, or None if it fails."""
    done = subprocess.run([*compiler(), *words], stdout=subprocess.PIPE, stderr=subprocess.DEVNULL)
    return None if done.returncode else done.stdout.decode().strip()


def assembly():
    """Return the assembly for the compiler's machine, and end the build if something is missing."""
    include = Path(sysconfig.get_path("include"))
    if sys.implementation.name != "cpython":
        fail("it is for CPython")
    if not shutil.which(compiler()[0]):
        fail(f"there is no C compiler {compiler()[0]}: install gcc or clang, or set CC")
    if not (include / "Python.h").is_file():
        fail(f"there is no {include}/Python.h: install Python's headers, in Debian python3-dev")
    target = call("-dumpmachine")
    if target is None:
        fail(f"{shlex.join(compiler())} failed: set CC to a gcc or clang of this machine")
    if sys.platform == "darwin" and "-apple-" in target:
        return ASSEMBLY["macos"]
    machine = target.split("-")[0]
    if machine not in ASSEMBLY or "-linux" not in target or "x32" in target:
        fail(f"there is no assembly for {target}: only for Linux and macOS on x86-64 and ARM64")
    return ASSEMBLY[machine]


def padding():
    """Return the option that moves branches which cross or end a block of 32 bytes.

    On processors from Skylake to Cascade Lake these slow their loops down.
    """
    # For ARM64 clang only warns of it.
    empty = ["-Werror", "-c", "-x", "assembler", os.devnull, "-o", os.devnull]
    options = ["-Wa,-mbranches-within-32B-boundaries", "-mbranches-within-32B-boundaries"]
    return [option for option in options if call(option, *empty) is not None][:1]


class Build(build_ext):
    """Assembles the library, and links it into the extension."""

    def build_extension(self, extension):
        sources = [str(DIST / name) for name in assembly()]
        self.compiler.src_extensions = [*self.compiler.src_extensions, ".S", ".s"]
        # Python's own options come first: -g, and some that are only for C, of which clang warns.
        options = ["-g0", "-w", *padding()]
        extension.extra_objects = self.compiler.compile(
            sources, self.build_temp, include_dirs=[str(DIST)], extra_postargs=options
        )
        # A header may be newer than what was built before.
        self.force = True
        super().build_extension(extension)


class Sources(sdist):
    """Takes what is around this folder."""

    def make_release_tree(self, base_dir, files):
        super().make_release_tree(base_dir, files)
        for name in AROUND:
            Path(base_dir, name).parent.mkdir(parents=True, exist_ok=True)
            shutil.copy(TOP / name, Path(base_dir, name))


def version():
    """Return the version of the package."""
    return (HERE / SOURCES / "_version.py").read_text().split('"')[-2]


setup(
    name="dethrux",
    version=version(),
    description="UTF-16 in either byte order, to and from str and UTF-8, by a proved C library",
    long_description=(HERE / "README.md").read_text(encoding="utf-8"),
    long_description_content_type="text/markdown",
    keywords=["utf-16", "unicode", "transcoding", "codec"],
    license="MIT OR Apache-2.0",
    license_files=[name for name in LICENCES if (HERE / name).is_file()],
    classifiers=[
        "Development Status :: 4 - Beta",
        "Intended Audience :: Developers",
        "Operating System :: MacOS",
        "Operating System :: POSIX :: Linux",
        "Programming Language :: Python :: 3",
        "Topic :: Software Development :: Libraries",
        "Topic :: Text Processing",
        "Typing :: Typed",
    ],
    python_requires=">=3.9",
    package_dir={"": "src"},
    packages=["dethrux"],
    package_data={"dethrux": ["*.pyi", "py.typed"]},
    zip_safe=False,
    ext_modules=[
        Extension(
            "dethrux._native",
            [f"{SOURCES}/_native.c"],
            include_dirs=[str(TOP / "dist" / "include")],
            extra_compile_args=COMPILE,
            extra_link_args=LINK,
        )
    ],
    cmdclass={"build_ext": Build, "sdist": Sources},
)
