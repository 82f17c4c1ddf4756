"""What ``python -m dethrux`` adds to the programs, whose cases ``programs.sh`` runs."""

import os
import shlex
import signal
import subprocess
import sys
import tempfile
import unittest
from pathlib import Path
from unittest import mock

import dethrux
from dethrux import __main__ as program
from expected import peak

ENVIRONMENT = {**os.environ, "PYTHONPATH": str(Path(dethrux.__file__).parent.parent)}
PYTHON = shlex.quote(sys.executable)
ORDERS = {"cat": "le be auto", "enc": "le be le-bom be-bom", "check": "le be auto"}


def usage(name):
    """Return the line for words that a program refuses."""
    return f"usage: python -m dethrux {name} [{ORDERS[name].replace(' ', '|')}] [FILE]\n".encode()


def forked(*words, given=b"", folder="."):
    """Run a program in a copy of this process. Return the status, the output and the message.

    The output ends with what the program left of the input.
    """
    with tempfile.TemporaryFile() as data, tempfile.TemporaryFile() as output, \
            tempfile.TemporaryFile() as message:
        files = data, output, message
        data.write(given)
        data.seek(0)
        child = os.fork()
        if child == 0:
            try:
                os.chdir(folder)
                for number, file in enumerate(files):
                    os.dup2(file.fileno(), number)
                os._exit(program.main([*map(os.fsdecode, words)]))
            finally:
                os._exit(99)
        status = os.waitstatus_to_exitcode(os.waitpid(child, 0)[1])
        left = os.read(data.fileno(), len(given) + 1)
        output.seek(0)
        message.seek(0)
        return status, output.read() + left, message.read()


class Program(unittest.TestCase):
    """Files, the default byte orders, the help, interrupts, failures, and memory."""

    def test_files(self):
        with tempfile.TemporaryDirectory() as folder:
            path, text = Path(folder) / "notes.txt", "gr\xfc\xdfe \U0001f600"
            counts = b"bytes: 16, characters: 7, ill-formed: 0\n"
            for order, codec in (("le", "utf-16-le"), ("be", "utf-16-be")):
                for name, given, expected in (
                    ("cat", text.encode(codec), text.encode()),
                    ("check", text.encode(codec), counts),
                    ("enc", text.encode(), text.encode(codec)),
                ):
                    path.write_bytes(given)
                    found = forked(name, order, "notes.txt", folder=folder)
                    self.assertEqual(found, (0, expected, b""))
                    self.assertEqual(forked(name, order, path), found)
            for name in ORDERS:
                line = b": missing\xff: No such file or directory\n"
                expected = 1, b"", f"dethrux {name}".encode() + line
                for words in ([b"missing\xff"], ["le", b"missing\xff"]):
                    self.assertEqual(forked(name, *words, folder=folder), expected)
                line = f"dethrux {name}: read failed\n".encode()
                self.assertEqual(forked(name, "le", folder), (1, b"", line))

    def test_the_default_byte_orders(self):
        # Only the first chunk has a BOM.
        long, counts = b"\xff\xfe" + b"a\0" * 100_000, b"bytes: 200002, characters: 100000"
        report = b"0x2 (2): incomplete character\nbytes: 3, characters: 0, ill-formed: 1\n"
        none = b"bytes: 2, characters: 0, ill-formed: 1\n"
        for name, given, status, output in (
            ("enc", b"a", 0, b"\xff\xfea\0"),
            ("enc", b"\xef\xbb\xbfa", 0, b"\xff\xfea\0"),
            ("enc", b"\xf0", 0, b"\xff\xfe\xfd\xff"),
            ("cat", b"\xff\xfea\0", 0, b"a"),
            ("cat", b"\0a", 0, b"a"),
            ("cat", long, 0, b"a" * 100_000),
            ("check", long, 0, counts + b", ill-formed: 0\n"),
            ("check", b"\xff\xfea", 1, report),
            ("check", b"\xdc\0", 1, b"0x0 (0): unpaired trailing surrogate DC00\n" + none),
        ):
            self.assertEqual(forked(name, given=given), (status, output, b""))

    def test_a_bom_in_two_chunks(self):
        for first, second in (b"\xff", b"\xfea\0"), (b"", b"\xff\xfea\0"):
            order, bom, chunks = program.begun("auto", iter([first, second, b"b\0"]))
            self.assertEqual((order, bom), ("little", 2))
            self.assertEqual(b"".join(chunks), b"\xff\xfea\0b\0")

    def test_a_write_of_less_than_all(self):
        written = []

        def write(file, data):
            written.append((file, bytes(data[:2])))
            return len(data[:2])

        with mock.patch("os.write", write):
            program.write_output(b"abcde")
            program.say("fgh")
        expected = [(1, b"ab"), (1, b"cd"), (1, b"e"), (2, b"fg"), (2, b"h")]
        self.assertEqual(written, expected)
        with mock.patch("os.write", side_effect=[0, 1]):
            self.assertRaises(program.Failure, program.write_output, b"a")

    def test_out_of_memory(self):
        with mock.patch.object(program, "say") as say:
            self.assertEqual(program.guarded("x", mock.Mock(side_effect=MemoryError)), 1)
        say.assert_called_once_with("x: out of memory\n")

    def test_interrupts(self):
        """An interrupt ends a program, but not one that was started to ignore interrupts."""
        words = [sys.executable, "-m", "dethrux", "cat", "le"]
        kept = signal.getsignal(signal.SIGINT)
        for handler, expected in (
            (signal.SIG_DFL, (-signal.SIGINT, b"", b"")),
            (signal.SIG_IGN, (0, b"b", b"")),
        ):
            signal.signal(signal.SIGINT, handler)
            pipes = dict.fromkeys(("stdin", "stdout", "stderr"), subprocess.PIPE)
            try:
                run = subprocess.Popen(words, env=ENVIRONMENT, **pipes)
            finally:
                signal.signal(signal.SIGINT, kept)
            with run:
                run.stdin.write(b"a\0")
                run.stdin.flush()
                self.assertEqual(run.stdout.read(1), b"a")
                run.send_signal(signal.SIGINT)
                output, line = run.communicate(b"b\0")
            self.assertEqual((run.returncode, output, line), expected)

    def test_help(self):
        for words in (["--help"], ["cat", "--help"], ["enc", "--help"], ["check", "--help"]):
            status, output, line = forked(*words)
            self.assertEqual((status, line), (0, b""))
            for name in ORDERS:
                self.assertIn(usage(name)[len("usage: ") :], output)
        line = b"usage: python -m dethrux cat|enc|check [ORDER] [FILE]\n"
        for words in ([], ["other"], ["le"], [""]):
            self.assertEqual(forked(*words), (2, b"", line))
        for name in ORDERS:
            for words in (["-x"], ["le", "-"], ["le", "le", "le"]):
                self.assertEqual(forked(name, *words), (2, b"", usage(name)))
        words = ["sh", "-c", f"{PYTHON} -m dethrux --help > /dev/full"]
        found = subprocess.run(words, env=ENVIRONMENT, stderr=subprocess.PIPE)
        self.assertEqual((found.returncode, found.stderr), (1, b"dethrux: write failed\n"))

    def test_constant_memory(self):
        """Three times the input takes no more memory, and neither does its report."""
        wrong = b"a\0" * 31 + b"\0\xdc"
        for name, piece in (("cat", wrong), ("enc", b"a\xff" * 8), ("check", wrong)):
            most = []
            for count in (2, 6):
                with tempfile.TemporaryFile() as file:
                    file.write(piece * (count * program.CHUNK // len(piece)))
                    file.seek(0)
                    chunks = program.read_chunks(file.fileno())
                    run = program.PROGRAMS[name].run
                    most.append(peak(run, "le", chunks, lambda data: None))
            self.assertLess(most[1] - most[0], 2 * program.CHUNK, name)


if __name__ == "__main__":
    unittest.main()
