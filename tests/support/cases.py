"""What cases are made of: a program that is run, and a subject's cases, which compare what its runs gave with what is wanted."""
import fnmatch
import os
import re
import resource
import signal
import subprocess
import tempfile
import unittest

TOP = os.path.dirname(os.path.dirname(os.path.dirname(os.path.abspath(__file__))))
SECONDS = 60
WORKERS = ("1", "2", "16")
FEW_WORKERS = ("1", "2")

# A packet's line in a report.
PACKET_LINE = re.compile(rb"\d+ (?:if \d+ )?(pass|drop) ")

# The options that leave out lines of packets, and the word that the lines have which stay.
FEWER_LINES = (["--only", "pass"], b"pass"), (["--only=drop"], b"drop"), (["--summary"], None), (["--summary", "--only", "pass"], None)


class Program:
    """A program that is there."""

    def __init__(self, path):
        self.path = os.path.abspath(path)

    def is_launcher(self):
        """Whether it is the script that runs the program, which gives each FIFO a pipe of its own."""
        return bytes_of_file(self.path).startswith(b"#!")

    def run(self, words=(), data=b"", memory=None, stack=None, size=None, without=None, **streams):
        """Runs the program and gives what it wrote, said and ended with; no file may have more than `size` bytes, and the standard
        stream with the number `without` is closed."""
        def limit():
            # (a write past the size of a file then fails)
            signal.signal(signal.SIGXFSZ, signal.SIG_IGN)
            for kind, most in ((resource.RLIMIT_AS, memory), (resource.RLIMIT_STACK, stack), (resource.RLIMIT_FSIZE, size)):
                if most:
                    resource.setrlimit(kind, (most, most))
            if without is not None:
                os.close(without)

        streams = {"stdout": subprocess.PIPE, "stderr": subprocess.PIPE, **streams}
        if "stdin" not in streams:
            streams["input"] = data
        try:
            ran = subprocess.run([self.path, *words], preexec_fn=limit if memory or stack or size or without is not None else None, timeout=SECONDS, **streams)
        except subprocess.TimeoutExpired:
            return {"stdout": b"", "stderr": b"", "status": f"none after {SECONDS} seconds"}
        return {"stdout": ran.stdout, "stderr": ran.stderr, "status": ran.returncode}


def wanted(stdout=b"", stderr="", status=0):
    """What is wanted of a run; None is anything."""
    return {"stdout": stdout, "stderr": None if stderr is None else stderr.encode(), "status": status}


def shown(value):
    text = repr(value)
    return text if len(text) <= 300 else f"{text[:140]} .. {text[-140:]}"


def difference(got, want):
    """What a run gave otherwise than is wanted, in words; none where all is as wanted."""
    wrong = (it for it in want if want[it] is not None and got[it] != want[it])
    return "; ".join(f"{it} is {shown(got[it])}, not {shown(want[it])}" for it in wrong)


def kept(report, word):
    """The lines of a report with those packets' lines alone that have this word, or with none of these lines."""
    lines = report.splitlines(keepends=True)
    return b"".join(it for it in lines if not PACKET_LINE.match(it) or PACKET_LINE.match(it)[1] == word)


def bytes_of_file(path):
    with open(path, "rb") as file:
        return file.read()


def names_in(folder, ending):
    """The files of a folder of the checkout that end so, without that ending."""
    return [it[:-len(ending)] for it in sorted(os.listdir(f"{TOP}/{folder}")) if it.endswith(ending)]


def each(table):
    """Makes a method of a Case a case for each row of the table, which is the case's name and what the method is given."""
    def marked(method):
        method.table = list(table)
        return method
    return marked


class Case(unittest.TestCase):
    """The cases of a subject, which run the program that tests/run gives them."""

    program = None

    def __init_subclass__(cls, **more):
        super().__init_subclass__(**more)
        for method in list(vars(cls).values()):
            for name, *given in getattr(method, "table", ()):
                cls.add(method, word_of(name), given)

    @classmethod
    def add(cls, method, word, given):
        name = f"test_{word}"
        while hasattr(cls, name):
            name += "_again"
        setattr(cls, name, lambda case: method(case, *given))

    def setUp(self):
        folder = tempfile.TemporaryDirectory()
        self.addCleanup(folder.cleanup)
        self.folder = folder.name

    def hold(self, name, data):
        """Writes a file in the case's folder, and gives its path."""
        path = f"{self.folder}/{name}"
        with open(path, "wb") as file:
            file.write(data)
        return path

    def interrupting(self):
        """The environment in which a library is loaded before the C library that interrupts, shortens and fails reads and writes."""
        library = f"{self.folder}/interrupt.so"
        subprocess.run(["cc", "-O1", "-shared", "-fPIC", "-o", library, f"{TOP}/tests/c/interrupt.c", "-ldl"], check=True)
        # (only the program itself is interrupted, and no command of a launcher)
        return {**os.environ, "LD_PRELOAD": library, "INTERRUPTED": os.path.basename(self.program.path)}

    def compare(self, got, want, *which):
        """One comparison: what was given, each by its name, is what is wanted. `which` says which comparison of the case this is."""
        which = ", ".join(map(str, which))
        with self.subTest(which):
            told = difference(got, want)
            if told:
                self.fail(f"{which}: {told}" if which else told)

    def compare_lines(self, words, data, want):
        """The options that leave out lines of packets, on an input of which the whole run is known."""
        for options, word in FEWER_LINES:
            for workers in ("1", "4"):
                got = self.program.run([*words, *options, "--workers", workers], data)
                self.compare(got, {**want, "stdout": kept(want["stdout"], word)}, *options, f"{workers} workers")


def word_of(name):
    """A case's name as a word of Python: a row of blanks and signs is an underscore."""
    return re.sub(r"\W+", "_", name).strip("_")


def is_named(name, patterns):
    """Whether a name has the words of one of these patterns, in which * is anything; each name is, where there is no pattern."""
    words = (f"*{'*'.join(map(word_of, it.split('*')))}*" for it in patterns)
    return not patterns or any(fnmatch.fnmatchcase(word_of(name), it) for it in words)
