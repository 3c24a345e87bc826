"""Devices that fail, refused memory, a small stack, and reads and writes that signals interrupt."""
import os
import tempfile

from support.captures import CAPTURE, MOST_BYTES, NAMES, REFLECTED, report_of
from support.cases import FEW_WORKERS, TOP, Case, each, wanted
from support.large_inputs import many_reads

INPUT = NAMES + b"pcap\n" + CAPTURE
AT_TERMINAL = "racl: the policy and the capture are read from this terminal; racl --help says how files are named\n"

# Inputs whose reads and writes are interrupted, and what is wanted on them.
INTERRUPTED = [
    ("a short input interrupted", lambda: INPUT, lambda: wanted(REFLECTED)),
    ("many reads interrupted", lambda: many_reads()[0], lambda: wanted(report_of(many_reads()[1]))),
    ("a fault interrupted", lambda: b"", lambda: wanted(stderr="racl: no pcap or hex line\n", status=1)),
]


class Devices(Case):
    def test_small_stack(self):
        for number in FEW_WORKERS:
            got = self.program.run(["--workers", number], INPUT, stack=144 << 10)
            self.compare(got, wanted(REFLECTED), f"{number} workers")

    def test_full_device(self):
        with open("/dev/full", "wb") as full:
            for words, data in ([], INPUT), (["--help"], b""), (["--version"], b""):
                got = self.program.run(words, data, stdout=full)
                self.compare(got, {"stderr": b"racl: write failed\n", "status": 4}, "standard output", *words)
            self.compare(self.program.run([], b"", stderr=full), {"stdout": b"", "status": 4}, "a fault")

    def test_terminal(self):
        ours, theirs = os.openpty()
        # (the end of a terminal's input)
        os.write(ours, b"\x04")
        self.compare(self.program.run([], stdin=theirs), wanted(stderr=f"{AT_TERMINAL}racl: no pcap or hex line\n", status=1))
        for it in (ours, theirs):
            os.close(it)

    def test_folder(self):
        folder = os.open(TOP, os.O_RDONLY)
        self.compare(self.program.run([], stdin=folder), wanted(stderr="racl: read failed\n", status=4))
        os.close(folder)

    def test_little_memory(self):
        with tempfile.TemporaryFile() as file:
            file.write(b" " * MOST_BYTES)
            for memory in (32 << 20, 64 << 20):
                file.seek(0)
                got = self.program.run([], stdin=file, memory=memory)
                self.compare(got, wanted(stderr="racl: no memory\n", status=4), f"{memory >> 20} MiB")

    @each(INTERRUPTED)
    def interrupted(self, data, want):
        env = self.interrupting()
        for number in FEW_WORKERS:
            self.compare(self.program.run(["--workers", number], data(), env=env), want(), f"{number} workers")
