"""Captures that are judged while they are read, what may be wrong behind the first packets, and sources that stay open or fail."""
import socket
import threading

from support.captures import CAPTURE, MOST_BYTES, MOST_KEPT, NAMES, REFLECTED, header, record, report_of, udp
from support.cases import FEW_WORKERS, WORKERS, Case, each, wanted
from support.large_inputs import many_reads

# How many bytes are read before any is judged, and with how many workers.
FRONTS = {262_144: "1", 3_145_728: "4"}

TOO_LARGE = wanted(stderr=f"racl: input over {MOST_BYTES} bytes\n", status=1)
FAILED = wanted(stderr="racl: read failed\n", status=4)
LONG_RECORD = wanted(stderr="racl: record 3 is too long\n", status=1)
LONG = record(1, b"", MOST_KEPT + 1)
EARLY = NAMES + b"pcap\n" + CAPTURE + LONG


def filled(count):
    """The bytes of many reads, with so many answers behind them that these are `count` in all: each takes 58, the last one what is left."""
    data = many_reads()[0]
    more, left = divmod(count - len(data), 58)
    answer = udp(205, False, (2, 53), (1, 1024))
    return data + answer * (more - 1) + record(205, answer[16:] + bytes(left))


def whole():
    """The report on as many bytes as may be."""
    return wanted(report_of(many_reads()[1] + ["pass session"] * ((MOST_BYTES - len(many_reads()[0])) // 58)))


def cut():
    """The report of many reads where a record behind them is cut."""
    return wanted(report_of(many_reads()[1]).replace(b"packets ", b"truncated after 568000\npackets "), status=3)


# What is made of the bytes of many reads, and what comes of that.
READS = [
    ("as many bytes as may be", lambda _: filled(MOST_BYTES), whole),
    ("a byte too many in the last frame", lambda _: filled(MOST_BYTES + 1), lambda: TOO_LARGE),
    ("a record of four bytes", lambda data: data + b"\0" * 4, cut),
    ("a record without its frame", lambda data: data + record(206, b"", 42), cut),
    ("a long record behind many", lambda data: data + LONG,
     lambda: wanted(stderr="racl: record 568001 is too long\n", status=1)),
    ("a long record before many", lambda data: EARLY + data, lambda: LONG_RECORD),
    ("a long record, and the most bytes", lambda _: EARLY.ljust(MOST_BYTES, b"\0"), lambda: LONG_RECORD),
    ("a long record, and a byte too many", lambda _: EARLY.ljust(MOST_BYTES + 1, b"\0"), lambda: TOO_LARGE),
    ("a wrong line before many packets", lambda data: b"wrong\n" + data,
     lambda: wanted(stderr="racl: policy line 1 is wrong\n", status=1)),
    ("many packets of another link", lambda data: data.replace(header(), header(link=2), 1),
     lambda: wanted(stderr="racl: capture is not Ethernet\n", status=1)),
    ("many packets and too many bytes", lambda data: data * 3, lambda: TOO_LARGE),
    ("many digits", lambda data: NAMES + b"hex\n" + data.split(b"pcap\n", 1)[1].hex().encode(),
     lambda: wanted(report_of(many_reads()[1]))),
]

# In so many bytes of addresses two workers judge as many reads as there may be: they took 112 MiB, arenas and stacks of
# threads with them. A list of its own for each read's packets, kept, takes half as much again.
MEMORY = 128 << 20

# Sources that stay open or are reset behind so many bytes, before and behind the last byte that is asked for, where many packets
# stand first in them, or a record that is too long. Either is told only once all was read.
FIRST = ("many packets", lambda: many_reads()[0]), ("a long record", lambda: EARLY)
SOURCES = [(f"{name}, {what} first", first, count, is_reset, want) for what, first in FIRST for name, count, is_reset, want in (
    ("an open source of a byte too many", MOST_BYTES + 1, False, TOO_LARGE),
    ("a source that is reset behind 70,000,000 bytes", 70_000_000, True, TOO_LARGE),
    ("a source that is reset behind 50,000,000 bytes", 50_000_000, True, FAILED),
    ("a source that is reset behind the most bytes", MOST_BYTES, True, FAILED),
)]


def run_on_socket(program, words, data, is_reset):
    """Runs the program on a socket that gives these bytes, and then stays open or is reset."""
    ours, theirs = socket.socketpair()
    # what is unread on our side when it is closed resets theirs
    theirs.send(b"unread")

    def give():
        try:
            ours.sendall(data)
        except OSError:
            pass  # the program has ended
        if is_reset:
            ours.close()

    giver = threading.Thread(target=give)
    giver.start()
    got = program.run(words, stdin=theirs)
    theirs.close()
    giver.join()
    ours.close()
    return got


class Reads(Case):
    @each(READS)
    def reads(self, made, want):
        data = made(many_reads()[0])
        for number in WORKERS:
            self.compare(self.program.run(["--workers", number], data), want(), f"{number} workers")

    @each((f"a capture at the front's end for {number} workers", front, number) for front, number in FRONTS.items())
    def fronts(self, front, number):
        """The capture begins so many bytes before those end that are read before any is judged."""
        for behind in range(0, 160, 9):
            lines = NAMES + b"pcap\n"
            text = lines.rjust(front - behind - 1, b"#").replace(lines, b"\n" + lines) + CAPTURE
            self.compare(self.program.run(["--workers", number], text), wanted(REFLECTED), f"from {behind} bytes before the end")
            self.compare(self.program.run(["--workers", number], text + LONG), LONG_RECORD, f"a long record, from {behind} bytes before the end")
        digits = NAMES + b"hex\n" + b"\n" * front + CAPTURE.hex("\n").encode()
        self.compare(self.program.run(["--workers", number], digits), wanted(REFLECTED), "digits behind the front")

    def test_memory_of_reads(self):
        data = many_reads()[0]
        records = data.split(b"pcap\n", 1)[1][24:] * 2
        data += records[:(MOST_BYTES - len(data)) // 58 * 58]
        got = self.program.run(["--workers", "2", "--summary"], data, memory=MEMORY)
        self.compare(got, {**self.program.run(["--summary"], data), "stderr": b"", "status": 0})

    @each(SOURCES)
    def sources(self, first, count, is_reset, want):
        data = first()[:count].ljust(count, b"\0")
        for number in FEW_WORKERS:
            self.compare(run_on_socket(self.program, ["--workers", number], data, is_reset), want, f"{number} workers")
