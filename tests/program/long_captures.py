"""Captures in files, which may be long: the report is that of a run that gets all from standard input, and no memory is kept for
packets."""
import os

from program.live import told_piece_by_piece
from support.captures import CAPTURE, MOST_BYTES, MOST_KEPT, NAMES, PUT_TOGETHER, header, record, udp
from support.cases import TOP, Case, bytes_of_file, each, names_in, wanted
from support.large_inputs import flows_that_end

# Words that ask for each form of lines, and for what stands behind them.
FORMS = ([], ["--explain"], ["--json", "--only=drop"], ["--summary", "--hits"], ["--hits", "--sessions", "--json"], ["--age", "--explain"],
         ["--tables", "large", "--udp", "60"])

# A request and its answer, 1000 times over, and how often these stand in a capture of 96 MiB, which is over the limit.
PART = b"".join(udp(100, way, *ends) for way, ends in ((True, ((1, 1000), (2, 53))), (False, ((2, 53), (1, 1000))))) * 1000
TIMES = 3 * MOST_BYTES // (2 * len(PART))

# The addresses that a run on it may take, in bytes: less than the capture has, beside what any run maps, as stacks of threads.
MEMORY = 90_000_000


class LongCaptures(Case):
    @each((name, f"{TOP}/examples/{name}.racl") for name in names_in("examples", ".racl"))
    def stored(self, path):
        """The report of a run on the whole input, of each example of one capture."""
        data = bytes_of_file(path)
        if b"\nhex\n" not in data:
            return self.compare({"captures": b"\nhex " in data}, {"captures": True})
        policy, digits = data.split(b"\nhex\n", 1)
        capture = bytes.fromhex("".join(digits.decode().split()))
        held, at = self.hold("policy", policy + b"\n"), self.hold("capture", capture)
        for words in FORMS:
            whole = self.program.run(words, data)
            for workers in "1", "4", "16":
                given = ["--workers", workers, *words, held]
                self.compare(self.program.run([*given, at]), whole, workers, *words)
                self.compare(self.program.run([*given, "-"], capture), whole, workers, *words)

    def test_reads_that_grow(self):
        """The report of a run on the whole input, where reads of a file come to so many packets that threads judge them."""
        held, at = self.hold("policy", NAMES), self.hold("capture", flows_that_end())
        for words in [], ["--summary", "--hits", "--sessions"]:
            whole = self.program.run(words, NAMES + b"pcap\n" + flows_that_end())
            for workers in "1", "4", "16":
                given = ["--workers", workers, *words, held]
                self.compare(self.program.run([*given, at]), whole, workers, *words)
                self.compare(self.program.run([*given, "-"], flows_that_end()), whole, workers, *words)

    def test_sessions_stay(self):
        """A session that ended long ago stays in its table, as in a run on the whole input and other than in a live one."""
        capture = CAPTURE + b"".join(udp(5000 + n, True, (1, 2000 + n), (2, 53)) for n in range(1200))
        held, at = self.hold("policy", NAMES), self.hold("capture", capture)
        whole = self.program.run(["--sessions", "--summary"], NAMES + b"pcap\n" + capture)
        self.compare(self.program.run(["--sessions", "--summary", held, at]), whole)
        self.compare({"stored": len(whole["stdout"].splitlines())}, {"stored": 1202})

    def test_saved(self):
        dropped = udp(106, False, (3, 53), (1, 1000))
        held, at = self.hold("policy", NAMES), self.hold("capture", CAPTURE + dropped)
        names = [f"{self.folder}/{it}" for it in ("drops", "passes")]
        self.program.run([f"--drops={names[0]}", f"--passes={names[1]}", held, at])
        self.compare({"saved": [bytes_of_file(it) for it in names]}, {"saved": [header() + dropped, CAPTURE]})

    def test_lines_as_packets_come(self):
        """The lines of packets are written while the capture comes."""
        pieces = [(header() + CAPTURE[24:-1], 1), (CAPTURE[-1:], 1), (b"", 0)]
        got = told_piece_by_piece(self.program, [self.hold("policy", NAMES), "-"], pieces)
        lines = [b"1 pass rule 1 reflect\n", b"2 pass session\n", b"", b"packets 2 pass 2 drop 0\n"]
        self.compare(got, {"told": lines, "stderr": b"", "status": 0})

    def test_saved_before_a_fault(self):
        """A capture with a fault leaves the lines of the packets before, and files of these."""
        names = [f"{self.folder}/{it}" for it in ("drops", "passes")]
        held, at = self.hold("policy", NAMES), self.hold("capture", CAPTURE + record(1, b"", MOST_KEPT + 1))
        got = self.program.run([f"--drops={names[0]}", f"--passes={names[1]}", held, at])
        told = f"racl: record 3 is too long\nracl: that is {at}\n{PUT_TOGETHER}"
        self.compare(got, wanted(b"1 pass rule 1 reflect\n2 pass session\n", told, 1))
        self.compare({"saved": [bytes_of_file(it) for it in names]}, {"saved": [CAPTURE[:24], CAPTURE]})

    def test_more_than_the_limit(self):
        """Over 64 MiB, in little memory."""
        held, room = self.hold("policy", NAMES), os.path.join(self.folder, "long")
        with open(room, "wb") as file:
            file.write(header() + PART * TIMES)
        count = 2000 * TIMES
        for workers in "1", "4":
            got = self.program.run(["--summary", "--workers", workers, held, room], memory=MEMORY)
            self.compare(got, wanted(f"packets {count} pass {count} drop 0\n".encode()), workers)
        os.remove(room)
