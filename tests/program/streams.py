"""Standard streams that are closed, pipes that are named twice, and policies that end in a carriage return."""
import os

from support.captures import CAPTURE, NAMES, REFLECTED
from support.cases import Case, bytes_of_file, each, wanted

NO_READ, NO_WRITE = "racl: read failed\n", "racl: write failed\n"
FAILED_REPORT = f"{NO_WRITE}racl: standard output: Bad file descriptor (os error 9)\n"
EXAMPLE = "in udp 10.0.0.1 1 10.0.0.2 2"
OTHERS = b"packets 2 changed 0 pass to drop 0 drop to pass 0 other 0\n"
OF_INTERFACE = b"1 if 1 pass rule 1 reflect\n2 if 1 pass session\npackets 2 pass 2 drop 0\n"
PLAIN = NAMES.replace(b"\n", b" # policy:%d\n") % (1, 2)
SAVED = ["--drops", "drops", "--passes", "passes"]

# Each kind of run: its words, its input, what it writes, whether it reads standard input, and what is said where standard output
# can't be written.
RUNS = [
    ("default", [], NAMES + b"pcap\n" + CAPTURE, REFLECTED, True, NO_WRITE),
    ("files", ["policy", "capture"], b"", REFLECTED, False, FAILED_REPORT),
    ("a policy from standard input", ["-", "capture"], NAMES, REFLECTED, True, FAILED_REPORT),
    ("a capture from standard input", ["policy", "-"], CAPTURE, REFLECTED, True, FAILED_REPORT),
    ("saved", [*SAVED, "policy", "capture"], b"", REFLECTED, False, FAILED_REPORT),
    ("interfaces", ["--interface", "1=capture", "of one"], b"", OF_INTERFACE, False, FAILED_REPORT),
    ("live", ["--live", "policy", "capture"], b"", REFLECTED, False, NO_WRITE),
    ("live from standard input", ["--live", "policy", "-"], CAPTURE, REFLECTED, True, NO_WRITE),
    ("live and saved", ["--live", *SAVED, "policy", "capture"], b"", REFLECTED, False, NO_WRITE),
    ("live interfaces", ["--live", "--interface", "1=capture", "of one"], b"", OF_INTERFACE, False, NO_WRITE),
    ("a shard", ["--shard", "1/1", *SAVED, "policy", "capture"], b"", REFLECTED + b"shard 1 of 1 of 2 packets until 105\n", False, NO_WRITE),
    ("diff", ["diff", "policy", "policy", "capture"], b"", OTHERS, False, NO_WRITE),
    ("expect", ["--expect", "expected", "policy", "capture"], b"", b"met 1\n", False, NO_WRITE),
    ("ask", ["ask", "policy", EXAMPLE], b"", b"1 drop default\npackets 1 pass 0 drop 1\n", False, NO_WRITE),
    ("compare", ["compare", "policy", "policy"], b"", b"the policies say the same of every packet\n", False, NO_WRITE),
    ("check", ["check", "policy"], b"", b"policy: rules 1 sections 1\n", False, NO_WRITE),
    ("check of standard input", ["check", "-"], NAMES, b"policy: rules 1 sections 1\n", True, NO_WRITE),
    ("expand", ["expand", "policy"], b"", PLAIN, False, NO_WRITE),
]

# The ways in which a policy is given whose right text is that of `policy`, of which each is to answer as for that.
WAYS = [
    ["POLICY", "capture"], ["--interface", "0=capture", "POLICY"], ["--live", "POLICY", "capture"],
    ["--live", "--interface", "0=capture", "POLICY"], ["--shard", "1/1", "POLICY", "capture"],
    ["--expect", "expected", "POLICY", "capture"], ["check", "POLICY"], ["diff", "POLICY", "policy", "capture"],
    ["diff", "policy", "POLICY", "capture"], ["compare", "POLICY", "policy"], ["compare", "policy", "POLICY"], ["ask", "POLICY", EXAMPLE],
    ["ask", "--expect", "expected", "POLICY", EXAMPLE, "out udp 10.0.0.1 1 10.0.0.2 53"],
]

# Words that name one pipe twice, by the names `one`, `./one` and `linked`, what is said of it, and of which.
TWICE = [
    (["one", "one"], "one", "one"), (["--live", "one", "./one"], "./one", "one"), (["--live", "--interface", "1=one", "--interface", "2=linked", "policy"], "linked", "one"),
    (["--interface", "1=linked", "--interface", "2=one", "policy"], "one", "linked"),
    (["--shard", "1/2", "one", "one"], "one", "one"), (["--expect", "one", "policy", "linked"], "one", "linked"), (["diff", "policy", "one", "linked"], "linked", "one"),
    (["compare", "one", "linked"], "linked", "one"), (["ask", "--expect", "one", "one", EXAMPLE], "one", "one"),
]


class Streams(Case):
    def setUp(self):
        super().setUp()
        for name, data in (("policy", NAMES), ("capture", CAPTURE), ("of one", b"interface 1\n" + NAMES), ("expected", b"packets 2\n")):
            self.hold(name, data)

    def closed(self, number, words, data):
        """A run without one of the standard streams; what it saved counts as well."""
        got = self.program.run(words, data, cwd=self.folder, without=number)
        saved = {it: bytes_of_file(f"{self.folder}/{it}") for it in ("drops", "passes") if os.path.exists(f"{self.folder}/{it}")}
        return {**got, "saved": saved}

    @each(RUNS)
    def closed_streams(self, words, data, wrote, reads, no_write):
        """A run that needs a closed stream fails as where that is one that fails; any other is as it is. No file gets its bytes."""
        saves = {"drops": CAPTURE[:24], "passes": CAPTURE} if "--drops" in words else {}
        want = {**wanted(wrote), "saved": saves}
        none = {**wanted(b"", NO_READ, 4), "saved": {}}
        self.compare(self.closed(0, words, data), none if reads else want, "standard input")
        self.compare(self.closed(2, words, data), {**want, "stderr": b""}, "standard error")
        for name in saves:
            os.remove(f"{self.folder}/{name}")
        got = self.closed(1, words, data)
        # (what a run saves that tells as packets come is there up to the packet that couldn't be told)
        allowed = [{}, saves, {it: CAPTURE[:24] for it in saves}]
        self.compare({**got, "saved": got["saved"] in allowed}, {**wanted(b"", no_write, 4), "saved": True}, "standard output")

    def test_each_way(self):
        """A carriage return at the end of a policy's file is dropped, as a line feed is to follow, however the policy is given."""
        for words in WAYS:
            for ending in (b"\r", b""):
                self.hold("POLICY", NAMES.removesuffix(b"\n") + ending)
                want = self.program.run([it.replace("POLICY", "policy") for it in words], cwd=self.folder)
                self.compare(self.program.run(words, cwd=self.folder), want, ending, *words)
            self.hold("POLICY", NAMES + b"\r\r")
            got = self.program.run(words, cwd=self.folder)
            self.compare({"status": got["status"]}, {"status": 1}, "two", *words)

    def test_marker_line_at_the_end(self):
        self.hold("marked", NAMES + b"pcap\r")
        for words in (["marked", "capture"], ["--interface", "1=capture", "marked"], ["ask", "marked", EXAMPLE]):
            told = "racl: marked: line 3: `pcap` begins no line: in, out, mac and interface do; see racl check\n"
            self.compare(self.program.run(words, cwd=self.folder), wanted(stderr=told, status=1), *words)

    def test_expectations_that_end_in_a_carriage_return(self):
        self.hold("expected", b"packets 2\r")
        self.compare(self.program.run(["--expect", "expected", "policy", "capture"], cwd=self.folder), wanted(b"met 1\n"))

    def test_pipe_twice(self):
        os.mkfifo(f"{self.folder}/one")
        os.symlink("one", f"{self.folder}/linked")
        for words, name, other in TWICE:
            got = self.program.run(words, cwd=self.folder)
            self.compare(got, wanted(stderr=f"racl: {name}: the same file as {other}, which is read\n", status=2), *words)

    def test_fault_that_cant_be_printed(self):
        self.hold("short", b"x")
        with open("/dev/full", "wb") as full:
            for words, status in ((["policy", "short"], 4), (["--live", "policy", "short"], 4), (["--unknown"], 4), ([b"\xff"], 2)):
                self.compare(self.program.run(words, cwd=self.folder, stderr=full), {"stdout": b"", "status": status}, *words)

    def test_folder_among_live_interfaces(self):
        """A folder is told before any line, whatever captures stand before it."""
        for words in (["--interface", "1=capture", "--interface", "2=."], ["--interface", "2=.", "--interface", "1=capture"]):
            got = self.program.run(["--live", *words, "of one"], cwd=self.folder)
            self.compare(got, wanted(stderr="racl: .: Is a directory (os error 21)\n", status=4), *words)
