"""Faults in each kind of run: the text, the exit status, and what was written before."""
from support.captures import CAPTURE, MOST_KEPT, NAMES, PUT_TOGETHER, header, record
from support.cases import Case, each, wanted

# A policy by which other verdicts are given than by `NAMES`, and verdicts that are expected and aren't given.
OTHERS = b"mac 02:00:00:00:00:01\nout deny ipv4 any any\n"
EXPECTED = b"1 drop\n2 drop\n"

# Each kind of run on a policy and a capture in files: its words, whether lines are written while packets come, and whether the
# capture's file is told behind a fault of the capture.
RUNS = (
    ("files", "{policy} {capture}", True, True),
    ("explained lines", "--explain {policy} {capture}", True, True),
    ("objects", "--json {policy} {capture}", True, True),
    ("hits and sessions", "--hits --sessions {policy} {capture}", True, True),
    ("several workers", "--workers 4 {policy} {capture}", True, True),
    ("saved packets", "--drops {saved} {policy} {capture}", True, True),
    ("live", "--live {policy} {capture}", True, False),
    ("a shard", "--shard 1/1 {policy} {capture}", True, False),
    ("an interface", "--interface 0={capture} {policy}", False, True),
    ("a live interface", "--live --interface 0={capture} {policy}", True, True),
    ("diff", "diff {policy} {other} {capture}", True, False),
    ("expected verdicts", "--expect {expected} {policy} {capture}", True, False),
)

# Faults of a capture: what it has, the text, how many of its packets are told where lines are written while packets come, and what is
# told of the capture behind the fault.
CAPTURES = (
    ("a short header", CAPTURE[:10], "capture header is short", 0, ""),
    ("no pcap capture", bytes(24) + CAPTURE[24:], "not a pcap capture", 0, ""),
    ("another version", header(major=3) + CAPTURE[24:], "capture version is not 2", 0, ""),
    ("a record that is too long", CAPTURE + record(1, b"", MOST_KEPT + 1), "record 3 is too long", 2, PUT_TOGETHER),
    ("a first record that is too long", header() + record(1, b"", MOST_KEPT + 1), "record 1 is too long", 0, ""),
)


class Faults(Case):
    def setUp(self):
        super().setUp()
        self.saved = f"{self.folder}/saved"
        self.policy, self.other, self.expected = (self.hold(name, data) for name, data in (("policy", NAMES), ("other", OTHERS), ("expected", EXPECTED)))

    def run_on(self, words, capture, policy=None, **streams):
        names = {"policy": policy or self.policy, "capture": capture, "other": self.other, "expected": self.expected, "saved": self.saved}
        return self.program.run([it.format(**names) for it in words.split()], **streams)

    def front(self, words, count):
        """The first lines of a report on a capture that is right."""
        lines = self.run_on(words, self.hold("right", CAPTURE))["stdout"].splitlines(keepends=True)
        return b"".join(lines[:count])

    @each(RUNS)
    def captures(self, words, is_early, is_named):
        for name, data, text, told, behind in CAPTURES:
            capture = self.hold("capture", data)
            said = f"racl: {text}\n" + (f"racl: that is {capture}\n" if is_named else "") + behind
            self.compare(self.run_on(words, capture), wanted(self.front(words, told) if is_early else b"", said, 1), name)

    @each(RUNS)
    def cut_capture(self, words, is_early, is_named):
        """A capture that is cut off is no fault."""
        got = self.run_on(words, self.hold("capture", CAPTURE + record(1, bytes(60))[:40]))
        self.compare({"stderr": got["stderr"], "status": got["status"]}, {"stderr": b"", "status": 5 if "diff" in words or "expect" in words else 3})

    @each(RUNS)
    def missing_files(self, words, is_early, is_named):
        missing, right = f"{self.folder}/missing", self.hold("capture", CAPTURE)
        for name, told in ((missing, "No such file or directory (os error 2)"), (self.folder, "Is a directory (os error 21)")):
            want = wanted(stderr=f"racl: {name}: {told}\n", status=4)
            self.compare(self.run_on(words, name), want, told, "as the capture")
            self.compare(self.run_on(words, right, name), want, told, "as the policy")

    @each(RUNS)
    def wrong_policy(self, words, is_early, is_named):
        policy = self.hold("wrong", NAMES + b"in deny\n")
        got = self.run_on(words, self.hold("capture", CAPTURE), policy)
        self.compare(got, wanted(stderr=f"racl: {policy}: line 3 ends too early; see racl check\n", status=1))

    @each(RUNS)
    def full_device(self, words, is_early, is_named):
        is_told = is_named and "--live" not in words
        said = "racl: write failed\n" + ("racl: standard output: No space left on device (os error 28)\n" if is_told else "")
        with open("/dev/full", "wb") as full:
            got = self.run_on(words, self.hold("capture", CAPTURE), stdout=full)
        self.compare(got, {"stderr": said.encode(), "status": 4})

    def test_standard_input(self):
        """Nothing is written before a fault of what standard input has."""
        for policy, capture, text in ((NAMES + b"in deny\n", CAPTURE, "policy line 3 is wrong"), (b"\xff\n", CAPTURE, "policy is not UTF-8"),
                                      *((NAMES, data, text) for name, data, text, told, behind in CAPTURES)):
            want = wanted(stderr=f"racl: {text}\n", status=1)
            self.compare(self.program.run(data=policy + b"pcap\n" + capture), want, text)
            self.compare(self.program.run(data=policy + b"hex\n" + capture.hex().encode() + b"\n"), want, text, "as digits")
        numbered = b"hex 1\n" + CAPTURE.hex().encode() + b"\n"
        for data, text in ((NAMES, "no pcap or hex line"), (NAMES + b"hex\n0\n", "bad hexadecimal"), (NAMES + 2 * numbered, "interface 1 has two captures")):
            self.compare(self.program.run(data=data), wanted(stderr=f"racl: {text}\n", status=1), text)
