"""A policy and a capture in two files, which get what the same input on standard input gets; and files that are wrong."""
import os

from support.captures import (CAPTURE, DEFAULTS, MOST_BYTES, MOST_KEPT, NAMES, OTHERS, PUT_TOGETHER, REFLECTED, RULES, header,
                              parts_of, record, report_of, udp)
from support.cases import TOP, Case, bytes_of_file, each, names_in, wanted

SWAPPED = "racl: the file that is named as the policy is a capture; its words are: POLICY CAPTURE\n"


def without_reader(program, words):
    """A run whose report goes to a pipe that nobody reads."""
    theirs, ours = os.pipe()
    os.close(theirs)
    try:
        return program.run(words, stdout=ours)
    finally:
        os.close(ours)


class Files(Case):
    def setUp(self):
        super().setUp()
        self.policy, self.capture, self.missing = (f"{self.folder}/{it}" for it in ("policy", "capture", "missing"))

    def run_on(self, policy, capture):
        """A run on files of these bytes."""
        return self.program.run([self.hold("policy", policy), self.hold("capture", capture)])

    @each((f"files of {it}", it) for it in names_in("examples", ".racl"))
    def examples(self, name):
        whole = bytes_of_file(f"{TOP}/examples/{name}.racl")
        first, captures = parts_of(whole)
        if captures[0][0] is not None:
            self.skipTest("of interfaces")
        policy, capture = self.hold("policy", first), self.hold("capture", captures[0][1])
        for words in ([], ["--workers", "4"]):
            want = self.program.run(words, whole)
            self.compare(self.program.run([*words, policy, capture]), want, "files", *words)
            self.compare(self.program.run([policy, *words, capture]), want, "words between files", *words)
            self.compare(self.program.run([*words, "-", capture], first), want, "policy on standard input", *words)
            self.compare(self.program.run([policy, "-", *words], captures[0][1]), want, "capture on standard input", *words)

    def test_no_input(self):
        self.compare(self.run_on(NAMES, CAPTURE), wanted(REFLECTED))

    def test_report_that_nobody_reads(self):
        files = [self.hold("policy", NAMES), self.hold("capture", CAPTURE)]
        for words in ([], ["--passes", "/dev/null"]):
            self.compare(without_reader(self.program, [*words, *files]), {"stderr": b"", "status": 4}, *words)

    def test_report_to_a_full_device(self):
        files = [self.hold("policy", NAMES), self.hold("capture", CAPTURE)]
        with open("/dev/full", "wb") as full:
            told = b"racl: write failed\nracl: standard output: No space left on device (os error 28)\n"
            self.compare(self.program.run(files, stdout=full), {"stderr": told, "status": 4})

    def test_missing_file_and_folder(self):
        policy, capture = self.hold("policy", NAMES), self.hold("capture", CAPTURE)
        for name, told in ((self.missing, "No such file or directory (os error 2)"), (self.folder, "Is a directory (os error 21)")):
            want = wanted(stderr=f"racl: {name}: {told}\n", status=4)
            self.compare(self.program.run([name, capture]), want, told, "as the policy")
            self.compare(self.program.run([policy, name]), want, told, "as the capture")

    def test_cut_capture(self):
        self.compare(self.run_on(NAMES, CAPTURE[:-1]),
                     wanted(b"1 pass rule 1 reflect\ntruncated after 1\npackets 1 pass 1 drop 0\n", status=3))

    def test_captures_put_together(self):
        late = header() + udp(1_700_000_000, True, (1, 1000), (2, 53))
        told = f"racl: record 3 is too long\nracl: that is {self.capture}\n{PUT_TOGETHER}"
        self.compare(self.run_on(NAMES, late * 2), wanted(b"1 pass rule 1 reflect\n2 drop malformed\n", told, 1))

    def test_first_record_that_is_too_long(self):
        got = self.run_on(NAMES, header() + record(1, b"", MOST_KEPT + 1))
        self.compare(got, wanted(stderr=f"racl: record 1 is too long\nracl: that is {self.capture}\n", status=1))

    @each((f"{name} as the policy", name, data) for name, data in [("pcap", CAPTURE), *((it[0], it[1]) for it in OTHERS)])
    def swapped(self, name, data):
        second = "" if name == "other" else SWAPPED
        got = self.run_on(data + b"\xff", NAMES)
        try:
            (data + b"\xff").decode()
        except UnicodeDecodeError as broken:
            number = data[:broken.start].count(b"\n") + 1
        told = f"racl: {self.policy}: line {number} is not UTF-8; see racl check\n"
        self.compare(got, wanted(stderr=told + second, status=1))

    @each([(f"a line {it.decode()!r} in the policy's file", it) for it in (b"pcap", b"hex\r\nd4\n", b"hex 0\n", b"hex 255\nin deny\n")])
    def marked_policy(self, line):
        told = f"racl: {self.policy}: line 3: `{line.decode().split()[0]}` begins no line: in, out, mac and interface do; see racl check\n"
        want = wanted(stderr=told, status=1)
        self.compare(self.run_on(NAMES + line, CAPTURE), want, "one capture")
        files = [self.hold("policy", NAMES + line), f"--interface=7={self.hold('capture', CAPTURE)}"]
        self.compare(self.program.run(files), want, "an interface")
        told = f"racl: {self.policy}: line 1 ends too early; see racl check\n"
        self.compare(self.run_on(b"in deny\n" + NAMES + line, CAPTURE), wanted(stderr=told, status=1))

    def test_wrong_policies(self):
        """A wrong policy is told by its file, its line and the reason that a check has."""
        for policy, told in ((b"in deny\n", "line 1 ends too early"), (NAMES + b"# one\nin permit ipv4 any any tpc\n", "line 4: `tpc` is no protocol: any, tcp, udp, icmp or a number up to 255"),
                             (NAMES + NAMES, "line 3: `mac` stands in this section already"), (b"in deny ipv4 any any\n" * 4097, "line 4097: `in` is one rule too many: a direction has at most 4096")):
            want = wanted(stderr=f"racl: {self.policy}: {told}; see racl check\n", status=1)
            self.compare(self.run_on(policy, CAPTURE), want, told)
            for words in (["--live", self.policy, self.capture], ["--shard", "1/2", self.policy, self.capture], [f"--interface=1={self.capture}", self.policy],
                          ["--live", f"--interface=1={self.capture}", self.policy]):
                self.compare(self.program.run(words), want, told, *words)

    def test_out_rules_without_an_own_address(self):
        got = self.run_on(NAMES.partition(b"\n")[2] + b"interface 7\n" + RULES, CAPTURE)
        unlooked = (f"racl: {self.policy}: interface {it} has no mac line, so none of its out rules is looked at\n" for it in (0, 7))
        self.compare(got, wanted(DEFAULTS, "".join(unlooked)))

    def test_interfaces_without_rules(self):
        files = [self.hold("policy", b"mac 02:00:00:00:00:01\ninterface 2\n" + NAMES), self.hold("capture", CAPTURE)]
        unruled = "racl: %s: interface %d has no rule, so each of its packets of IP is dropped\n"
        self.compare(self.program.run(files), wanted(DEFAULTS, unruled % (self.policy, 0)), "one capture")
        names = [f"--interface={it}={self.capture}" for it in (7, 2)]
        got = self.program.run([files[0], "--summary", *names])
        self.compare({"stderr": got["stderr"]}, {"stderr": (unruled % (self.policy, 7)).encode()}, "interfaces")

    def test_names_that_terminals_obey(self):
        policy, name = self.hold("policy", NAMES), self.folder + "/\x1b[31m\u00fc"
        shown = self.folder + "/\\x1b[31m\\xc3\\xbc"
        told = f"racl: {shown}: No such file or directory (os error 2)\n"
        self.compare(self.program.run([policy, name]), wanted(stderr=told, status=4), "no file")
        with open(name, "wb") as file:
            file.write(b"pcap")
        self.compare(self.program.run([policy, name]), wanted(stderr=f"racl: capture header is short\nracl: that is {shown}\n", status=1))
        told = f"racl: {shown}: the same file as {shown}, which is read\n"
        self.compare(self.program.run(["--drops", name, policy, name]), wanted(stderr=told, status=2), "saved")

    def test_frames_of_other_stations(self):
        foreign = f"racl: {self.policy}: none of the first frames of interface 0 is from or to the address of its mac line\n"
        self.compare(self.run_on(NAMES.replace(b":01", b":09"), CAPTURE), wanted(DEFAULTS, foreign))

    def test_frames_of_the_same_host(self):
        """The second frame is from the host's IP address, by another Ethernet address than its own. The fourth one is to the own address,
        as those are that a router is to forward; no host has 0.0.0.0."""
        ends = (1, 1000), (2, 53)
        other = udp(100, False, *ends).replace(b"\x02\0\0\0\0\x01\x02\0\0\0\0\x02", b"\x02\0\0\0\0\x02\x02\0\0\0\0\x03")
        frames = [udp(100, True, *ends), other, udp(100, False, *reversed(ends)), udp(100, False, (1, 7), (2, 7)),
                  *(udp(100, it, (7, 68), (9, 67)).replace(b"\x0a\0\0\x07", bytes(4)) for it in (True, False))]
        capture = header() + b"".join(frames)
        report = report_of(["pass rule 1 reflect", "pass session", "pass session", *["drop default"] * 3])
        said = (f"racl: {self.policy}: interface 0: 1 of the first frames come in from an IP address from which others go out; "
                "a host of several Ethernet addresses has one mac line\n")
        self.compare(self.run_on(NAMES, capture), wanted(report, said))

    def test_frame_of_another_station_to_all(self):
        got = self.run_on(NAMES.replace(b":01", b":09"), header() + record(1, b"\xff" * 6 + CAPTURE[24 + 16 + 6:24 + 16 + 60]))
        self.compare(got, wanted(b"1 drop default\npackets 1 pass 0 drop 1\n"))

    def test_too_many_bytes(self):
        """A policy may have as many bytes as an input; the capture beside it may have any number (long_captures)."""
        got = self.run_on(b"pcap\n" + b" " * MOST_BYTES, CAPTURE)
        self.compare(got, wanted(stderr="racl: input over 67108864 bytes\n", status=1))

    @each(OTHERS)
    def others(self, data, fault, said):
        """Captures that are refused for what they are, which is said of files alone."""
        second = f"racl: {self.capture} is {said}\n" if said else f"racl: that is {self.capture}\n"
        self.compare(self.run_on(NAMES, data), wanted(stderr=f"racl: {fault}\n{second}", status=1), "files")
        self.compare(self.program.run([], NAMES + b"pcap\n" + data), wanted(stderr=f"racl: {fault}\n", status=1), "standard input")
