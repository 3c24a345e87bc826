"""What the word `diff` tells: of which packets two policies say different things."""
import ipaddress
import random
import re
import struct

from support.captures import CAPTURE, MOST_KEPT, NAMES, OTHERS, PUT_TOGETHER, header, record, request_and_answer, udp
from support.cases import Case, each, wanted

OWN = b"mac 02:00:00:00:00:01\n"
REFLECTS = b"out permit+reflect ipv4 10.0.0.1 any udp dport 53\n"

# The request and its answer as explained lines tell them, but for the direction.
PACKETS = {"1": "interface 0 {} time 100 udp 10.0.0.1 port 1000 to 10.0.0.2 port 53", "2": "interface 0 {} time 105 udp 10.0.0.2 port 53 to 10.0.0.1 port 1000"}

# Policies that take the place of one that reflects requests (NAMES), and what is told of a request and its answer, with the
# direction by the new policy: by the old one the first rule lets the request through, and its session the answer.
CHANGES = [
    ("the same policy", NAMES, [], "changed 0 pass to drop 0 drop to pass 0 other 0"),
    ("the rule stands second", OWN + b"out deny ipv4 any any tcp\n" + REFLECTS, [], "changed 0 pass to drop 0 drop to pass 0 other 0"),
    ("the rule is written otherwise", OWN + b"out  permit+reflect\tipv4 10.0.0.1/32 0.0.0.0/0 17 dport 53-53 # the same\n", [],
     "changed 0 pass to drop 0 drop to pass 0 other 0"),
    ("the rule has other bits behind its prefix", OWN + b"out permit+reflect ipv4 10.0.0.1 10.9.9.9/0 udp dport 53\n", [],
     "changed 0 pass to drop 0 drop to pass 0 other 0"),
    ("the rule stands twice", NAMES + REFLECTS, [], "changed 0 pass to drop 0 drop to pass 0 other 0"),
    ("without a session", OWN + b"out permit ipv4 10.0.0.1 any udp dport 53\n",
     ["1 pass rule 1 reflect -> pass rule 1 | out", "2 pass session -> drop default | in"], "changed 2 pass to drop 1 drop to pass 0 other 1"),
    ("another rule of the same effect", OWN + b"out permit+reflect ipv4 any any udp\n",
     ["1 pass rule 1 reflect -> pass rule 1 reflect | out"], "changed 1 pass to drop 0 drop to pass 0 other 1"),
    ("a rule of the other direction", OWN + b"in permit+reflect ipv4 10.0.0.1 any udp dport 53\n",
     ["1 pass rule 1 reflect -> drop default | out", "2 pass session -> drop default | in"], "changed 2 pass to drop 2 drop to pass 0 other 0"),
    ("another own address", b"mac 02:00:00:00:00:02\n" + REFLECTS + b"in permit+reflect ipv4 10.0.0.1 any udp dport 53\n",
     ["1 pass rule 1 reflect -> pass rule 1 reflect | in"], "changed 1 pass to drop 0 drop to pass 0 other 1"),
    ("a rule in front", OWN + b"out deny ipv4 any any udp\n" + REFLECTS,
     ["1 pass rule 1 reflect -> drop rule 1 | out", "2 pass session -> drop default | in"], "changed 2 pass to drop 2 drop to pass 0 other 0"),
]

FAULTS = [
    ("a wrong line", b"maybe\n", NAMES, CAPTURE, "racl: {old}: line 1: `maybe` begins no line: in, out, mac and interface do; see racl check\n", 1),
    ("a wrong line of the other", NAMES, b"maybe\n", CAPTURE, "racl: {new}: line 1: `maybe` begins no line: in, out, mac and interface do; see racl check\n", 1),
    ("a wrong line of each", b"maybe\n", b"\nmaybe\n", CAPTURE, "racl: {old}: line 1: `maybe` begins no line: in, out, mac and interface do; see racl check\n", 1),
    ("a wrong line of the other, and no capture", NAMES, b"\nmaybe\n", b"", "racl: {new}: line 2: `maybe` begins no line: in, out, mac and interface do; see racl check\n", 1),
    ("no capture", NAMES, NAMES, b"", "racl: capture header is short\n", 1),
]

# Sources and traffic of rules as they may be written, each with what it matches: of addresses as numbers; and of a protocol and
# its fields, which are ports and flags of TCP, ports of UDP, type and code of ICMP, or none, as of a later fragment.
SOURCES = {**{it: (0, 2 ** 32) for it in ("any", "0.0.0.0/0", "10.9.9.9/0")}, **{it: (10 << 24, 256) for it in ("10.0.0.0/24", "10.0.0.77/24")},
           "10.0.0.0/25": (10 << 24, 128), **{it: (10 << 24 | 1, 1) for it in ("10.0.0.1", "10.0.0.1/32")}}


def of(protocol, is_so=lambda *fields: True):
    return lambda number, fields: number == protocol and (not fields or is_so(*fields))


TRAFFIC = {**{it: lambda number, fields: True for it in ("", "any")}, **{it: of(6) for it in ("tcp", "6", "tcp sport 0-65535", "tcp flags 00/00")},
           **{it: of(6, lambda one, other, flags: other == 53) for it in ("tcp dport 53", "6 dport 53-53")},
           **{it: of(6, lambda *fields: False) for it in ("tcp flags 01/00", "tcp flags 02/10", "tcp sport 5 flags 01/00")},
           "tcp flags 02/12": of(6, lambda one, other, flags: flags & 0x12 == 2), "tcp flags 12/12": of(6, lambda one, other, flags: flags & 0x12 == 0x12),
           **{it: of(17) for it in ("udp", "17 dport 0-65535")}, "udp dport 53": of(17, lambda one, other: other == 53),
           "udp sport 53": of(17, lambda one, other: one == 53), **{it: of(1) for it in ("icmp", "icmp type 0-255", "1 code 0-255", "icmp type 0-255 code 0-255")},
           **{it: of(1, lambda kind, code: kind == 8) for it in ("icmp type 8", "icmp type 8-8 code 0-255")},
           "icmp type 8 code 0": of(1, lambda kind, code: (kind, code) == (8, 0)), "icmp type 0-254": of(1, lambda kind, code: kind < 255), "47": of(47)}


def packets():
    """Packets at both sides of each end of these rules: the source, the protocol and the fields, and a record."""
    for source in ("10.0.0.1", "10.0.0.2", "10.0.0.128", "10.0.1.0", "192.0.2.1"):
        fields = [(6, (one, other, flags)) for one in (5, 53) for other in (53, 54) for flags in (0, 1, 2, 0x12)]
        fields += [(17, (one, other)) for one in (53, 54) for other in (53, 54)] + [(1, (kind, code)) for kind in (8, 9, 255) for code in (0, 1)]
        for number, its in fields + [(it, ()) for it in (1, 6, 17, 47)]:
            yield int(ipaddress.ip_address(source)), number, its, record(100, frame(source, number, its))


def frame(source, protocol, fields):
    """An Ethernet frame with an IPv4 packet; one without fields is a later fragment."""
    payload = struct.pack(">HHIIBBHHH", *fields[:2], 0, 0, 0x50, fields[2], 0, 0, 0) if len(fields) == 3 else struct.pack(
        ">BBHI" if protocol == 1 else ">HHHH", *fields, *((0, 0) if protocol == 1 else (8, 0))) if fields else bytes(8)
    head = struct.pack(">BBHHHBBH", 0x45, 0, 20 + len(payload), 0, 0 if fields else 1, 64, protocol, 0)
    return b"\x02\0\0\0\0\x01\x02\0\0\0\0\x02\x08\0" + head + ipaddress.ip_address(source).packed + bytes((192, 0, 2, 9)) + payload


def lines_of(changes):
    """The lines of these, with the words of their packets."""
    told = [it.rpartition(" ") for it in changes]
    return "".join(f"{front} {PACKETS[front.split()[0]].format(way)}\n" for front, _, way in told)


def want(changes, totals):
    """How a comparison of the two packets ends that has these changes."""
    return wanted(f"{lines_of(changes)}packets 2 {totals}\n".encode(), "", 5 if changes else 0)


def changes_between(old, new):
    """The changed packets of two reports, whose policies have no rule in common, as the new one explains them."""
    lines = [re.findall(rb"^(\d+) (.*?) \| (interface .*?)(?: \| line .*)?$", it, re.M) for it in (old, new)]
    return [(int(number), before, after, packet) for (number, before, _), (_, after, packet) in zip(*lines) if before != after or b"rule" in before]


class Diff(Case):
    def run_on(self, old, new, capture):
        self.old, self.new = self.hold("old", old), self.hold("new", new)
        return self.program.run(["diff", self.old, self.new, "-"], capture)

    @each(CHANGES)
    def changes(self, new, lines, totals):
        self.compare(self.run_on(NAMES, new, CAPTURE), want(lines, totals))

    def test_rules_that_match_the_same(self):
        """Rules are the same where they match the same packets, as these packets show, whatever their words are."""
        held, chance = list(packets()), random.Random(3)
        capture = header() + b"".join(it[3] for it in held)
        rules = [(source, traffic) for source in SOURCES for traffic in TRAFFIC]
        pairs = [(("any", one), ("10.9.9.9/0", other)) for one in TRAFFIC for other in TRAFFIC if chance.random() < .25]
        pairs += [tuple(chance.sample(rules, 2)) for _ in range(60)]
        for pair in pairs:
            found = [[SOURCES[source][0] <= at < sum(SOURCES[source]) and TRAFFIC[traffic](number, fields) for at, number, fields, _ in held]
                     for source, traffic in pair]
            changed = sum(a != b for a, b in zip(*found)) or 0
            if changed:
                changed = sum(a or b for a, b in zip(*found))
            got = self.run_on(*(f"in permit ipv4 {source} any {traffic}\n".encode() for source, traffic in pair), capture)
            self.compare({"changed": re.search(rb"changed (\d+)", got["stdout"])[1]}, {"changed": str(changed).encode()}, *map(str, pair))

    def test_ageing(self):
        """Sessions that have ended stay, as they do in a run on the capture, unless it is asked that they go. Times fall here."""
        others = b"".join(udp(2000 + 8 * it, True, (3, 7), (4, 9)) for it in range(64))
        capture = header() + udp(1000, True, (1, 1000), (2, 53)) + others + udp(1100, False, (2, 53), (1, 1000))
        new = NAMES + b"in permit ipv4 10.0.0.2 any udp\n"
        self.compare(self.run_on(NAMES, new, capture), wanted(b"packets 66 changed 0 pass to drop 0 drop to pass 0 other 0\n", "", 0))
        told = self.program.run(["diff", "--age", self.old, self.new, "-"], capture)
        self.compare({"status": told["status"], "totals": told["stdout"].splitlines()[-1:]},
                     {"status": 5, "totals": [b"packets 66 changed 1 pass to drop 0 drop to pass 1 other 0"]}, "sessions that have ended go")

    def test_the_other_way(self):
        """A new rule lets a request pass, and its session the answer."""
        told = want(["1 drop default -> pass rule 1 reflect | out", "2 drop default -> pass session | in"], "changed 2 pass to drop 0 drop to pass 2 other 0")
        self.compare(self.run_on(OWN + b"out deny ipv4 any any tcp\n", NAMES, CAPTURE), told)

    def test_cut_off(self):
        self.compare(self.run_on(NAMES, NAMES, CAPTURE[:-1]),
                     wanted(b"truncated after 1\npackets 1 changed 0 pass to drop 0 drop to pass 0 other 0\n", "", 3), "none is changed")
        told = f"{lines_of(['1 pass rule 1 reflect -> drop default | out'])}truncated after 1\npackets 1 changed 1 pass to drop 1 drop to pass 0 other 0\n".encode()
        self.compare(self.run_on(NAMES, OWN + b"out deny ipv4 any any tcp\n", CAPTURE[:-1]), wanted(told, "", 5), "one is changed")

    def test_long_record(self):
        """The lines of the packets before it stand."""
        got = self.run_on(NAMES, OWN + b"out deny ipv4 any any tcp\n", header() + udp(100, True, (1, 1000), (2, 53)) + record(1, b"", MOST_KEPT + 1))
        self.compare(got, wanted(lines_of(["1 pass rule 1 reflect -> drop default | out"]).encode(), f"racl: record 2 is too long\n{PUT_TOGETHER}", 1))

    def test_many_reads(self):
        """The changes are those between the reports of two runs, over more packets than a read has."""
        capture = header() + b"".join(request_and_answer(105) + udp(106, True, (n, 7), (n + 1, 53)) for n in range(3000))
        new = OWN + b"out permit ipv4 10.0.0.0/28 any udp\nin permit ipv4 any any udp dport 1000\n"
        reports = [self.program.run(["--live", "--explain", self.hold(name, text), "-"], capture)["stdout"] for name, text in (("one", NAMES), ("two", new))]
        got = self.run_on(NAMES, new, capture)
        told = [(int(number), *both) for number, *both in re.findall(rb"^(\d+) (.*) -> (.*) \| (interface .*)$", got["stdout"], re.M)]
        self.compare({"changes": told, "status": got["status"]}, {"changes": changes_between(*reports), "status": 5})

    @each(FAULTS)
    def faults(self, old, new, capture, said, status):
        got = self.run_on(old, new, capture)
        self.compare(got, wanted(b"", said.format(old=self.old, new=self.new), status))

    @each((it[0], *it[1:]) for it in OTHERS)
    def other_files(self, front, fault, said):
        """A file that is no capture is told for what it is."""
        second = f"racl: - is {said}\n" if said else ""
        self.compare(self.run_on(NAMES, NAMES, front), wanted(b"", f"racl: {fault}\n{second}", 1))

    def test_words(self):
        for words, status in ((["diff"], 2), (["diff", "-", "-", "-"], 2), (["diff", "/nowhere", "-", "/dev/null"], 4), (["diff", "--help"], 0)):
            self.compare({"status": self.program.run(words, b"")["status"]}, {"status": status}, " ".join(words))
