"""Packets in words: the rows of tests/rows whose packets can be written so, and words that write none."""
import re

from support.captures import report_of
from support.cases import Case, each, wanted
from support.row_files import all_rows, policy_of

# The own address of the policies whose rows have frames that go out.
OWN = b"mac 02:00:00:00:00:01\n"

POLICY = OWN + b"out permit+reflect ipv4 10.0.0.1 any udp dport 53\ninterface 1\nin permit ipv4 any any tcp dport 22 flags 02/12\n"

# A packet of a row, and what its protocol's words are.
PACKET = re.compile(r"(\d+ (?:in|out)) (udp|tcp|icmp|fragment) (.*): ((?:pass|drop) .*)")


def words_of(kind, form):
    """A packet's words, of what a row has behind its kind."""
    front, form = form.split(" ", 1) if kind == "fragment" else ("", form)
    source, _, target, *last = form.split()
    if kind in ("udp", "tcp"):
        source, target = (" ".join(it.rsplit(".", 1)) for it in (source, target))
    behind = {"tcp": "flags {}", "icmp": "type {} code {}"}.get(kind, "").format(*(last[0].split(".") if last else []))
    return " ".join(it for it in (kind, front, source, target, behind) if it)


def asked(lines):
    """The words and verdicts of a row's packets; none where one of them has no words."""
    found = [PACKET.fullmatch(it) for it in lines]
    return [(f"{it[1]} {words_of(it[2], it[3])}", it[4]) for it in found] if found and all(found) else None


def rows():
    """Each row whose packets have words: its name, its policy, and them with their verdicts."""
    for row in all_rows():
        policy = policy_of(row.lines.get("policy", []))
        packets = asked(row.packet_lines)
        if packets and OWN in policy and not {"words", "file", "fault", "told"} & set(row.lines):
            yield row.name, policy, packets


# Words that write no packet, and what is told.
WRONG = [
    ("across udp 10.0.0.1 1 10.0.0.2 2", "in or out stands first, or behind a second of 0 to 4294967295"),
    ("4294967296 in udp 10.0.0.1 1 10.0.0.2 2", "in or out stands first, or behind a second of 0 to 4294967295"),
    ("in if 256 udp 10.0.0.1 1 10.0.0.2 2", "behind `if` stands a number of 0 to 255"),
    ("in tcp 10.0.0.1 1 10.0.0.2 2", "tcp ADDRESS PORT ADDRESS PORT flags VV"),
    ("in tcp 10.0.0.1 1 10.0.0.2 2 flags 2", "tcp ADDRESS PORT ADDRESS PORT flags VV"),
    ("in udp 10.0.0.1 1 10.0.0.2 65536", "udp ADDRESS PORT ADDRESS PORT"),
    ("in udp 10.0.0.1 1 2001:db8::1 2", "udp ADDRESS PORT ADDRESS PORT"),
    ("in icmp 10.0.0.1 10.0.0.2 type 8", "icmp ADDRESS ADDRESS type N code N"),
    ("in fragment any 10.0.0.1 10.0.0.2", "fragment PROTO ADDRESS ADDRESS"),
    ("in 17 10.0.0.1 10.0.0.2", "tcp, udp, icmp, fragment, or the number of another protocol, ADDRESS ADDRESS"),
    ("in", "tcp, udp, icmp, fragment, or the number of another protocol, ADDRESS ADDRESS"),
]


# What is expected of three packets, and the lines on what isn't so.
THREE = "out udp 10.0.0.1 1000 10.0.0.2 53", "in udp 10.0.0.2 53 10.0.0.1 1000", "601 in udp 10.0.0.2 53 10.0.0.1 1000"
EXPECTED = [
    ("all verdicts", "1 pass rule 1 reflect\n2 pass session\n3 drop\npass 2\n", ["met 4"]),
    ("nothing", "# nothing\n", ["met 0"]),
    ("others", "1-3 pass\n\n2 drop default\ndrop 0\n",
     ["line 1: packet 3: expected pass, was drop default", "line 3: packet 2: expected drop default, was pass session",
      "line 4: drop: expected 0, was 1"]),
    ("a fourth", "4 drop\n", ["line 1: packet 4: expected drop, was not in the capture"]),
]


class Asked(Case):
    @each((name, policy, packets) for name, policy, packets in rows())
    def rows(self, policy, packets):
        got = self.program.run(["ask", "-", *(words for words, _ in packets)], policy)
        self.compare(got, wanted(report_of([verdict for _, verdict in packets])))

    @each((f"wrong {words}", words, form) for words, form in WRONG)
    def wrong(self, words, form):
        got = self.program.run(["ask", "-", "in udp 10.0.0.1 1 10.0.0.2 2", words], POLICY)
        self.compare(got, wanted(stderr=f"racl: packet 2 is wrong: {form}\n", status=2))

    def test_seconds_and_interfaces(self):
        packets = [("100 out udp 10.0.0.1 1000 10.0.0.2 53", "pass rule 1 reflect"), ("in udp 10.0.0.2 53 10.0.0.1 1000", "pass session"),
                   ("in if 1 udp 10.0.0.2 53 10.0.0.1 1000", "drop default"), ("in if 1 tcp 10.0.0.2 5000 10.0.0.1 22 flags 02", "pass rule 1"),
                   ("701 in udp 10.0.0.2 53 10.0.0.1 1000", "drop default"), ("in 47 10.0.0.2 10.0.0.1", "drop default")]
        got = self.program.run(["ask", "-", *(words for words, _ in packets)], POLICY)
        self.compare(got, wanted(report_of([verdict for _, verdict in packets])))

    def test_explained(self):
        got = self.program.run(["ask", "--explain", "-", "7 in if 1 tcp 10.0.0.2 5000 10.0.0.1 22 flags 02"], POLICY)
        self.compare(got, wanted(
            b"1 pass rule 1 | interface 1 in time 7 tcp 10.0.0.2 port 5000 to 10.0.0.1 port 22 flags 02"
            b" | line 4 in permit ipv4 any any tcp dport 22 flags 02/12\npackets 1 pass 1 drop 0\n"))

    def test_no_way_out(self):
        got = self.program.run(["ask", "-", "out if 1 udp 10.0.0.1 1 10.0.0.2 2"], POLICY)
        self.compare(got, wanted(stderr="racl: packet 1 can't go out: interface 1 has no mac line\n", status=2))

    def test_missing_words(self):
        for words, missing in ((["ask"], "  <POLICY>\n  <PACKET>...\n"), (["ask", "-"], "  <PACKET>...\n"), (["ask", "--explain", "-"], "  <PACKET>...\n")):
            got = self.program.run(words, POLICY)
            said = (f"error: the following required arguments were not provided:\n{missing}\n"
                    "Usage: racl ask [--explain | --expect FILE] POLICY PACKET ..\n\nFor more information, try '--help'.\n")
            self.compare(got, wanted(stderr=said, status=2), *words)

    def test_wrong_policy(self):
        got = self.program.run(["ask", "-", "in udp 10.0.0.1 1 10.0.0.2 2"], b"in\n")
        self.compare(got, wanted(stderr="racl: -: line 1 ends too early; see racl check\n", status=1))

    @each(EXPECTED)
    def expected(self, expected, lines):
        """The lines that `--expect` of a run tells, in their order by packets; the status is 5 where there are any."""
        held = self.hold("expected", expected.encode())
        got = self.program.run(["ask", "--expect", held, "-", *THREE], POLICY)
        ordered = sorted(lines, key=lambda it: (int(re.search(r"packet (\d+)|$", it)[1] or 9), it))
        self.compare(got, wanted("".join(f"{it}\n" for it in ordered).encode(), status=0 if lines[0].startswith("met") else 5))

    def test_wrong_expectations(self):
        held = self.hold("expected", b"1 pass\n2 maybe\n")
        got = self.program.run(["ask", "--expect", held, "-", *THREE], POLICY)
        self.compare(got, wanted(stderr="racl: line 2 of the expectations is wrong: behind its numbers stand no words of a verdict, "
                                 f"as pass, drop default or pass rule 3\nracl: that is {held}\n", status=1))
        missing = f"{held} too"
        got = self.program.run(["ask", "--expect", missing, "-", *THREE], POLICY)
        self.compare(got, wanted(stderr=f"racl: {missing}: No such file or directory (os error 2)\n", status=4))

    def test_wrong_packets_beside_expectations(self):
        held = self.hold("expected", b"1 pass\n")
        got = self.program.run(["ask", "--expect", held, "-", "in udp"], POLICY)
        self.compare(got, wanted(stderr="racl: packet 1 is wrong: udp ADDRESS PORT ADDRESS PORT\n", status=2))
