"""What `--expect` tells: which verdicts aren't those that a file expects."""
from support.captures import CAPTURE, NAMES, OTHERS, header, request_and_answer, udp
from support.cases import Case, each, wanted

# A request (rule 1 lets it through, and enters a session), its answer (of that session), and a request of a stranger.
THREE = CAPTURE + udp(106, False, (9, 9), (1, 7))

# What is expected of these, and the lines on what isn't so.
EXPECTED = [
    ("all verdicts", "1 pass rule 1 reflect\n2 pass session\n3 drop default\n", [], 3),
    ("only what becomes of them", "1-2 pass\n3 drop\n", [], 2),
    ("fewer words", "1 pass rule\n1 pass rule 1\n", [], 2),
    ("totals", "packets 3\npass 2\ndrop 1\n", [], 3),
    ("comments, blanks and ends of lines", "# three\n\n \t\n 3\tdrop   default # a stranger\r\n2 pass", [], 2),
    ("nothing", "", [], 0),
    ("leading zeros", "0003 drop\npackets 03\n", [], 2),
    ("another effect", "1 drop\n2 pass\n", ["line 1: packet 1: expected drop, was pass rule 1 reflect"], None),
    ("another rule", "1 pass rule 10\n", ["line 1: packet 1: expected pass rule 10, was pass rule 1 reflect"], None),
    ("a rule that doesn't reflect", "1 drop rule 1\n", ["line 1: packet 1: expected drop rule 1, was pass rule 1 reflect"], None),
    ("no rule", "2 pass rule\n", ["line 1: packet 2: expected pass rule, was pass session"], None),
    ("another reason", "\n3 drop malformed\n", ["line 2: packet 3: expected drop malformed, was drop default"], None),
    ("some of several", "1-3 pass\n", ["line 1: packet 3: expected pass, was drop default"], None),
    ("one packet twice", "2 drop\n2 drop full\n",
     ["line 1: packet 2: expected drop, was pass session", "line 2: packet 2: expected drop full, was pass session"], None),
    ("packets that aren't there", "3-5 drop\n4 pass\n1000000000000 drop worn\n",
     ["line 1: packet 5: expected drop, was not in the capture", "line 2: packet 4: expected pass, was not in the capture",
      "line 3: packet 1000000000000: expected drop worn, was not in the capture"], None),
    ("other totals", "packets 30\npass 0\ndrop 1\n", ["line 1: packets: expected 30, was 3", "line 2: pass: expected 0, was 2"], None),
]

FIRST = "it begins with the number of a packet as 7, with numbers as 9-12, or with packets, pass or drop"
WORDS = "behind its numbers stand no words of a verdict, as pass, drop default or pass rule 3"
COUNT = "behind its total stands no number alone"

# Files with a wrong line: its number, and why it is wrong.
WRONG = [
    *((text, 1, FIRST) for text in ("seven drop\n", "0 drop\n", "3-2 drop\n", "1- drop\n", "-1 drop\n", "1-2-3 drop\n", "+1 drop\n",
                                    "1000000000000000000 drop\n", "Drop 1\n", "session 1\n")),
    *((text, 1, WORDS) for text in ("7\n", "7 deny\n", "7 pass default\n", "7 drop session\n", "7 pass rule one\n", "7 drop rule 1 reflect\n",
                                    "7 pass rule 1 reflects\n", "7 pass rule 1 reflect more\n", "7 pass session more\n", "7 pass rule 65536\n")),
    *((text, 1, COUNT) for text in ("packets\n", "pass 1 2\n", "drop rule 2\n", "packets -1\n")),
    ("1 pass\n# two\n3 dorp\n4 dorp\n", 3, WORDS),
]

FAULTS = [
    ("a wrong policy", b"maybe\n", CAPTURE, None, 1),
    ("no capture", NAMES, b"", "racl: capture header is short\n", 1),
]

# Words that don't go together with it.
APART = [["--live"], ["--workers=2"], ["--explain"], ["--json"], ["--only=drop"], ["--summary"], ["--hits"], ["--sessions"],
         ["--drops=saved"], ["--passes=saved"]]


class Expect(Case):
    def run_on(self, expected, capture, *words, policy=NAMES):
        self.expected = self.hold("expected", expected.encode() if isinstance(expected, str) else expected)
        return self.program.run(["--expect", self.expected, *words, self.hold("policy", policy), "-"], capture)

    @each(EXPECTED)
    def expectations(self, expected, lines, met):
        told = "".join(f"{it}\n" for it in lines) if lines else f"met {met}\n"
        self.compare(self.run_on(expected, THREE), wanted(told.encode(), "", 5 if lines else 0))

    @each((repr(text), text, number, why) for text, number, why in WRONG)
    def wrong_lines(self, text, number, why):
        got = self.run_on(text, THREE)
        self.compare(got, wanted(b"", f"racl: line {number} of the expectations is wrong: {why}\nracl: that is {self.expected}\n", 1))

    def test_not_utf8(self):
        got = self.run_on(b"1 pass # \xff\n", THREE)
        self.compare(got, wanted(b"", f"racl: expectations are not UTF-8\nracl: that is {self.expected}\n", 1))

    @each(FAULTS)
    def faults(self, policy, capture, said, status):
        self.compare(self.run_on("1 pass\n", capture, policy=policy), wanted(b"", said, status))

    @each((" ".join(words), words) for words in APART)
    def apart(self, words):
        self.compare(self.run_on("1 pass\n", THREE, *words), wanted(b"", None, 2))

    def test_one_stream(self):
        self.compare(self.program.run(["--expect", "-", self.hold("policy", NAMES), "-"], CAPTURE), wanted(b"", None, 2))
        got = self.program.run(["--expect", "-", self.hold("policy", NAMES), self.hold("capture", THREE)], b"3 drop\n")
        self.compare(got, wanted(b"met 1\n"), "the expectations from standard input")
        self.compare(self.program.run(["--expect", self.hold("expected", b"")]), wanted(b"", None, 2), "no files")

    def test_options(self):
        """An answer after the time of its session; with tables of the other size, and sessions that leave them."""
        capture = header() + request_and_answer(103)
        self.compare(self.run_on("2 drop default\n", capture, "--udp=2", "--tables=large", "--age"), wanted(b"met 1\n"))

    def test_cut_off(self):
        self.compare(self.run_on("1 pass\n", CAPTURE[:-1]), wanted(b"truncated after 1\nmet 1\n", "", 3), "all are met")
        told = b"truncated after 1\nline 1: packet 2: expected pass, was not in the capture\n"
        self.compare(self.run_on("1-2 pass\n", CAPTURE[:-1]), wanted(told, "", 5), "one isn't")

    def test_no_file(self):
        got = self.program.run(["--expect", "/nowhere", self.hold("policy", NAMES), "-"], CAPTURE)
        self.compare(got, wanted(b"", None, 4))

    def test_many_packets(self):
        """Each verdict of a report is met, over more packets than a read has, and by more than one of its lines."""
        capture = header() + b"".join(request_and_answer(105) + udp(106, True, (n, 7), (n + 1, 53)) for n in range(1000))
        report = self.program.run([self.hold("policy", NAMES), "-"], capture)["stdout"].splitlines()
        expected = b"\n".join(report[:-1]) + b"\n"
        self.compare(self.run_on(expected, capture), wanted(b"met 3000\n"))
