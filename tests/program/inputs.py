"""Whole inputs: their reports and faults, lines that no policy has, and a capture that is cut at each byte."""
from support.captures import (CAPTURE, DEFAULTS, EXPIRED, MOST_BYTES, MOST_KEPT, NAMES, REFLECTED, RULES, header, record,
                              report_of, request_and_answer, udp)
from support.cases import WORKERS, Case, each, wanted

# Inputs that get a report: name, words, input, report, status.
REPORTS = [
    ("empty capture", [], b"pcap\n" + header(), b"packets 0 pass 0 drop 0\n", 0),
    ("no policy", [], b"pcap\n" + CAPTURE, DEFAULTS, 0),
    ("bytes", [], NAMES + b"pcap\n" + CAPTURE, REFLECTED, 0),
    ("marker with a carriage return", [], NAMES + b"pcap\r\n" + CAPTURE, REFLECTED, 0),
    ("digits", [], NAMES + b"hex\n" + CAPTURE.hex(" ", 7).encode(), REFLECTED, 0),
    ("capital digits", [], NAMES + b"hex\n" + CAPTURE.hex().upper().encode() + b"\r\n", REFLECTED, 0),
    ("highest byte first", [], NAMES + b"pcap\n" + header(order=">") + request_and_answer(105, ">"), REFLECTED, 0),
    ("nanoseconds", [], NAMES + b"pcap\n" + header(0xA1B23C4D) + request_and_answer(105), REFLECTED, 0),
    ("last second", [], NAMES + b"pcap\n" + header() + request_and_answer(700), REFLECTED, 0),
    ("one second too late", [], NAMES + b"pcap\n" + header() + request_and_answer(701), EXPIRED, 0),
    ("timeout in two words", ["--udp", "5"], NAMES + b"pcap\n" + CAPTURE, REFLECTED, 0),
    ("timeout in one word", ["--udp=4"], NAMES + b"pcap\n" + CAPTURE, EXPIRED, 0),
    ("16 workers", ["--workers", "16"], NAMES + b"pcap\n" + CAPTURE, REFLECTED, 0),
    ("standard tables", ["--tables", "standard"], NAMES + b"pcap\n" + CAPTURE, REFLECTED, 0),
    ("large tables", ["--tables=large"], NAMES + b"hex 0\n" + CAPTURE.hex().encode(),
     b"1 if 0 pass rule 1 reflect\n2 if 0 pass session\npackets 2 pass 2 drop 0\n", 0),
    ("cut in a frame", [], NAMES + b"pcap\n" + CAPTURE[:-1],
     b"1 pass rule 1 reflect\ntruncated after 1\npackets 1 pass 1 drop 0\n", 3),
    ("cut in a record's header", [], b"pcap\n" + header() + bytes(15),
     b"truncated after 0\npackets 0 pass 0 drop 0\n", 3),
    ("longest record, cut", [], b"pcap\n" + header() + record(1, b"", MOST_KEPT),
     b"truncated after 0\npackets 0 pass 0 drop 0\n", 3),
]

# Inputs with a fault: name, input, the fault's text. Nothing is written, and the status is 1.
FAULTS = [
    ("a byte too many", b" " * (MOST_BYTES + 1), "input over 67108864 bytes"),
    ("as many bytes as may be", b" " * MOST_BYTES, "no pcap or hex line"),
    ("no input", b"", "no pcap or hex line"),
    ("marker with a space", b"pcap \n" + CAPTURE, "no pcap or hex line"),
    ("byte 255", b"\xff\npcap\n" + CAPTURE, "policy is not UTF-8"),
    ("unknown action", NAMES + b"out allow ipv4 any any\npcap\n" + CAPTURE, "policy line 3 is wrong"),
    ("second own address", NAMES + NAMES + b"pcap\n" + CAPTURE, "policy line 3 is wrong"),
    ("4097 rules", b"#\n" + RULES * 4097 + b"pcap\n" + CAPTURE, "policy line 4098 is one rule too many"),
    ("odd number of digits", b"hex\n" + CAPTURE.hex().encode()[:-1], "bad hexadecimal"),
    ("no digit", b"hex\n0g\n", "bad hexadecimal"),
    ("policy before digits", b"in\nhex\n0g\n", "policy line 1 is wrong"),
    ("23 bytes", b"pcap\n" + header()[:-1], "capture header is short"),
    ("marker at the end", NAMES + b"pcap", "capture header is short"),
    ("other magic number", b"pcap\n" + header(0x0A0D0D0A), "not a pcap capture"),
    ("version 1", b"pcap\n" + header(major=1), "capture version is not 2"),
    ("link type 101", b"pcap\n" + header(link=101), "capture is not Ethernet"),
    ("long second record", b"pcap\n" + CAPTURE[:24 + 58] + record(1, b"", MOST_KEPT + 1), "record 2 is too long"),
]

# Lines as other tools have them, each refused as line 1 (docs/POLICIES.md says what to write instead).
WRONG_LINES = [
    "in allow ipv4 any any", "in accept ipv4 any any", "in drop ipv4 any any", "in reject ipv4 any any",
    "permit in ipv4 any any", "In permit ipv4 any any", "default deny", "in permit ip any any",
    "in permit inet any any", "in permit ipv4 any", "in permit ipv4 any any port 80",
    "in permit ipv4 any any tcp port 80", "in permit ipv4 any any tcp dport 80,443",
    "in permit ipv4 any any tcp dport 80:90", "in permit ipv4 any any tcp dport http",
    "in permit ipv4 any any tcp dport != 80", "in permit ipv4 any any tcp dport 22 sport 5",
    "in permit ipv4 any any sport 5", "in permit ipv4 any any tcp flags syn",
    "in permit ipv4 any any tcp flags 2/12", "in permit ipv4 any any tcp flags 0x02/0x12",
    "in permit ipv4 10/8 any", "in permit ipv4 10.0.0.0 255.0.0.0 any any", "in permit ipv4 10.0.0.1-10.0.0.6 any",
    "in permit ipv4 host 10.0.0.1 any", "in deny ipv4 !10.0.0.1 any", "in permit ipv6 any any icmpv6",
    "in permit ipv6 ::ffff:10.0.0.1 any", "in permit ipv4 any any icmp type echo-request",
    "in permit ipv4 any any esp", "in permit ipv4 any any vlan 7", "mac 02-00-00-00-00-01", "mac 2:0:0:0:0:1",
]


class Inputs(Case):
    @each(REPORTS)
    def reports(self, words, data, report, status):
        self.compare(self.program.run(words, data), wanted(report, status=status))

    @each(FAULTS)
    def faults(self, data, text):
        self.compare(self.program.run([], data), wanted(stderr=f"racl: {text}\n", status=1))

    @each((f"line {it}", it) for it in WRONG_LINES)
    def wrong_lines(self, line):
        got = self.program.run([], f"{line}\nhex\n".encode())
        self.compare(got, wanted(stderr="racl: policy line 1 is wrong\n", status=1))

    def test_cut_capture(self):
        """A request, its answer and one that nobody asked for, cut at each byte: the records end at 82, 140 and 198."""
        capture = CAPTURE + udp(106, False, (3, 53), (1, 1000))
        verdicts = ["pass rule 1 reflect", "pass session", "drop default"]
        for count in range(len(capture) + 1):
            want = wanted(stderr="racl: capture header is short\n", status=1)
            if count >= 24:
                packets, is_cut = (count - 24) // 58, count not in (24, 82, 140, 198)
                report = report_of(verdicts[:packets])
                if is_cut:
                    report = report.replace(b"packets", f"truncated after {packets}\npackets".encode())
                want = wanted(report, status=3 if is_cut else 0)
            for number in WORKERS:
                got = self.program.run(["--workers", number], NAMES + b"pcap\n" + capture[:count])
                self.compare(got, want, f"the first {count} bytes", f"{number} workers")
