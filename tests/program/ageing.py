"""Runs that remove sessions which have ended: slow captures of both families, packets that are late, and what is said where pages
are out."""
import re

from support.captures import report_of
from support.cases import Case, each, wanted
from support.slow_captures import POLICY, bucket_of, capture_of, listing_of, slow, slow_packets, verdicts_on

RATES = 0.1, 1, 5
AGEING = ["--age"], ["--age", "--workers", "4"], ["--age", "--tables", "large"], ["--live"], ["--live", "--age", "--workers", "4"]

FLOWS = 500


def looks(moment, flow, count):
    """Packets of a flow, of which each looks at a part of all buckets, one in 64."""
    return [(moment + 8 * it, True, 4, flow) for it in range(count)]


# Flows, of which some stand in buckets that are looked at when they have ended, and answers of them that come late. What ended less
# than a minute before is kept.
SOON = [*((1000, True, 4, it) for it in range(FLOWS)), *looks(1608, FLOWS, 7), *((1590, False, 4, it) for it in range(FLOWS))]

# A flow, another one while all buckets are looked at, and an answer of the first that comes late.
LATE = [(1000, True, 4, 0), *looks(1675, 1, 64), (1585, False, 4, 0)]
FORGOTTEN = ["pass rule 1 reflect"] * 2 + ["pass session"] * 63 + ["drop default"]

# What is told of hits, and of the session that is left, where the late answer finds none.
TOLD = b"""interface 0 out rule 1 line 2 packets 2 | out permit+reflect ipv4 any any udp
interface 0 out rule 2 line 3 packets 0 | out permit+reflect ipv6 any any udp
session packets 63
default packets 1
full packets 0
worn packets 0
no-pages packets 0
not-ip packets 0
malformed packets 0
short packets 0
sessions entered 2
sessions matched 63
sessions expired 1
session interface 0 udp 10.0.0.1 port 1025 and 10.0.0.2 port 53 last 2179 until 2779
"""


def refused_in(report):
    return report.count(b" drop no-pages\n")


class Ageing(Case):
    def files_of(self, capture):
        return [self.hold("policy", POLICY), self.hold("capture", capture)]

    @each((f"{it} packets a second", it) for it in RATES)
    def slow_captures(self, a_second):
        capture, verdicts = slow(a_second)
        files, want = self.files_of(capture), wanted(report_of(verdicts))
        for words in AGEING:
            self.compare(self.program.run([*words, *files]), want, *words)
        self.compare(self.program.run(["--age"], POLICY + b"pcap\n" + capture), want, "standard input")

    @each((f"no ageing at {it} packets a second", it) for it in RATES)
    def without_ageing(self, a_second):
        """A run that doesn't age runs out of pages. Of files it is said how often, and what helps."""
        capture, verdicts = slow(a_second)
        files = self.files_of(capture)
        for number in ("1", "4"):
            whole = self.program.run(["--workers", number], POLICY + b"pcap\n" + capture)
            count = refused_in(whole["stdout"])
            said = (f"racl: packets dropped as no-pages: {count}; "
                    "--age removes sessions that have ended, --tables large has room for more\n")
            self.compare({"some": count > 1000, **whole}, {"some": True, "stderr": b"", "status": 0}, f"{number} workers")
            if number == "1":
                self.compare(self.program.run(files), wanted(whole["stdout"], said), "files")
                self.compare(self.program.run(["--summary", "--interface", f"0={files[1]}", files[0]]), {"stderr": said.encode()}, "interface")
        self.compare(self.program.run(["--tables", "large", *files]), wanted(report_of(verdicts)), "large tables")

    @each((f"an answer that is late by {'a minute at most' if it is SOON else 'more than a minute'}", it) for it in (SOON, LATE))
    def late(self, packets):
        files = self.files_of(capture_of(packets))
        kept = verdicts_on(packets)
        aged = kept if packets is SOON else FORGOTTEN
        self.compare({"kept": kept[-1]}, {"kept": "pass session"}, "the filter that forgets nothing")
        self.compare(self.program.run(files), wanted(report_of(kept)), "no ageing")
        for words in ["--age"], ["--live"], ["--live", "--age"]:
            self.compare(self.program.run([*words, *files]), wanted(report_of(aged)), *words)

    def test_one_listing(self):
        """For each number of workers and each way to age, the sessions are listed that are live at the latest second, and hits count by it."""
        packets = [*slow_packets(5)[:80_000], (1_016_400, True, 4, 1)]
        files = self.files_of(capture_of(packets))
        listing, entered = listing_of(packets), sum("reflect" in it for it in verdicts_on(packets))
        expired = entered - listing.count(b"\n")
        counts = f"sessions entered {entered}\nsessions matched {sum('session' in it for it in verdicts_on(packets))}\nsessions expired {expired}\n"
        self.compare({"some": 100 < listing.count(b"\n") < 5000 < expired}, {"some": True})
        for ages in ["--age"], ["--live"]:
            for workers in "1", "2", "4", "16":
                words = [*ages, "--workers", workers, "--summary", "--sessions"]
                report = self.program.run([*words, *files])["stdout"]
                self.compare({"listing": report.partition(b"\n")[2]}, {"listing": listing}, *words)
            report = self.program.run([*ages, "--workers", "4", "--summary", "--hits", "--sessions", *files])["stdout"]
            self.compare({"behind": report.endswith(counts.encode() + listing)}, {"behind": True}, *ages, "with hits")
        aged = [self.program.run(["--age", "--shard", f"{it}/3", "--summary", "--sessions", *files])["stdout"].partition(b"until 1016400\n")[2] for it in (1, 2, 3)]
        self.compare({"listing": sorted(line for it in aged for line in it.splitlines())}, {"listing": sorted(listing.splitlines())}, "shards")

    def test_few(self):
        """Two flows that end, and a third: whoever judges the first ones' buckets later, or nobody does, the third alone is listed."""
        for number in range(1, 9):
            packets = [(1000, True, 4, 0), (1000, True, 4, number), (1700, True, 4, 100)]
            files = self.files_of(capture_of(packets))
            for words in ["--age"], ["--live"], ["--live", "--interface", "0=" + files[1]]:
                for workers in "1", "2":
                    given = files if "--interface" not in words else files[:1]
                    report = self.program.run([*words, "--workers", workers, "--summary", "--sessions", *given])["stdout"]
                    self.compare({"listing": report.partition(b"\n")[2]}, {"listing": listing_of(packets)}, number, *words, workers)

    def test_forms(self):
        """Ageing beside what else is asked for."""
        capture = capture_of(LATE)
        policy, file = self.files_of(capture)
        report = report_of(FORGOTTEN)
        dropped, passed = (f"{self.folder}/{it}" for it in ("dropped", "passed"))
        self.compare(self.program.run(["--age"], POLICY + b"hex\n" + capture.hex().encode()), wanted(report), "standard input")
        got = self.program.run(["--age", "--interface", f"0={file}", policy])
        self.compare(got, wanted(re.sub(rb"^(\d+) ", rb"\1 if 0 ", report, flags=re.M)), "interface")
        self.compare(self.program.run(["--age", "--hits", "--sessions", policy, file]), wanted(report + TOLD), "hits and sessions")
        self.compare(self.program.run(["--age", "--summary", policy, file]), wanted(report.splitlines(True)[-1]), "summary")
        got = self.program.run(["--age", "--drops", dropped, "--passes", passed, policy, file])
        self.compare(got, wanted(report), "saved packets")
        with open(dropped, "rb") as saved:
            self.compare({"dropped": saved.read()}, {"dropped": capture_of(LATE[-1:])}, "saved packets")
        got = self.program.run(["--age", "--json", policy, file])
        told = {"dropped": got["stdout"].count(b'"verdict":"drop","reason":"default"'), "status": got["status"]}
        self.compare(told, {"dropped": 1, "status": 0}, "json")
        got = self.program.run(["--age", "--explain", policy, file])
        self.compare({"last": got["stdout"].splitlines()[-2].partition(b" |")[0]}, {"last": b"66 drop default"}, "explained")

    @each((tables, tables, bits) for tables, bits in (("standard", 12), ("large", 16)))
    def long_gap(self, tables, bits):
        """However long nothing came, a packet looks at one part in 64 of the buckets: at the second one, since the first packet looked
        at the first. What ended there is forgotten, and all else is found by its late answer."""
        part = 2 ** bits // 64
        flows = [(1000, True, 4, it) for it in range(3000)]
        gone = {number for _, _, _, number in flows if part <= bucket_of(number, bits) < 2 * part}
        packets = [*flows, (4000, True, 4, 3000), *((1590, False, 4, number) for _, _, _, number in flows)]
        verdicts = verdicts_on(packets)
        for number in gone:
            verdicts[3001 + number] = "drop default"
        self.assertGreater(len(gone), 10)
        self.compare(self.program.run(["--age", "--tables", tables, *self.files_of(capture_of(packets))]), wanted(report_of(verdicts)))
