"""Verdicts that are written as packets come."""
import importlib.util
import os
import shutil
import subprocess
import threading
import time

from support.captures import (CAPTURE, DEFAULTS, MOST_BYTES, MOST_KEPT, NAMES, OTHERS, PUT_TOGETHER, RULES, header, parts_of, record,
                              report_of, udp)
from support.cases import SECONDS, TOP, Case, bytes_of_file, each, wanted
from support.large_inputs import LARGE, flows_that_end

EXAMPLE = importlib.util.spec_from_file_location("live_example", f"{TOP}/examples/python/live.py")

# Words that ask for each form of lines, and for those of some packets.
FORMS = (["--explain"], ["--json"], ["--only", "pass"], ["--only", "drop", "--explain"], ["--json", "--only=drop"], ["--summary"], ["--summary", "--json"], ["--hits"],
         ["--sessions", "--json"], ["--hits", "--sessions", "--explain", "--only=drop"], ["--hits", "--sessions", "--summary", "--json"])

ONE, TWO = udp(100, True, (1, 1000), (2, 53)), udp(105, False, (2, 53), (1, 1000))


def told_piece_by_piece(program, words, pieces, look=lambda: None):
    """What the program has written after each of these pieces of its standard input, behind which a look is taken, and how it ends."""
    ran = subprocess.Popen([program.path, *words], stdin=subprocess.PIPE, stdout=subprocess.PIPE, stderr=subprocess.PIPE)
    got = []
    with ran.stdin, ran.stdout, ran.stderr:
        for piece, lines in pieces:
            ran.stdin.write(piece)
            ran.stdin.flush()
            timer = threading.Timer(SECONDS, ran.kill)
            timer.start()
            got.append(b"".join(ran.stdout.readline() for _ in range(lines)))
            timer.cancel()
            look()
        ran.stdin.close()
        got.append(ran.stdout.read())
        said = ran.stderr.read()
    return {"told": got, "stderr": said, "status": ran.wait()}


class Live(Case):
    def run_on(self, policy, capture):
        """A run on a file of this policy and, from standard input, this capture."""
        self.policy = self.hold("policy", policy)
        return self.program.run(["--live", self.policy, "-"], capture)

    def test_lines_as_packets_come(self):
        live = ["--live", self.hold("policy", NAMES), "-"]
        pieces = [(header()[:7], 0), (header()[7:] + ONE[:20], 0), (ONE[20:] + TWO[:5], 1), (TWO[5:], 1)]
        for last, told, status in ((b"", b"packets 2 pass 2 drop 0\n", 0), (ONE[:16], b"truncated after 2\npackets 2 pass 2 drop 0\n", 3)):
            got = told_piece_by_piece(self.program, live, [*pieces, (last, 0)])
            lines = [b"", b"", b"1 pass rule 1 reflect\n", b"2 pass session\n", b"", told]
            self.compare(got, {"told": lines, "stderr": b"", "status": status}, f"status {status}")

    def test_example_in_python(self):
        example = importlib.util.module_from_spec(EXAMPLE)
        EXAMPLE.loader.exec_module(example)
        packets = [(second, made[16:]) for second, made in ((100, ONE), (105, TWO), (706, TWO))]
        got = list(example.judged(self.hold("policy", NAMES), packets, self.program.path))
        self.compare({"verdicts": got}, {"verdicts": ["pass rule 1 reflect", "pass session", "drop default"]})

    def test_forms(self):
        """What a run on the files writes that ages too."""
        policy = self.hold("policy", NAMES)
        for capture in (header(), CAPTURE + udp(106, False, (3, 53), (1, 1000)), CAPTURE + ONE[:20]):
            held = self.hold("capture", capture)
            for words in FORMS:
                whole = self.program.run(["--age", *words, policy, held])
                for workers in "1", "4", "16":
                    live = ["--live", "--workers", workers, *words, policy]
                    self.compare(self.program.run([*live, held]), whole, workers, *words)
                    self.compare(self.program.run([*live, "-"], capture), whole, workers, *words)

    def test_forms_as_packets_come(self):
        policy, held = self.hold("policy", NAMES), self.hold("capture", CAPTURE)
        for words in FORMS[:3]:
            lines = self.program.run(["--age", *words, policy, held])["stdout"].splitlines(keepends=True)
            got = told_piece_by_piece(self.program, ["--live", *words, policy, "-"], [(header(), 0), (ONE, 1), (TWO, 1)])
            self.compare(got, {"told": [b"", lines[0], lines[1], b"".join(lines[2:])], "stderr": b"", "status": 0}, *words)

    def saved(self, words, pieces, wanted_there=()):
        """What a live run with these words writes and saves of these pieces, and what its folder has behind each of them, as soon as
        that is wanted there, and at its end."""
        folder, there, waited = f"{self.folder}/saved", [], iter(wanted_there)
        os.mkdir(folder)
        words = ["--live", f"--drops={folder}/drops", f"--passes={folder}/passes", *words, self.hold("policy", NAMES), "-"]

        def look():
            last, want = time.monotonic() + SECONDS, next(waited, None)
            while True:
                found = {name: bytes_of_file(f"{folder}/{name}") for name in sorted(os.listdir(folder))}
                if want is None or found == want or time.monotonic() > last:
                    break
                time.sleep(0.01)
            there.append(found)

        got = told_piece_by_piece(self.program, words, pieces, look)
        look()
        shutil.rmtree(folder)
        return got, there

    def test_saved_as_packets_come(self):
        last = udp(106, False, (3, 53), (1, 1000))
        ways = (b"", b""), (b"", ONE), (last, ONE)
        wanted_there = [{"drops.0.part": header() + drops, "passes.0.part": header() + passes} for drops, passes in ways]
        wanted_there.append({"drops": header() + last, "passes": header() + ONE})
        got, there = self.saved([], [(header(), 0), (ONE, 1), (last, 1)], wanted_there)
        self.compare(got, {"told": [b"", b"1 pass rule 1 reflect\n", b"2 drop default\n", b"packets 2 pass 1 drop 1\n"], "stderr": b"", "status": 0})
        self.compare({"there": there}, {"there": wanted_there})

    def test_saved_before_a_fault(self):
        """A capture with a fault, or that is cut, leaves files of the packets before."""
        for end, said, status in ((record(1, b"", MOST_KEPT + 1), f"racl: record 2 is too long\n{PUT_TOGETHER}", 1), (ONE[:20], "", 3)):
            got, there = self.saved(["--summary"], [(header() + ONE + end, 0)])
            self.compare({"stderr": got["stderr"], "status": got["status"]}, {"stderr": said.encode(), "status": status}, f"status {status}")
            self.compare({"there": there[-1]}, {"there": {"drops": header(), "passes": header() + ONE}}, f"status {status}")

    def test_nothing_is_saved_without_a_capture(self):
        got, there = self.saved([], [(ONE[:30], 0)])
        self.compare({"status": got["status"], "there": there[-1]}, {"status": 1, "there": {}})

    def test_saved_as_a_run_on_the_files_saves(self):
        capture = header() + b"".join(udp(100 + at // 50, at % 3 != 0, (1, 1000 + at % 70), (2, 53)) for at in range(5_000))
        policy, held = self.hold("policy", NAMES), self.hold("capture", capture)
        ways = {}
        for way in ["--age"], ["--live"], ["--live", "--workers=4"]:
            drops, passes = f"{self.folder}/drops", f"{self.folder}/passes"
            got = self.program.run([*way, "--drops", drops, "--passes", passes, policy, held])
            ways[" ".join(way)] = {**got, "drops": bytes_of_file(drops), "passes": bytes_of_file(passes)}
        whole = ways.pop("--age")
        self.assertGreater(len(whole["drops"]), 24)
        for way, got in ways.items():
            self.compare(got, whole, way)

    def test_file_that_fails(self):
        """A file that can't be written ends the run, and is named."""
        got = self.program.run(["--live", "--passes", "/dev/full", self.hold("policy", NAMES), "-"], CAPTURE)
        self.compare(got, wanted(stderr="racl: /dev/full: No space left on device (os error 28)\n", status=4))

    def test_what_was_saved_before_a_failure_stays(self):
        capture = header() + udp(100, False, (3, 53), (1, 1000)) * 3_000
        folder = f"{self.folder}/saved"
        os.mkdir(folder)
        words = ["--live", "--summary", "--drops", f"{folder}/drops", self.hold("policy", NAMES), self.hold("capture", capture)]
        got = self.program.run(words, size=100_000)
        there = {name: bytes_of_file(f"{folder}/{name}") for name in os.listdir(folder)}
        self.compare({**got, "there": there}, {**wanted(stderr=f"racl: {folder}/drops: File too large (os error 27)\n", status=4), "there": {"drops.0.part": capture[:100_000]}})

    def test_one_file_twice(self):
        policy, held = self.hold("policy", NAMES), self.hold("capture", CAPTURE)
        got = self.program.run(["--live", "--drops", held, policy, held])
        self.compare(got, wanted(stderr=f"racl: {held}: the same file as {held}, which is read\n", status=2))

    def test_counts_of_many_parts(self):
        """The hits and sessions of a run on the file that ages too, where packets are counted in many parts."""
        count = 5_000
        capture = header() + b"".join(udp(100 + at // 50, True, (1, 1000 + at % 700), (2, 53)) + udp(100 + at // 50, False, (3, 53), (1, 1000 + at % 700))
                                      for at in range(count))
        policy, held, words = self.hold("policy", NAMES), self.hold("capture", capture), ["--hits", "--sessions", "--summary", "--udp", "60"]
        whole = self.program.run(["--age", *words, policy, held])
        self.assertIn(b"\ndefault packets %d\n" % count, whole["stdout"])
        for workers in "1", "4", "16":
            self.compare(self.program.run(["--live", "--workers", workers, *words, policy, "-"], capture), whole, workers)

    @each(LARGE)
    def large(self, made):
        data, verdicts = made()
        first, captures = parts_of(data)
        assert captures[0][0] is None
        got = self.program.run(["--live", self.hold("policy", first), self.hold("capture", captures[0][1])])
        self.compare(got, wanted(report_of(verdicts)))

    def test_reads_that_grow(self):
        """The report of a run on the file that ages too, where reads of a file come to so many packets that threads judge them."""
        policy, held = self.hold("policy", NAMES), self.hold("capture", flows_that_end())
        for words in ["--udp=60"], ["--udp=60", "--only=drop", "--hits"]:
            whole = self.program.run(["--age", *words, policy, held])
            for workers in "1", "4", "16":
                live = ["--live", "--workers", workers, *words, policy]
                self.compare(self.program.run([*live, held]), whole, workers, *words)
                self.compare(self.program.run([*live, "-"], flows_that_end()), whole, workers, *words)

    def test_long_record(self):
        self.compare(self.run_on(NAMES, header() + ONE + record(1, b"", MOST_KEPT + 1)),
                     wanted(b"1 pass rule 1 reflect\n", f"racl: record 2 is too long\n{PUT_TOGETHER}", 1))

    def test_nothing_is_counted_behind_a_fault(self):
        got = self.program.run(["--live", "--hits", "--sessions", self.hold("policy", NAMES), "-"], header() + ONE + record(1, b"", MOST_KEPT + 1))
        self.compare(got, wanted(b"1 pass rule 1 reflect\n", f"racl: record 2 is too long\n{PUT_TOGETHER}", 1))

    def test_no_capture(self):
        self.compare(self.run_on(NAMES, ONE[:30]), wanted(stderr="racl: not a pcap capture\n", status=1))

    def test_pcapng(self):
        _, data, _, said = OTHERS[0]
        self.compare(self.run_on(NAMES, data), wanted(stderr=f"racl: not a pcap capture\nracl: - is {said}\n", status=1))

    def test_out_rules_without_an_own_address(self):
        got = self.run_on(RULES, CAPTURE)
        unlooked = f"racl: {self.policy}: interface 0 has no mac line, so none of its out rules is looked at\n"
        self.compare(got, wanted(DEFAULTS, unlooked))

    def test_frames_of_other_stations(self):
        got = self.run_on(NAMES.replace(b":01", b":09"), CAPTURE)
        foreign = f"racl: {self.policy}: none of the first frames of interface 0 is from or to the address of its mac line\n"
        self.compare(got, wanted(DEFAULTS, foreign))

    def test_long_policy(self):
        got = self.run_on(b" " * (MOST_BYTES + 1), CAPTURE)
        self.compare(got, wanted(stderr="racl: input over 67108864 bytes\n", status=1))

    def test_wrong_policy(self):
        self.compare(self.run_on(b"in deny\n", CAPTURE), wanted(stderr=f"racl: {self.policy}: line 1 ends too early; see racl check\n", status=1))

    def test_many_bytes(self):
        count = 1_250_000
        got = self.run_on(NAMES, header() + ONE * count)
        lines = b"1 pass rule 1 reflect\n" + b"".join(b"%d pass session\n" % it for it in range(2, count + 1))
        self.compare(got, wanted(lines + b"packets %d pass %d drop 0\n" % (count, count)))
