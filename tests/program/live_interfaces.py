"""Captures of several interfaces whose packets are told as they come."""
import os
import re
import struct
import subprocess
import threading

from support.captures import CAPTURE, MOST_KEPT, NAMES, PUT_TOGETHER, header, record, records_of, udp
from support.cases import SECONDS, TOP, Case, Program, bytes_of_file, each, wanted

SECTIONS = b"interface 1\n" + NAMES + b"interface 2\n" + NAMES
LONG = record(1, b"", MOST_KEPT + 1)
LINE = re.compile(rb"\d+ (if \d+ .*)")
TRUNCATED = re.compile(rb"if (\d+) truncated after \d+")


def at(second, micros, outbound, source, target, order="<"):
    """A record of a UDP packet so many microseconds after the second."""
    made = udp(second, outbound, source, target, order)
    return made[:4] + struct.pack(f"{order}I", micros) + made[8:]


ONE = [at(100, 5, True, (1, 1000), (2, 53)), at(101, 7, False, (2, 53), (1, 1000)), at(101, 9, False, (3, 53), (1, 1000))]
TWO = [at(100, 4, False, (2, 53), (1, 1000), ">"), at(100, 5, True, (1, 1000), (2, 53), ">"), at(101, 8, False, (2, 53), (1, 1000), ">")]
BOTH = (1, header() + b"".join(ONE)), (2, header(order=">") + b"".join(TWO))
MERGED = (b"1 if 2 drop default\n2 if 1 pass rule 1 reflect\n3 if 2 pass rule 1 reflect\n4 if 1 pass session\n5 if 2 pass session\n"
          b"6 if 1 drop default\npackets 6 pass 4 drop 2\n")


def moment_of(made, order):
    return struct.unpack(f"{order}II", made[:8])


class LiveInterfaces(Case):
    def setUp(self):
        super().setUp()
        self.policy = self.hold("policy", SECTIONS)

    def words_of(self, captures):
        return [word for number, data in captures for word in ("--interface", f"{number}={self.hold(str(number), data)}")]

    def live(self, captures, words=(), **more):
        return self.program.run(["--live", *words, *self.words_of(captures), self.policy], **more)

    def merged(self, captures):
        """The report on captures in files: of each one its own verdicts, in the order of their packets' moments, and then what is cut."""
        lines, cuts = [], []
        for place, (number, data) in enumerate(captures):
            told = self.program.run(["--age", *self.words_of([(number, data)]), self.policy])["stdout"].splitlines()
            order = ">" if data[:1] == b"\xa1" else "<"
            moments = [moment_of(it, order) for it in records_of(data)[1]]
            said = [found[1] for found in map(LINE.fullmatch, told) if found]
            assert len(said) == len(moments)
            # (a capture's own packets stay in their order)
            latest = [max(moments[:at + 1]) for at in range(len(moments))]
            lines += [(moment, place, at, it) for at, (moment, it) in enumerate(zip(latest, said))]
            cuts += [it for it in told if TRUNCATED.fullmatch(it)]
        told = [b"%d %s" % (at, it[3]) for at, it in enumerate(sorted(lines), 1)]
        passed = sum(b" pass " in it for it in told)
        return b"\n".join([*told, *cuts, b"packets %d pass %d drop %d\n" % (len(told), passed, len(told) - passed)])

    def test_in_the_order_of_moments(self):
        for workers in "1", "4", "16":
            self.compare(self.live(BOTH, ["--workers", workers]), wanted(MERGED), workers)
        self.compare({"merged": self.merged(BOTH)}, {"merged": MERGED})

    def test_one_interface(self):
        """What a run on the file writes that ages too."""
        for data in BOTH[0][1], BOTH[0][1] + ONE[0][:20], header():
            for words in ([], ["--explain"], ["--json"], ["--only=drop"], ["--only=pass", "--explain"], ["--hits", "--sessions"], ["--json", "--hits", "--sessions", "--summary"]):
                whole = self.program.run(["--age", *words, *self.words_of([(1, data)]), self.policy])
                self.compare(self.live([(1, data)], words), whole, *words)

    def test_forms(self):
        """Each form has the packets in one order."""
        plain = [it.split(b" ", 3)[2:] for it in MERGED.splitlines()[:-1]]
        explained = self.live(BOTH, ["--explain"])["stdout"].splitlines()
        for line, told in zip(explained, MERGED.splitlines()):
            self.compare({"line": line[:len(told)]}, {"line": told})
        self.assertEqual(len(explained), len(plain) + 1)
        for (interface, _), line in zip(plain, explained):
            self.assertIn(b" | interface %s " % interface, line)
        objects = self.live(BOTH, ["--json"])["stdout"].splitlines()
        for number, ((interface, _), line) in enumerate(zip(plain, objects), 1):
            self.assertIn(b'"packet":%d' % number, line)
            self.assertIn(b'"interface":%s,' % interface, line)
        self.compare(self.live(BOTH, ["--only", "drop"]), wanted(b"".join(it + b"\n" for it in MERGED.splitlines() if b" pass rule" not in it and b"session" not in it)))

    def test_cut_captures(self):
        cut = [(number, data + data[24:44]) for number, data in BOTH]
        told = MERGED.replace(b"packets", b"if 1 truncated after 3\nif 2 truncated after 3\npackets")
        self.compare(self.live(cut), wanted(told, status=3))
        # (of equal moments the packet of the file that is named first comes first)
        turned = MERGED.replace(b"2 if 1 pass rule 1 reflect\n3 if 2 pass rule 1 reflect", b"2 if 2 pass rule 1 reflect\n3 if 1 pass rule 1 reflect")
        self.compare(self.live([cut[1], BOTH[0]]), wanted(turned.replace(b"packets", b"if 2 truncated after 3\npackets"), status=3))

    def test_many_packets(self):
        """Files whose packets lie among each other in runs of any length, with more than are handed on at once."""
        captures = []
        for number in (1, 2, 3):
            moments = sorted((100 + it * number // 1000, it * number * 7919 % 1_000_000) for it in range(4000))
            captures.append((number, header() + b"".join(at(*moment, it % 3 != 0, (1, 1000 + it % 50), (2, 53)) for it, moment in enumerate(moments))))
        captures[2] = (3, captures[2][1] + record(50, bytes(100_000)) + ONE[0])
        for workers in "1", "4":
            got = self.live(captures, ["--workers", workers])
            self.compare(got, wanted(self.merged(captures), stderr=None), workers)

    def pipes(self, captures, words=()):
        """A run on pipes for these interfaces: it, and the ends that are written."""
        names = {number: f"{self.folder}/pipe{number}" for number in captures}
        for name in names.values():
            os.mkfifo(name)
        asked = [word for number, name in names.items() for word in ("--interface", f"{number}={name}")]
        ran = subprocess.Popen([self.program.path, "--live", *words, *asked, self.policy], stdin=subprocess.DEVNULL, stdout=subprocess.PIPE, stderr=subprocess.PIPE)
        self.timer = threading.Timer(SECONDS, ran.kill)
        self.timer.start()
        return ran, {number: open(name, "wb", buffering=0) for number, name in names.items()}

    def ended(self, ran):
        told, said = ran.communicate()
        self.timer.cancel()
        return {"stdout": told, "stderr": said, "status": ran.returncode}

    def test_pipes_as_packets_come(self):
        """Each line is there when its packet has come, in whatever order captures give theirs, and however a record is parted."""
        ran, to = self.pipes([1, 2])
        steps = [(2, header(order=">") + TWO[0][:30], None), (1, header() + ONE[0], b"1 if 1 pass rule 1 reflect\n"), (2, TWO[0][30:], b"2 if 2 drop default\n"),
                 (2, TWO[1], b"3 if 2 pass rule 1 reflect\n"), (1, ONE[1], b"4 if 1 pass session\n"), (2, TWO[2], b"5 if 2 pass session\n")]
        for number, piece, line in steps:
            to[number].write(piece)
            if line:
                self.compare({"line": ran.stdout.readline()}, {"line": line})
        to[2].close()
        to[1].write(ONE[2])
        self.compare({"line": ran.stdout.readline()}, {"line": b"6 if 1 drop default\n"})
        to[1].write(ONE[0][:5])
        to[1].close()
        self.compare(self.ended(ran), wanted(b"if 1 truncated after 3\npackets 6 pass 4 drop 2\n", status=3))

    def test_a_pipe_and_a_file(self):
        """A file's packets don't wait for those of a pipe."""
        name = f"{self.folder}/pipe"
        os.mkfifo(name)
        words = ["--live", "--interface", f"1={name}", *self.words_of([BOTH[1]]), self.policy]
        with subprocess.Popen([self.program.path, *words], stdout=subprocess.PIPE) as ran:
            timer = threading.Timer(SECONDS, ran.kill)
            timer.start()
            lines = [ran.stdout.readline() for _ in TWO]
            with open(name, "wb") as to:
                to.write(BOTH[0][1])
            rest = ran.stdout.read()
            timer.cancel()
        self.compare({"lines": lines}, {"lines": [b"1 if 2 drop default\n", b"2 if 2 pass rule 1 reflect\n", b"3 if 2 pass session\n"]})
        self.compare({"rest": rest}, {"rest": b"4 if 1 pass rule 1 reflect\n5 if 1 pass session\n6 if 1 drop default\npackets 6 pass 4 drop 2\n"})

    def test_reads_that_end_behind_a_record(self):
        """What a read gives may end where a record does."""
        made = [record(100 + it, bytes(136)) for it in range(432)]
        told = b"".join(b"%d if 1 pass not-ip\n" % it for it in range(1, 433)) + b"packets 432 pass 432 drop 0\n"
        self.assertEqual(len(header() + b"".join(made[:431])), 65536)
        self.compare(self.live([(1, header() + b"".join(made))]), wanted(told))

    def test_short_reads(self):
        """Reads give few bytes at a time, and are interrupted."""
        for most in ("7", "100"):
            self.compare(self.live(BOTH, env={**self.interrupting(), "MOST_READ": most}), wanted(MERGED), most)

    def test_failed_reads(self):
        """A read of a file or a FIFO that fails is told, behind lines of what came, with the capture that it is of."""
        name = f"{self.folder}/frames"
        for fails, captures in (("1", BOTH), ("2", BOTH), ("1", BOTH[:1]), ("2", BOTH[:1])):
            for is_pipe in (False, True):
                words, path = self.words_of(captures), f"{self.folder}/1"
                if is_pipe:
                    os.mkfifo(name)
                    words[1], path = f"1={name}", name
                    feeder = subprocess.Popen(["sh", "-c", 'cat "$1" >"$2"', "sh", f"{self.folder}/1", name], stderr=subprocess.DEVNULL)
                # (the launcher reads a FIFO in the program's place)
                program = Program(f"{TOP}/crates/racl/out/racl") if bytes_of_file(self.program.path)[:2] == b"#!" else self.program
                got = program.run(["--live", *words, self.policy], env={**self.interrupting(), "FAILED_FILE": path, "FAILED_READ": fails})
                if is_pipe:
                    feeder.kill()
                    feeder.wait()
                    os.remove(name)
                of = ", the capture of interface 1" if len(captures) > 1 else ""
                self.compare(got, wanted(got["stdout"], f"racl: read failed\nracl: that is {path}{of}\n", 4), fails, len(captures), is_pipe)
                self.assertNotIn(b"packets", got["stdout"])
                if len(captures) == 1:
                    self.compare({"lines": got["stdout"].count(b"\n")}, {"lines": 0 if fails == "1" else len(ONE)})

    def test_no_pages(self):
        """A live run, which ages, isn't told to age."""
        flows = [at(100, it, True, (1, it), (2, 53)) for it in range(40_000)]
        got = self.live([(1, header() + b"".join(flows))], ["--summary"])
        said = re.sub(rb"no-pages: \d+;", b"no-pages: N;", got["stderr"])
        self.compare({"said": said, "status": got["status"]}, {"said": b"racl: packets dropped as no-pages: N; --tables large has room for more sessions\n", "status": 0})

    def test_a_folder(self):
        got = self.program.run(["--live", *self.words_of(BOTH[:1]), "--interface", f"2={self.folder}", self.policy])
        self.compare({"status": got["status"], "said": f"racl: {self.folder}: Is a directory (os error 21)\n" in got["stderr"].decode()}, {"status": 4, "said": True})

    def test_remarks(self):
        """What is unlikely to be meant is told of each interface."""
        policy = self.hold("policy", b"interface 1\n" + NAMES + b"interface 2\nin permit ipv4 any any\nout deny ipv4 any any\n")
        got = self.program.run(["--live", "--summary", *self.words_of([*BOTH, (9, header())]), policy])
        said = (f"racl: {policy}: interface 2 has no mac line, so none of its out rules is looked at\n"
                f"racl: {policy}: interface 9 has no rule, so each of its packets of IP is dropped\n")
        self.compare(got, wanted(got["stdout"], said))

    def test_standard_input(self):
        words = ["--live", "--interface", "1=-", self.policy]
        self.compare(self.program.run(words, BOTH[0][1]),
                     wanted(b"1 if 1 pass rule 1 reflect\n2 if 1 pass session\n3 if 1 drop default\npackets 3 pass 2 drop 1\n"))

    @each([("no capture", CAPTURE[:10], "capture header is short"), ("no header", b"", "capture header is short"), ("another kind", b"\x0a\x0d\x0d\x0a" + bytes(24), "not a pcap capture"),
           ("another link", header(link=101), "capture is not Ethernet"), ("a long record", header() + ONE[0] + LONG, "record 2 is too long")])
    def faults(self, data, said):
        """A capture with a fault ends the run, behind the lines of the packets that came before, and is named."""
        got = self.live([(2, data), (1, header())])
        told = {**wanted(None, None, 1), "stdout": got["stdout"]}
        self.compare(got, told)
        self.assertTrue(got["stderr"].startswith(f"racl: {said}\nracl: that is {self.folder}/2, the capture of interface 2\n".encode()), got["stderr"])
        step = b"racl: a capture that is read is made by: tcpdump -i NAME -y EN10MB -w OUT\n"
        self.assertEqual(got["stderr"].endswith(step), said.endswith("Ethernet"), got["stderr"])
        self.assertNotIn(b"packets", got["stdout"])

    def test_long_record_behind_others(self):
        got = self.live([(1, header() + ONE[0] + LONG)])
        self.compare(got, wanted(b"1 if 1 pass rule 1 reflect\n", f"racl: record 2 is too long\nracl: that is {self.folder}/1\n{PUT_TOGETHER}", 1))

    def test_missing_files(self):
        words, missing = self.words_of(BOTH), f"{self.folder}/missing"
        told = wanted(stderr=f"racl: {missing}: No such file or directory (os error 2)\n", status=4)
        self.compare(self.program.run(["--live", *words, missing]), told, "policy")
        self.compare(self.program.run(["--live", *words, "--interface", f"3={missing}", self.policy]), told, "capture")

    def test_an_interface_twice(self):
        for words in ([*self.words_of(BOTH), "--interface", f"1={self.folder}/2"], [*self.words_of(BOTH)[2:], *self.words_of(BOTH)[:2], "--interface", f"1={self.folder}/2"]):
            whole = self.program.run([*words, self.policy])
            self.compare(self.program.run(["--live", *words, self.policy]), whole)
            self.assertEqual(whole["status"], 1)

    def test_wrong_policy(self):
        policy = self.hold("policy", b"in deny\n")
        got = self.program.run(["--live", *self.words_of(BOTH), policy])
        self.compare(got, wanted(stderr=f"racl: {policy}: line 1 ends too early; see racl check\n", status=1))

    def test_reader_that_is_gone(self):
        """A run whose reader is gone ends."""
        ran, to = self.pipes([1, 2])
        to[2].write(header())
        to[1].write(header() + ONE[0])
        ran.stdout.readline()
        ran.stdout.close()
        status = None
        while status is None:
            try:
                to[1].write(ONE[1] * 1000)
            except BrokenPipeError:
                pass
            try:
                status = ran.wait(timeout=0.05)
            except subprocess.TimeoutExpired:
                pass
        self.timer.cancel()
        ran.stderr.close()
        self.compare({"status": status}, {"status": 4})

    def test_words(self):
        got = self.program.run(["--live", "--drops", f"{self.folder}/drops", *self.words_of(BOTH), self.policy])
        self.compare({"status": got["status"], "said": b"they need POLICY CAPTURE" in got["stderr"]}, {"status": 2, "said": True})
