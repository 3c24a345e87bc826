"""Shards of a capture: all packets' lines with their numbers, totals and counts that add up to those of a run on all of it, and saved
packets that are together those of that run."""
import json
import os
import re
import shutil
import subprocess

from support.captures import NAMES, header, parts_of, record, udp
from support.cases import TOP, Case, bytes_of_file, each, names_in, wanted

COUNTS = 1, 2, 3, 8
UNCLEAR = b"error: --shard takes K/N, decimal numbers with K from 1 to N, and N at most 1024\n"
MISFIT = b"error: --shard needs POLICY CAPTURE, and goes with neither --live nor --expect\n"

# Requests of 97 ends and their answers, frames of no flow, and a capture that is cut.
MANY = header() + b"".join(udp(100 + n // 50, way, *ends) for n in range(400)
                           for way, ends in ((True, ((1, 1000 + n % 97), (2, 53))), (False, ((2, 53), (1, 1000 + n % 97))))
                           ) + record(200, b"short") + record(201, bytes(20)) * 5
CUT = MANY[:-7]
# A request after all sessions but its own have ended.
ENDED = MANY + udp(1700, True, (1, 999), (2, 53))


def examples():
    """Each example of one capture: its name, its policy and its capture."""
    for name in names_in("examples", ".racl"):
        policy, captures = parts_of(bytes_of_file(f"{TOP}/examples/{name}.racl"))
        if captures[0][0] is None:
            yield name, policy, captures[0][1]


def packets_of(capture):
    """The records behind a capture's header, as they stand there; none of an empty file."""
    records, place = [], 24
    while place < len(capture):
        size = 16 + int.from_bytes(capture[place + 8:place + 12], "little")
        records.append(capture[place:place + size])
        place += size
    return records


def is_within(some, many):
    """Whether some stand in this order among many."""
    left = iter(many)
    return not [it for it in some if it not in left]


class Shards(Case):
    def reports(self, count, words, held, capture):
        return [self.program.run(["--shard", f"{shard}/{count}", *words, held, "-"], capture) for shard in range(1, count + 1)]

    @each(examples())
    def stored(self, policy, capture):
        """The merged report of the shards of each example of one capture."""
        self.merged(policy, capture)

    def test_many(self):
        self.merged(NAMES, MANY)

    def test_cut(self):
        self.merged(NAMES, CUT, status=3)

    def test_ended(self):
        """Sessions that end before the capture's latest second, which most shards' own packets don't reach."""
        self.merged(NAMES, ENDED)

    def test_note(self):
        """Behind its totals a report says of which shard it is, of how many packets, and their latest second."""
        held = self.hold("policy", NAMES)
        for words, text in ([], b"shard 2 of 3 of 807 packets until 1700\n"), (["--json"], b'{"shard":2,"shards":3,"capture_packets":807,"capture_until":1700}\n'):
            told = self.program.run(["--shard", "2/3", "--summary", "--hits", *words, held, "-"], ENDED)["stdout"].splitlines(True)
            self.compare({"note": told[1]}, {"note": text}, *words)
        self.compare({"note": b"shard" in self.program.run([held, "-"], ENDED)["stdout"]}, {"note": False})

    def merged(self, policy, capture, status=0):
        held = self.hold("policy", policy)
        for count in COUNTS:
            for words in [], ["--explain"], ["--workers", "3", "--only=drop"], ["--hits", "--sessions"], ["--age", "--hits", "--sessions"], ["--summary", "--hits"]:
                whole = self.program.run([*words, held, "-"], capture)
                reports = self.reports(count, words, held, capture)
                names = [self.hold(f"report{place}", it["stdout"]) for place, it in enumerate(reports)]
                self.compare({"merged": self.merge(*names)["stdout"]}, {"merged": whole["stdout"]}, count, *words)
                self.compare({"statuses": {it["status"] for it in reports}}, {"statuses": {status}}, count, *words)

    def merge(self, *names):
        ran = subprocess.run([f"{TOP}/examples/shards/merge", *names], stdout=subprocess.PIPE, stderr=subprocess.PIPE)
        return {"stdout": ran.stdout, "stderr": ran.stderr, "status": ran.returncode}

    def test_what_is_not_merged(self):
        """Where shards' reports aren't those of one run the status is 1, and what is wrong is said."""
        held = self.hold("policy", NAMES)
        one, two, three = (self.hold(f"report{place}", it["stdout"]) for place, it in enumerate(self.reports(3, [], held, MANY)))
        of_four = self.hold("of_four", self.reports(4, [], held, MANY)[2]["stdout"])
        other = self.hold("other", self.reports(3, [], held, ENDED)[2]["stdout"])
        whole = self.hold("whole", self.program.run([held, "-"], MANY)["stdout"])
        objects = self.hold("objects", self.reports(3, ["--json"], held, MANY)[2]["stdout"])
        counts = self.hold("counts", self.reports(3, ["--hits"], held, MANY)[2]["stdout"])
        failed, cut = self.hold("failed", bytes_of_file(three)[:-5]), self.hold("cut", bytes_of_file(three)[:-1])
        empty, none = self.hold("empty", b""), f"{self.folder}/none"
        for names, why in (([one, two], b"shard 3 of 3 is missing"), ([one, two, two], b"both of shard 2"), ([one, two, three, three], b"both of shard 3"),
                           ([one, two, three, of_four], b"different captures"), ([one, two, other], b"different captures"), ([one, two, whole], b"doesn't say of which shard"),
                           ([one, two, objects], b"JSON"), ([one, two, counts], b"count the same"), ([one, two, failed], b"has no totals"),
                           ([one, two, cut], b"has no totals"), ([one, two, empty], b"has no totals"), ([one, two, none], b"can't be read"), ([], b"takes the reports")):
            got = self.merge(*names)
            self.compare({"totals": b"packets" in got["stdout"], "status": got["status"], "said": why in got["stderr"]},
                         {"totals": False, "status": 1, "said": True}, why)

    def test_large_counts(self):
        """Counts beyond 2^31 and 2^53 are written digit by digit."""
        for count in 2 ** 31, 2 ** 53 + 1:
            names = [self.hold(f"report{it}", f"packets {count} pass {count} drop 0\nshard {it} of 2 of {2 * count} packets until 9\n".encode()) for it in (1, 2)]
            self.compare(self.merge(*names), wanted(f"packets {2 * count} pass {2 * count} drop 0\n".encode()), str(count))

    def test_many_shards(self):
        """The most shards there may be, where few files may be open at once; where these can't be, that is said."""
        names = [self.hold(f"report{it}", f"{it} pass not-ip\npackets 1 pass 1 drop 0\nshard {it} of 1024 of 1024 packets until 9\n".encode()) for it in range(1, 1025)]
        merge = ["sh", "-c", 'ulimit -Sn 256; exec "$0" "$@"', f"{TOP}/examples/shards/merge"]
        ran = subprocess.run([*merge, *names[::-1]], stdout=subprocess.PIPE, stderr=subprocess.PIPE)
        lines = "".join(f"{it} pass not-ip\n" for it in range(1, 1025))
        self.compare({"stdout": ran.stdout, "stderr": ran.stderr, "status": ran.returncode}, wanted(f"{lines}packets 1024 pass 1024 drop 0\n".encode()))
        merge[2] = merge[2].replace("-Sn", "-n")
        ran = subprocess.run([*merge, *names], stdout=subprocess.PIPE, stderr=subprocess.PIPE)
        self.compare({"stdout": ran.stdout, "said": b"raise `ulimit -n`" in ran.stderr, "status": ran.returncode}, {"stdout": b"", "said": True, "status": 1})

    def test_recipe(self):
        """The page's recipe for GNU parallel, on this machine, where that is installed."""
        if not shutil.which("parallel"):
            self.skipTest("GNU parallel isn't installed")
        self.hold("host.policy", NAMES)
        self.hold("long.pcap", MANY)
        os.makedirs(f"{self.folder}/bin")
        os.symlink(self.program.path, f"{self.folder}/bin/racl")
        page = bytes_of_file(f"{TOP}/docs/SCALING.md").decode()
        recipe = next(it for it in re.findall(r"^```sh\n(.*?)^```$", page, re.M | re.S) if "parallel" in it and "--shard" in it)
        recipe = recipe.replace("--sshlogin one,two,three,four ", "").replace("examples/shards/merge", f"{TOP}/examples/shards/merge")
        environment = {**os.environ, "PATH": f"{self.folder}/bin:{os.environ['PATH']}", "HOME": self.folder}
        ran = subprocess.run(["sh", "-euc", recipe], cwd=self.folder, env=environment, stdin=subprocess.DEVNULL, stdout=subprocess.PIPE, stderr=subprocess.PIPE)
        whole = self.program.run([f"{self.folder}/host.policy", f"{self.folder}/long.pcap"])
        self.compare({"stdout": ran.stdout, "status": ran.returncode}, {"stdout": whole["stdout"], "status": 0})

    def test_objects(self):
        held = self.hold("policy", NAMES)
        whole = self.program.run(["--json", held, "-"], MANY)["stdout"].splitlines()
        for count in COUNTS:
            lines = [line for it in self.reports(count, ["--json"], held, MANY) for line in it["stdout"].splitlines()]
            packets = sorted((it for it in lines if b'"packet":' in it), key=lambda it: json.loads(it)["packet"])
            self.assertEqual(len(packets), 806)
            self.compare({"packets": packets}, {"packets": [it for it in whole if b'"packet":' in it]}, count)

    def test_saved(self):
        """Each file is a capture of the shard's packets, in their order; those of all shards hold the packets of the one run's."""
        held, read = self.hold("policy", NAMES), self.hold("capture", MANY)
        whole, _ = self.saved(held, read)
        for count in COUNTS:
            found = [], []
            for shard in range(1, count + 1):
                saved, totals = self.saved(held, read, "--shard", f"{shard}/{count}")
                self.compare({"totals": [len(it) for it in saved]}, {"totals": totals}, shard, count)
                self.compare({"order": [is_within(*it) for it in zip(saved, whole)]}, {"order": [True, True]}, shard, count)
                for packets, more in zip(found, saved):
                    packets += more
            self.compare({"packets": [sorted(it) for it in found]}, {"packets": [sorted(it) for it in whole]}, count)

    def saved(self, *words):
        """The packets that a run saved, those that pass and those that were dropped, and their totals."""
        names = [f"{self.folder}/{it}" for it in ("passes", "drops")]
        report = self.program.run(["--summary", f"--passes={names[0]}", f"--drops={names[1]}", *words])["stdout"]
        totals = [int(it) for it in re.search(rb"pass (\d+) drop (\d+)", report).groups()]
        return [packets_of(bytes_of_file(it)) for it in names], totals

    def test_wrong_words(self):
        for word in "1", "0/2", "3/2", "1/0", "1/1025", "1/2/3", "a/2", "1/+2", "1.0/2":
            self.refused(UNCLEAR, "--shard", word, "policy", "capture")
        self.refused(b"a value is required for '--shard <K/N>'", "--shard")
        for words in ["--live", "p", "c"], ["--expect=e", "p", "c"], [], ["--interface", "1=c", "p"]:
            self.refused(MISFIT, "--shard", "1/2", *words)
        self.refused(MISFIT, "p", "c", "--live", "--shard=1/2")

    def refused(self, said, *words):
        ran = self.program.run([*words])
        self.compare({"status": ran["status"], "said": said in ran["stderr"]}, {"status": 2, "said": True}, *words)
