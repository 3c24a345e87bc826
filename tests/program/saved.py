"""The packets that are dropped, and those that pass, as captures in files, beside the report as it is."""
import os

from support.captures import CAPTURE, NAMES, header, parts_of, records_of, request_and_answer
from support.cases import TOP, Case, bytes_of_file, each, names_in, wanted
from support.large_inputs import many_flows


def held(path):
    return bytes_of_file(path) if os.path.exists(path) else None


def chosen(data, report, word):
    """The capture of those packets on which a report has this word."""
    first, records = records_of(data)
    words = [line.split()[1] for line in report.splitlines() if line[:1].isdigit()]
    assert len(words) == len(records)
    return first + b"".join(it for it, said in zip(records, words) if said == word)


def captures():
    """Policies with one capture each."""
    for name in names_in("examples", ".racl"):
        first, parts = parts_of(bytes_of_file(f"{TOP}/examples/{name}.racl"))
        if parts[0][0] is None:
            yield name, lambda made=(first, parts[0][1]): made
    yield "a cut record", lambda: (NAMES, CAPTURE[:-1])
    yield "swapped bytes", lambda: (NAMES, header(order=">") + request_and_answer(5, ">"))
    yield "many packets", lambda: (NAMES, many_flows()[0].partition(b"pcap\n")[2])


class Saved(Case):
    def setUp(self):
        super().setUp()
        self.files = [self.hold("policy", NAMES), self.hold("capture", CAPTURE)]
        self.drops, self.passes = f"{self.folder}/drops", f"{self.folder}/passes"

    @each(captures())
    def captures(self, made):
        first, data = made()
        policy, capture = self.hold("policy", first), self.hold("capture", data)
        want = self.program.run([policy, capture])
        for workers in ("1", "4"):
            got = self.program.run(["--drops", self.drops, f"--passes={self.passes}", "--workers", workers, policy, capture])
            self.compare(got, want, f"{workers} workers")
            for path, word in ((self.drops, b"drop"), (self.passes, b"pass")):
                self.compare({"capture": held(path)}, {"capture": chosen(data, want["stdout"], word)}, word.decode(), f"{workers} workers")
                os.remove(path)

    def test_wrong_policy(self):
        policy = self.hold("policy", b"in deny\n")
        got = self.program.run(["--drops", self.drops, *self.files])
        self.compare(got, wanted(stderr=f"racl: {policy}: line 1 ends too early; see racl check\n", status=1), "the run")
        self.compare({"is there": os.path.exists(self.drops)}, {"is there": False}, "the file")

    def test_files_that_are_there(self):
        """A file is replaced as a whole, with its permissions, behind a link; one of several names or in a folder that takes no other
        file is written in place."""
        older = self.hold("older", b"older")
        os.chmod(older, 0o640)
        os.symlink("older", f"{self.folder}/link")
        before = os.stat(older).st_ino
        self.compare(self.program.run(["--passes", f"{self.folder}/link", *self.files]), {"status": 0, "stderr": b""}, "the run")
        self.compare({"capture": held(older), "mode": os.stat(older).st_mode & 0o777, "replaced": os.stat(older).st_ino != before,
                      "there": sorted(os.listdir(self.folder))},
                     {"capture": CAPTURE, "mode": 0o640, "replaced": True, "there": ["capture", "link", "older", "policy"]}, "behind a link")
        self.hold("two", b"older")
        os.link(f"{self.folder}/two", f"{self.folder}/names")
        self.program.run(["--passes", f"{self.folder}/two", *self.files])
        self.compare({"capture": held(f"{self.folder}/names")}, {"capture": CAPTURE}, "of two names")

    def test_file_that_cant_be_made(self):
        got = self.program.run(["--passes", f"{self.folder}/none/passes", *self.files])
        told = f"racl: {self.folder}/none/passes: No such file or directory (os error 2)\n"
        self.compare(got, wanted(stderr=told, status=4))
