"""No file is written over that the run reads or writes besides, whatever names the file has; and nothing becomes of any then."""
import os

from support.captures import CAPTURE, NAMES, REFLECTED, header
from support.cases import Case, bytes_of_file, each, wanted

# Names of the policy, of the capture, and pairs of names of one file that isn't there, in the folder that a case makes.
OF_POLICY = ["{}/policy", "policy", "./policy", "same/policy", "below/../policy", "policy link", "hard policy", "/proc/self/cwd/policy"]
OF_CAPTURE = ["{}/capture", "capture link", "link of links", "below/hard capture", "{}/same/same/capture"]
OF_ONE = [("one", "./one"), ("one", "{}/one"), ("one", "same/one"), ("unmade link", "one"), ("one", "unmade link"),
          ("below/unmade", "one"), ("below/unmade", "same/unmade link"), ("one", ".//one")]

# What is saved to files of their own: another folder's, longer names, a device that is named twice, and what a link names.
APART = [
    (["--drops", "one", "--passes", "below/one"], {"one": header(), "below/one": CAPTURE}),
    (["--drops", "policy2", "--passes", "policy 2"], {"policy2": header(), "policy 2": CAPTURE}),
    (["--drops", "/dev/null", "--passes", "/dev/../dev/null"], {}),
    (["--passes", "unmade link"], {"one": CAPTURE}),
    (["--passes", "-"], {"-": CAPTURE}),
]

# Files that can't be saved to, and why.
UNSAVED = [
    ("loop", "Too many levels of symbolic links (os error 40)"), ("below", "Is a directory (os error 21)"),
    ("none/one", "No such file or directory (os error 2)"), ("policy/one", "Not a directory (os error 20)"),
]


class SavedNames(Case):
    def setUp(self):
        super().setUp()
        self.policy, self.capture = self.hold("policy", NAMES), self.hold("capture", CAPTURE)
        os.mkdir(f"{self.folder}/below")
        os.symlink(self.folder, f"{self.folder}/same")
        for name, target in (("policy link", "policy"), ("capture link", self.capture), ("link of links", "capture link"),
                             ("unmade link", "below/../one"), ("below/unmade", "../unmade link"), ("loop", "loop")):
            os.symlink(target, f"{self.folder}/{name}")
        os.link(self.policy, f"{self.folder}/hard policy")
        os.link(self.capture, f"{self.folder}/below/hard capture")

    def files(self):
        return {"there": sorted(os.listdir(self.folder)), "policy": bytes_of_file(self.policy), "capture": bytes_of_file(self.capture)}

    def refused(self, words, told, *which, **streams):
        """One comparison: the run is refused for this, and all files are as they were."""
        before = self.files()
        got = self.program.run([it.format(self.folder) for it in words], cwd=self.folder, **streams)
        want = {**wanted(None, f"racl: {told}\n".format(self.folder), 2), **before}
        self.compare({**got, **self.files()}, want, *which)

    @each((f"{it} is the policy", it) for it in OF_POLICY)
    def policy_again(self, name):
        for option in ("--drops", "--passes"):
            self.refused([option, name, self.policy, self.capture], f"{name}: the same file as {self.policy}, which is read", option)

    @each((f"{it} is the capture", it) for it in OF_CAPTURE)
    def capture_again(self, name):
        for option in ("--drops", "--passes"):
            self.refused([option, name, "policy", "capture"], f"{name}: the same file as capture, which is read", option)

    @each((f"{one} and {other} are one", one, other) for one, other in OF_ONE)
    def saved_again(self, one, other):
        files = [self.policy, self.capture]
        told = f"{other}: the same file as {one}, which is saved too"
        self.refused(["--drops", one, "--passes", other, *files], told, "drops first")
        self.refused(["--passes", other, "--drops", one, *files], told, "passes first")

    def test_standard_input(self):
        for name, words in (("policy", ["-", self.capture]), ("capture", [self.policy, "-"])):
            with open(f"{self.folder}/{name}", "rb") as file:
                told = f"same/{name}: the same file as standard input, which is read"
                self.refused(["--drops", f"same/{name}", *words], told, name, stdin=file)
                self.refused(["--live", "--drops", f"same/{name}", *words], told, name, "live", stdin=file)

    def test_standard_output(self):
        with open(f"{self.folder}/report", "wb") as file:
            for name in ("same/report", "/dev/stdout"):
                told = f"{name}: the same file as standard output, which is written"
                self.refused(["--drops", name, self.policy, self.capture], told, name, stdout=file)

    def test_standard_error(self):
        report = f"{self.folder}/report"
        with open(report, "wb") as file:
            got = self.program.run(["--drops", report, self.policy, self.capture], stderr=file)
        told = f"racl: {report}: the same file as standard error, which is written\n"
        self.compare({**got, "stderr": bytes_of_file(report)}, wanted(stderr=told, status=2))

    @each((" ".join(words), words, made) for words, made in APART)
    def files_of_their_own(self, words, made):
        got = self.program.run([*words, self.policy, self.capture], cwd=self.folder)
        found = {path: bytes_of_file(f"{self.folder}/{path}") if os.path.exists(f"{self.folder}/{path}") else None for path in made}
        self.compare({**got, **found}, {**wanted(REFLECTED), **made})

    def test_pipe_twice(self):
        os.mkfifo(f"{self.folder}/fifo")
        reader = os.open(f"{self.folder}/fifo", os.O_RDONLY | os.O_NONBLOCK)
        got = self.program.run(["--drops", "fifo", "--passes", "./fifo", self.policy, self.capture], cwd=self.folder)
        self.compare({**got, "pipe": os.read(reader, 1 << 16)}, {**wanted(REFLECTED), "pipe": header() + CAPTURE})
        os.close(reader)

    def test_standard_output_that_is_a_pipe(self):
        got = self.program.run(["--drops", "/dev/stdout", self.policy, self.capture], cwd=self.folder)
        self.compare(got, wanted(header() + REFLECTED))

    @each((f"{it} can't be saved to", it, told) for it, told in UNSAVED)
    def unsaved(self, name, told):
        got = self.program.run(["--drops", name, self.policy, self.capture], cwd=self.folder)
        self.compare(got, wanted(stderr=f"racl: {name}: {told}\n", status=4))
