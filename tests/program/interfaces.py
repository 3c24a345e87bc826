"""A policy and captures of interfaces in files, which get what an input with their digits gets."""
from support.captures import BY_NAME, CAPTURE, MOST_BYTES, MOST_KEPT, NAMES, OTHERS, PUT_TOGETHER, header, parts_of, record
from support.cases import FEW_WORKERS, TOP, Case, bytes_of_file, each, names_in, wanted

TWO = [(1, CAPTURE), (2, CAPTURE)]
LONG = record(1, b"", MOST_KEPT + 1)

# Captures by the numbers of their interfaces; and, where one of them is told as faulty, its place, and what it is said to be.
CAPTURES = [
    ("an interface twice", [*TWO, (1, CAPTURE)]), ("a cut capture first", [(7, CAPTURE[:-1]), *TWO]),
    ("an empty capture", [(255, b""), *TWO], 0), ("many interfaces", [(it, CAPTURE) for it in range(255, -1, -1)]),
    ("a wrong capture last", [*TWO, (0, CAPTURE[:20] + bytes(4) + CAPTURE[24:])], 2,
     f"of a loopback interface's packets without Ethernet headers {BY_NAME % 0}"),
    ("another version last", [*TWO, (0, CAPTURE[:4] + b"\3\0" + CAPTURE[6:])], 2),
    ("a long record", [*TWO, (9, header() + LONG), (3, header() + LONG)], 2), ("of one interface", [(1, b"")], 0),
    ("many bytes", [(0, CAPTURE + record(1, bytes(200_000)) * 50), (1, CAPTURE)]),
]


def filled(size):
    """A capture of so many bytes."""
    whole, rest = divmod(size - len(header()), len(record(1, bytes(MOST_KEPT))))
    return header() + record(1, bytes(MOST_KEPT)) * whole + record(1, bytes(rest - len(record(1, b""))))


def glued(first, captures):
    """One input with the captures' digits."""
    return first + b"".join(b"\nhex %d\n%s" % (number, data.hex().encode()) for number, data in captures)


def ruled(policy):
    """The interfaces for which a policy has rules."""
    numbers, at = set(), 0
    for line in policy.decode().split("\n"):
        word, *more = (line.partition("#")[0].split() or [""])
        if word == "interface":
            at = int(more[0])
        elif word in ("in", "out"):
            numbers.add(at)
    return numbers


class Interfaces(Case):
    def setUp(self):
        super().setUp()
        self.policy = self.hold("policy", NAMES)

    def words_of(self, captures, in_one=False):
        named = [f"{number}={self.hold(str(place), data)}" for place, (number, data) in enumerate(captures)]
        return [word for it in named for word in ([f"--interface={it}"] if in_one else ["--interface", it])]

    def that_is(self, place, number):
        return f"racl: that is {self.folder}/{place}, the capture of interface {number}\n"

    def unruled(self, first, captures, policy=None):
        """What is said behind a report of interfaces without rules."""
        return "".join(f"racl: {policy or self.policy}: interface {it} has no rule, so each of its packets of IP is dropped\n"
                       for it, _ in captures if it not in ruled(first)).encode()

    def compare_both(self, first, captures, faulty=None, said=None):
        self.hold("policy", first)
        for number in FEW_WORKERS:
            want = self.program.run(["--workers", number], glued(first, captures))
            if faulty is not None:
                told = self.that_is(faulty, captures[faulty][0]) if captures[1:] else f"racl: that is {self.folder}/0\n"
                want["stderr"] += (told + (f"racl: {self.folder}/{faulty} is {said}\n" if said else "")).encode()
            if want["status"] in (0, 3):
                want["stderr"] += self.unruled(first, captures)
            words = ["--workers", number, *self.words_of(captures), self.policy]
            self.compare(self.program.run(words), want, "policy last", f"{number} workers")
            words = [self.policy, *self.words_of(captures, True), "--workers", number]
            self.compare(self.program.run(words), want, "policy first", f"{number} workers")

    @each((f"interfaces of {it}", it) for it in names_in("examples", ".racl"))
    def examples(self, name):
        first, captures = parts_of(bytes_of_file(f"{TOP}/examples/{name}.racl"))
        self.compare_both(first, [(number or 0, it) for number, it in captures])

    @each(CAPTURES)
    def captures(self, captures, *faulty):
        self.compare_both(NAMES, captures, *faulty)

    def test_long_record_far_behind(self):
        words = self.words_of([*TWO, (9, CAPTURE + record(1, bytes(5000)) + LONG), (3, header() + LONG)])
        for of_one in [], ["--interface", "1=-"]:
            got = self.program.run([*of_one, *words[len(of_one):], self.policy], CAPTURE)
            self.compare(got, wanted(stderr=f"racl: record 4 is too long\n{self.that_is(2, 9)}{PUT_TOGETHER}", status=1), *of_one)

    def test_faulty_standard_input(self):
        words = [*self.words_of(TWO), "--interface", "9=-", self.policy]
        self.compare(self.program.run(words, CAPTURE + LONG),
                     wanted(stderr=f"racl: record 3 is too long\nracl: that is -, the capture of interface 9\n{PUT_TOGETHER}", status=1))

    def test_most_bytes(self):
        """Each byte of the policy, of a line feed behind it and of the captures counts once."""
        size = MOST_BYTES - len(NAMES) - 1 - len(CAPTURE)
        words = [*self.words_of([(1, filled(size)), (2, CAPTURE)]), self.policy]
        self.assertEqual(self.program.run(words)["status"], 0)
        self.hold("0", filled(size + 1))
        self.compare(self.program.run(words), wanted(stderr=f"racl: input over {MOST_BYTES} bytes\n", status=1))

    def test_line_that_ends_with_a_carriage_return(self):
        self.compare_both(NAMES[:-1] + b"\r", TWO)

    def test_standard_input(self):
        words = self.words_of(TWO)
        want = self.program.run([], glued(NAMES, TWO))
        for words, data, policy in (([*words, "-"], NAMES, "-"), ([*words[:2], "--interface", "2=-", self.policy], CAPTURE, self.policy)):
            self.compare(self.program.run(words, data), {**want, "stderr": self.unruled(NAMES, TWO, policy)}, *words)

    def test_frames_of_other_stations(self):
        strange = NAMES + b"interface 2\n" + NAMES.replace(b":01", b":09")
        self.hold("policy", strange)
        foreign = f"racl: {self.policy}: none of the first frames of interface 2 is from or to the address of its mac line\n"
        both = [(2, CAPTURE), (0, CAPTURE)]
        want = {**self.program.run([], glued(strange, both)), "stderr": foreign.encode()}
        self.compare(self.program.run([*self.words_of(both), self.policy]), want)

    def test_missing_file_and_folder(self):
        words, missing = self.words_of(TWO), f"{self.folder}/missing"
        told = wanted(stderr=f"racl: {missing}: No such file or directory (os error 2)\n", status=4)
        self.compare(self.program.run([*words, missing]), told, "missing policy")
        self.compare(self.program.run([*words, "--interface", f"3={missing}", self.policy]), told, "missing capture")
        self.compare(self.program.run([*words, "--interface", f"3={self.folder}", self.policy]),
                     wanted(stderr=f"racl: {self.folder}: Is a directory (os error 21)\n", status=4), "folder")

    @each(OTHERS)
    def others(self, data, fault, said):
        """Captures that are refused for what they are."""
        words = self.words_of([(1, CAPTURE), (2, data), (3, CAPTURE)])
        told = f"racl: {fault}\n{self.that_is(1, 2)}" + (f"racl: {self.folder}/1 is {said}\n" if said else "")
        self.compare(self.program.run([*words, self.policy]), wanted(stderr=told, status=1))
