"""The help, the version, and words that are refused."""
from support.captures import CAPTURE, NAMES, REFLECTED
from support.cases import TOP, Case, bytes_of_file, each, wanted

MORE = "\nFor more information, try '--help'.\n"
USAGE = ("\nUsage: racl [OPTIONS] POLICY CAPTURE\n       racl [OPTIONS] --interface N=CAPTURE .. POLICY\n"
         "       racl [OPTIONS] < INPUT\n       racl COMMAND ..\n")
NOT_NAMED = "error: --interface takes N=CAPTURE: the number of an interface, 0 to 255, and its capture\n" + USAGE + MORE
ONE_STREAM = "error: only one file can be standard input\n" + USAGE + MORE

# Words that are refused with status 2, and what is said, where the whole of it is compared.
WRONG_WORDS = [
    (["--workers", "17"], "error: invalid value '17' for '--workers <N>': 17 is not in 1..=16\n" + MORE),
    (["/dev/null"], "error: POLICY alone names no capture: CAPTURE or --interface N=CAPTURE is missing\n" + USAGE + MORE),
    (["one", "two", "three"], "error: unexpected argument 'three' found\n" + USAGE + MORE),
    (["-", "-"], ONE_STREAM),
    (["--interface", "1=-", "-"], ONE_STREAM),
    (["--interface", "1=-", "--interface", "2=-", "policy"], ONE_STREAM),
    (["--interface", "1=capture"], "error: POLICY is missing beside --interface N=CAPTURE\n" + USAGE + MORE),
    (["--interface", "1=one", "policy", "two"], "error: CAPTURE can't stand beside --interface N=CAPTURE\n" + USAGE + MORE),
    (["--interface", "256=capture", "policy"], NOT_NAMED),
    (["--interface", "0001=capture", "policy"], NOT_NAMED),
    (["--interface", "+1=capture", "policy"], NOT_NAMED),
    (["--interface", "=capture", "policy"], NOT_NAMED),
    (["--interface", "1=", "policy"], NOT_NAMED),
    (["--interface", "1", "policy"], NOT_NAMED),
    (["--interface", "1=one", "--interface", "two", "policy"], NOT_NAMED),
    (["--interface"], None),
    (["--extra"], None),
    ([b"--udp\xff"], "racl: a word is not UTF-8\nracl: that is word 1: --udp\\xff\n"),
    (["--udp", "5", b"caf\xc3\xa9", b"\x1b[31m\xff"], "racl: a word is not UTF-8\nracl: that is word 4: \\x1b[31m\\xff\n"),
    (["--workers", "0"], None),
    (["--udp", "0"], None),
    (["--udp", "soon"], None),
    (["--udp"], None),
    (["--udp", "4294967296"], None),
    (["--tcp-transient", "0"], None),
    (["--tcp-transient", "4294967296"], None),
    (["--tcp-established", "0"], None),
    (["--tcp-established", "4294967296"], None),
    (["--tcp-established=-1"], None),
    (["--udp", "1", "--udp", "2"], None),
    (["--only", "deny"], "error: --only takes pass or drop\n" + USAGE + MORE),
    (["--summary", "--only="], None),
    (["--only"], None),
    (["--only", "pass", "--only", "drop"], None),
    (["--summary=true"], None),
    (["--tables", "huge"], "error: --tables takes standard or large\n" + USAGE + MORE),
    (["--tables", "Large"], "error: --tables takes standard or large\n" + USAGE + MORE),
    (["--tables", "huge", "-", "-"], "error: --tables takes standard or large\n" + USAGE + MORE),
    (["--tables"], None),
    (["--tables", "large", "--tables", "large"], None),
    (["--passes", "saved"], None),
    (["--live"], None),
]

# Each command: how it is used, and what it is about.
COMMANDS = {
    "check": ("racl check POLICY", "Tells every wrong line of a policy, and what in a right one is unlikely to be meant"),
    "expand": ("racl expand FILE", "Writes the plain policy of one with named sets, lists, included files, and `ip` for both families"),
    "ask": ("racl ask [--explain | --expect FILE] POLICY PACKET ..", "Tells what a policy does to packets that are written in words"),
    "diff": ("racl diff [--age] OLD NEW CAPTURE", "Tells of which packets of a capture two policies say different things"),
    "compare": ("racl compare OLD NEW", "Tells what two policies decide differently, with a packet for each difference"),
    "import": ("racl import FORM [FILE]", "Writes a policy from another firewall's rules"),
    "version": ("racl version", "Tells the version, as --version"),
}

# Words of commands that are refused with status 2, and what is said.
WRONG_COMMANDS = [
    (["check"], "error: the following required arguments were not provided:\n  <POLICY>\n\nUsage: racl check POLICY\n" + MORE),
    (["check", "one", "two"], "error: unexpected argument 'two' found\n\nUsage: racl check POLICY\n" + MORE),
    (["ask", "--json", "one", "two"], None),
    (["ask", "one"], None),
    (["ask", "--explain", "--expect", "one", "two", "three"], None),
    (["compare", "one"], None),
    (["compare", "-", "-"], None),
    (["diff", "one", "two"], None),
    (["diff", "-", "-", "three"], None),
    (["expand", "--hits", "one"], None),
    (["version", "one"], None),
    (["help", "chek"], "error: unrecognized subcommand 'chek'\n" + USAGE + MORE),
]

# Words that may be mistyped commands and name no file, and the command that is close to each.
MISTYPED = [(["chek"], "check"), (["chek", "policy"], "check"), (["expnd", "rules"], "expand"), (["compar", "one", "two"], "compare"), (["hlep", "one"], "help"),
            (["as", "one"], "ask"), (["one"], None)]

# Words that are two letters and more off each command, the first of which names no file.
MISSING = [["p", "c"], ["a", "c"], ["policy", "capture"], ["cek", "c"], ["checksum", "c"], ["diffs.txt", "c"], ["compresed", "c"], ["task s", "c"], ["CHECK", "c"]]


def unknown(word, close):
    """What is wanted where a word is no command, and that one is close to it."""
    tip = f"\n  tip: a similar subcommand exists: '{close}'\n" if close else ""
    return wanted(stderr=f"error: unrecognized subcommand '{word}'\n{tip}{USAGE}{MORE}", status=2)


class Words(Case):
    def test_help(self):
        self.compare(self.program.run(["--help"]), wanted(bytes_of_file(f"{TOP}/tests/help.txt")))

    def test_version(self):
        for words in (["--version"], ["-V"], ["--udp", "5", "--version"]):
            self.compare(self.program.run(words), wanted(b"racl 0.1.0\n"), *words)

    @each((f"words {words}", words, said) for words, said in WRONG_WORDS)
    def wrong_words(self, words, said):
        self.compare(self.program.run(words), wanted(stderr=said, status=2))

    def test_help_of_all(self):
        for words in (["help"], ["-h"], ["--hits", "--help"], ["policy", "capture", "-h"]):
            self.compare(self.program.run(words), wanted(bytes_of_file(f"{TOP}/tests/help.txt")), *words)

    @each((name, name, *told) for name, told in COMMANDS.items())
    def help_of(self, name, usage, about):
        want = f"{about}\n\nUsage: {usage}\n"
        for words in ([name, "--help"], [name, "-h"], ["help", name]):
            # (the launcher hands these on to the script)
            if words[0] == "import" and self.program.is_launcher():
                continue
            got = self.program.run(words)
            self.compare({"status": got["status"], "stderr": got["stderr"], "stdout": got["stdout"].decode().startswith(want)},
                         {"status": 0, "stderr": b"", "stdout": True}, *words)

    def test_version_as_a_command(self):
        self.compare(self.program.run(["version"]), wanted(b"racl 0.1.0\n"))

    @each((f"words {words}", words, said) for words, said in WRONG_COMMANDS)
    def wrong_commands(self, words, said):
        self.compare(self.program.run(words), wanted(stderr=said, status=2))

    @each((f"words {words}", words, close) for words, close in MISTYPED)
    def mistyped(self, words, close):
        self.compare(self.program.run(words), unknown(words[0], close))

    @each((f"files {words}", words) for words in MISSING)
    def missing_files(self, words):
        self.compare(self.program.run(words), wanted(stderr=f"racl: {words[0]}: No such file or directory (os error 2)\n", status=4))

    def test_letters(self):
        """A word one letter off a command is told as such: with a letter left out, another one, one too many, or two that change places; with two more letters it names a file."""
        for name in (*COMMANDS, "help"):
            parts = [(name[:it], name[it:]) for it in range(len(name) + 1)]
            near = {a + b[1:] for a, b in parts} | {f"{a}z{b[1:]}" for a, b in parts} | {f"{a}z{b}" for a, b in parts} | {a + b[1::-1] + b[2:] for a, b in parts}
            for word in sorted(near - {name}):
                got = self.program.run([word, "one"], cwd=self.folder)
                said = got["stderr"].startswith(f"error: unrecognized subcommand '{word}'\n".encode())
                self.compare({"status": got["status"], "said": said}, {"status": 2, "said": True}, word)
            for a, b in parts:
                got = self.program.run([f"{a}zz{b}", "one"], cwd=self.folder)
                self.compare(got, wanted(stderr=f"racl: {a}zz{b}: No such file or directory (os error 2)\n", status=4), a)

    def test_files_with_names_like_commands(self):
        """A word that names a file is the policy, and a command's name is one only where it stands first."""
        for name, data in (("chek", NAMES), ("check", CAPTURE)):
            self.hold(name, data)
        for words in (["chek", "check"], ["--udp", "5", "chek", "check"]):
            self.compare(self.program.run(words, cwd=self.folder), wanted(REFLECTED), *words)
        got = self.program.run(["check", "check"], cwd=self.folder)
        self.compare({"stderr": got["stderr"], "status": got["status"]}, {"stderr": b"", "status": 1}, "the check of a capture")
