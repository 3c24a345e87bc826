"""What the word `check` tells of policies."""
import random
import re
from program.inputs import WRONG_LINES
from support.captures import CAPTURE, MOST_BYTES, NAMES
from support.cases import TOP, Case, each, names_in, wanted

EXPANDED = "remark: line %d is of a form that racl expand takes; a policy that is read is made by: racl expand IN > OUT\n"
NO_START, NO_PREFIX = "begins no line: in, out, mac and interface do", "is neither `any` nor an address or a prefix of one"

# Lines that `racl expand` takes or doesn't, each as the third of a policy, and what is told of it.
FOR_EXPAND = [(line, f"line 3: `{word}` {reason}\n{EXPANDED % 3 if is_taken else ''}no policy: wrong lines 1\n".encode())
              for line, word, reason, is_taken in (
    ("include office.names", "include", NO_START, True), ("include a b", "include", NO_START, False),
    ("set web", "set", NO_START, False), ("out deny ipv6 @web any", "@web", NO_PREFIX, True),
    ("in deny ipv4 any 10.0.0.1,10.0.0.2", "10.0.0.1,10.0.0.2", NO_PREFIX, True),
    ("in deny ipv4 any any tcp,udp", "tcp,udp", "is no protocol: any, tcp, udp, icmp or a number up to 255", True),
    ("deny in ip any any", "deny", NO_START, False), ("in deny ip any", "ip", "is no family: ipv4 or ipv6", False),
    ("in deny,permit ipv4 any any", "deny,permit", "is no action: deny, permit or permit+reflect", False))]

# Runs of the word `check`: name, words, standard input, what is told, what is said, and the status.
CHECKS = [
    ("check of a file that isn't there", ["check", "/nowhere"], b"", b"", "racl: /nowhere: No such file or directory (os error 2)\n", 4),
    ("check of no file", ["check"], b"", b"", None, 2),
    ("check of two files", ["check", "-", "-"], b"", b"", None, 2),
    ("check with an option", ["check", "--udp", "5", "-"], b"", b"", None, 2),
    ("check of a byte too many", ["check", "-"], b" " * (MOST_BYTES + 1), b"", "racl: input over 67108864 bytes\n", 1),
    ("check of as many bytes as may be", ["check", "-"], b" " * MOST_BYTES,
     b"remark: there is no rule, so each packet of IP is dropped\npolicy: rules 0 sections 1\n", "", 0),
    ("check of a capture", ["check", "-"], CAPTURE + b"\xff",
     b"line 1 is not UTF-8\nremark: the file is a capture; racl check takes a policy\nno policy: wrong lines 1\n", "", 1),
    ("check of an input", ["check", "-"], NAMES + b"hex\n00\n",
     b"line 3: `hex` begins no line: in, out, mac and interface do\nline 4: `00` begins no line: in, out, mac and interface do\n"
     b"remark: the file is an input with its capture behind line 3; the policy is what stands before that line\nno policy: wrong lines 2\n",
     "", 1),
    *((f"check of {code}", ["check", "-"], mark + NAMES.decode().encode(code),
       b"line 1 is not UTF-8\nremark: the file is UTF-16; a policy that is read is made by: iconv -f UTF-16 -t UTF-8 IN > OUT\n"
       b"no policy: wrong lines 1\n", "", 1) for code, mark in (("UTF-16-LE", b"\xff\xfe"), ("UTF-16-BE", b"\xfe\xff"))),
    ("check of a text for expand", ["check", "-"], b"# sets\nset web 192.0.2.10\nin permit ip any @web tcp dport 80,443\n",
     b"line 2: `set` begins no line: in, out, mac and interface do\nline 3: `ip` is no family: ipv4 or ipv6\n"
     b"remark: line 2 is of a form that racl expand takes; a policy that is read is made by: racl expand IN > OUT\n"
     b"no policy: wrong lines 2\n", "", 1),
    *((f"check of `{line}`", ["check", "-"], f"mac 02:00:00:00:00:01\n\n{line} # an @ and a comma, here\n".encode(), told, "", 1)
      for line, told in FOR_EXPAND),
    ("help of check", ["check", "--help"], b"", None, "", 0),
]


def of_ports(way, count):
    """Rules for one port of this way each, of so many."""
    return [f"in permit ipv4 any any tcp {way} {2 * port + 1}" for port in range(count)]


def of_last(name, rules, told, why):
    """The check of rules and of a last one for all of TCP, which stands in the line of its number, and what is told of it."""
    last, number = "in deny ipv4 any any tcp", len(rules) + 1
    remark = f"remark: interface 0: {told % number}, since {why} | line {number} {last}\npolicy: rules {number} sections 1\n"
    return f"check of {name}", ["check", "-"], "\n".join([*rules, last, ""]).encode(), remark.encode(), "", 0


NEVER, NOT_KNOWN = "in rule %d never decides", "it isn't known whether in rule %d ever decides"
HALVES = ["in permit ipv4 0.0.0.0/1 any tcp", "in permit ipv4 128.0.0.0/1 any tcp"]
CHECKS += [
    of_last("two of many rules", [HALVES[0], *of_ports("sport", 300), HALVES[1]], NEVER, "rules 1 and 302 take all its packets"),
    of_last("two rules behind many", [*of_ports("sport", 20), *of_ports("dport", 20), *HALVES], NEVER, "rules 41 and 42 take all its packets")]

# Of 576 cells each is one rule's, in no order: some 60,000 tests show that they take all, and some 30,000 that one is needed.
PARTS = [f"{low}-{min(low + 2730, 65535)}" for low in range(0, 65536, 2731)]
CELLS = [f"in permit ipv4 any any tcp sport {sport} dport {dport}" for sport in PARTS for dport in PARTS]

# Checks that take a second. The ports make 90,000 cells, and most of 300 rules are looked at for each.
LONG_CHECKS = [
    of_last("too many cases", [*of_ports("sport", 300), *of_ports("dport", 300), *HALVES], NOT_KNOWN,
            "there are too many cases to try; ask about one of its packets"),
    of_last("too many cases for the least rules", random.Random(1).sample(CELLS, len(CELLS)), NEVER,
            "rules 1 to 576 take all its packets, and fewer may")]

# A small world: eighths of all sources, and classes of destination ports or none in a later fragment.
CLASSES = [(0, 1023), (1024, 49151), (49152, 65535)]


def rule_of_world(source):
    """A line, and the packets that its rule matches, as pairs of an eighth and a class."""
    length = source.randrange(4)
    first, low = source.randrange(2 ** length) * 2 ** (3 - length), source.randrange(3)
    high = source.randrange(low, 3)
    line = f"in permit ipv4 {first * 32}.0.0.0/{length} any tcp dport {CLASSES[low][0]}-{CLASSES[high][1]}"
    eighths = range(first, first + 2 ** (3 - length))
    return line, {(eighth, it) for eighth in eighths for it in (None, *range(low, high + 1))}


# How many remarks there are on a policy of an example, where there are some.
REMARKS = {}


TAKERS = re.compile(r"^remark: interface 0: in rule (\d+) never decides, since rules? (.*?) takes? all its packets \|", re.M)


def numbers_in(text):
    """The numbers that a text names, as `1 to 3, 5 and 302`."""
    runs = [it.split(" to ") for it in text.replace(" and ", ", ").split(", ")]
    return [number for run in runs for number in range(int(run[0]), int(run[-1]) + 1)]


class PolicyChecks(Case):
    @each([*CHECKS, *LONG_CHECKS])
    def checks(self, words, data, told, said, status):
        self.compare(self.program.run(words, data), wanted(told, said, status))

    @each((f"line {it}", it) for it in WRONG_LINES)
    def wrong_lines(self, line):
        """Each line that a run refuses is complained of with a reason."""
        got = self.program.run(["check", "-"], b"mac 02:00:00:00:00:01\n" + line.encode())
        first, rest = got["stdout"].decode().split("\n", 1)
        is_taken = " ip " in line or "," in line
        self.compare({"status": got["status"], "number": first.split(":")[0].split(" ends")[0], "rest": rest,
                      "unexplained": "is of no form" in first},
                     {"status": 1, "number": "line 2", "rest": f"{EXPANDED % 2 if is_taken else ''}no policy: wrong lines 1\n",
                      "unexplained": False})

    @each((f"world {seed}", seed) for seed in range(40))
    def small_worlds(self, seed):
        """Beside a look at each packet: just the rules that match nothing that is new are told, the rules that are named match all that
        they match, and without one of those some is left. A rule that takes all alone is the first that does."""
        source = random.Random(seed)
        lines, packets = zip(*(rule_of_world(source) for _ in range(12)))
        got = self.program.run(["check", "-"], "".join(f"{it}\n" for it in lines).encode())
        told = {int(number): numbers_in(takers) for number, takers in TAKERS.findall(got["stdout"].decode())}
        wrong = []
        for place, own in enumerate(packets):
            named = told.pop(place + 1, [])
            alone = [k + 1 for k in range(place) if own <= packets[k]][:1]
            takes = [packets[k - 1] for k in named if k <= place]
            left_out = [own <= set().union(*takes[:k], *takes[k + 1:]) for k in range(len(takes))]
            is_right = len(takes) == len(named) and own <= set().union(*takes) and not any(left_out) and named == sorted(named)
            if bool(named) != (own <= set().union(*packets[:place])) or (alone and named != alone) or (named and not is_right):
                wrong.append((place + 1, named))
        self.compare({"status": got["status"], "wrong": wrong, "more": told}, {"status": 0, "wrong": [], "more": {}})

    @each((f"policy of {it}", it) for it in names_in("examples", ".policy"))
    def examples(self, name):
        """No policy of an example is complained of."""
        got = self.program.run(["check", f"{TOP}/examples/{name}.policy"])
        self.compare({**got, "remarks": got["stdout"].count(b"remark: ")},
                     {"stderr": b"", "status": 0, "remarks": REMARKS.get(name, 0)})

    def test_full_device(self):
        with open("/dev/full", "wb") as full:
            self.compare(self.program.run(["check", "-"], b"", stdout=full), {"stderr": b"racl: write failed\n", "status": 4})
