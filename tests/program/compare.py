"""What the word `compare` tells: which rules of two policies let different things become of a packet, each with an example."""
import ipaddress
import random
import re

from support.cases import Case, each, wanted

OWN = "mac 02:00:00:00:00:01\n"
SAME = b"the policies say the same of every packet\n"

# A line of a difference: the words of its packet, and what becomes of that by the one policy and by the other.
LINE = re.compile(r"((?:in|out) (?:if \d+ )?(?!unknown).*): (.*) -> (.*)")
WAY = re.compile(r"(?:in|out)(?: if \d+)?")
MAC = re.compile(r"interface (\d+): the mac lines differ")

SSH = "in permit+reflect ipv4 any 192.0.2.10 tcp dport 22 flags 02/17\n"
WEB = "in permit ipv6 any 2001:db8::10 tcp dport 80-89\n"


def crossing(count):
    """Rules for one port each, so many source ports and destination ports, which cross; and behind rules for the two halves of all sources
    one that never decides."""
    ports = [f"in permit ipv4 any any tcp {way} {2 * port + 1}" for way in ("sport", "dport") for port in range(count)]
    return "\n".join([*ports, "in permit ipv4 0.0.0.0/1 any tcp", "in permit ipv4 128.0.0.0/1 any tcp", "in deny ipv4 any any tcp", ""])


# Two policies, the pairs that let different things become of packets, and other lines.
PAIRS = [
    ("the same", SSH + WEB, SSH + WEB, []),
    ("no rules", "", "interface 3\n", []),
    ("in another order", SSH + WEB, WEB + SSH, []),
    ("one rule in two", "in permit ipv4 any any udp dport 1-20\n", "in permit ipv4 any any udp dport 1-9\nin permit ipv4 any any udp dport 10-20\n", []),
    ("halves of a network", "in deny ipv6 2001:db8::/64 any\nin permit ipv6 any any\n",
     "in deny ipv6 2001:db8::/65 any\nin deny ipv6 2001:db8:0:0:8000::/65 any\nin permit ipv6 any any\n", []),
    ("denied by a rule or by none", SSH + "in deny ipv4 any any\n", SSH, []),
    ("a rule that never decides", SSH, SSH + "in deny ipv4 any 192.0.2.10/32 tcp dport 22 flags 02/17\n", []),
    ("a rule less", SSH + WEB, SSH, ["in pass rule 2 -> drop default"]),
    ("a rule more", "", WEB, ["in drop default -> pass rule 1"]),
    ("without a session", SSH, SSH.replace("+reflect", ""), ["in pass rule 1 reflect -> pass rule 1"]),
    ("another port", SSH, SSH.replace("22", "23"), ["in pass rule 1 reflect -> drop default", "in drop default -> pass rule 1 reflect"]),
    ("other flags", SSH, SSH.replace("02/17", "02/02"), ["in drop default -> pass rule 1 reflect"]),
    ("one port of a range", WEB, "in deny ipv6 any any tcp dport 85\n" + WEB, ["in pass rule 1 -> drop rule 1"]),
    ("the other family", "in permit ipv4 any any\n", "in permit ipv6 any any\n", ["in pass rule 1 -> drop default", "in drop default -> pass rule 1"]),
    ("the last address", "in permit ipv6 any any icmp type 128\n",
     "in deny ipv6 ffff:ffff:ffff:ffff:ffff:ffff:ffff:ffff any icmp code 255\nin permit ipv6 any any icmp type 128\n", ["in pass rule 1 -> drop rule 1"]),
    ("later fragments alike", "in deny ipv4 any any udp dport 0-65534\nin permit ipv4 any any udp\n", "in deny ipv4 any any udp sport 1-65535\nin permit ipv4 any any udp\n",
     ["in pass rule 2 -> drop rule 1", "in drop rule 1 -> pass rule 2"]),
    ("another protocol", "in permit ipv4 any any 47\n", "", ["in pass rule 1 -> drop default"]),
    ("IPv4 within IPv6", "in permit ipv6 ::ffff:a00:1 any\n", "", ["in pass rule 1 -> drop default"]),
    ("both directions and sections", OWN + "out permit ipv4 any any\ninterface 255\nin permit ipv4 any any udp\ninterface 7\n" + OWN,
     OWN + "interface 255\nin permit+reflect ipv4 any any udp\ninterface 7\n" + OWN + "out permit ipv6 any any\n",
     ["out pass rule 1 -> drop default", "out if 7 drop default -> pass rule 1", "in if 255 pass rule 1 -> pass rule 1 reflect"]),
    ("reflected of a protocol without sessions", "in permit ipv4 any any 47\n", "in permit+reflect ipv4 any any 47\n", []),
    ("reflected echo replies", "in permit ipv4 any any icmp type 0\nin permit ipv6 any any icmp type 129\n",
     "in permit+reflect ipv4 any any icmp type 0\nin permit+reflect ipv6 any any icmp type 129\n", []),
    ("reflected echo requests", "in permit ipv4 any any icmp type 8\nin permit ipv6 any any icmp type 128\n",
     "in permit+reflect ipv4 any any icmp type 8\nin permit+reflect ipv6 any any icmp type 128\n",
     ["in pass rule 1 -> pass rule 1 reflect", "in pass rule 2 -> pass rule 2 reflect"]),
    ("reflected later fragments", "in permit ipv4 any any tcp flags 01/00\n", "in permit+reflect ipv4 any any tcp flags 01/00\n", []),
    ("reflected where all that starts a session is dropped before", *(
        f"in deny ipv4 any any tcp\nin deny ipv4 any any udp\nin deny ipv4 any any icmp type 8\nin {it} ipv4 any any\n" for it in ("permit", "permit+reflect")), []),
    ("reflected where one port is left that starts a session", *(
        f"in deny ipv4 any any tcp\nin deny ipv4 any any icmp\nin deny ipv4 any any udp dport 0-52\nin deny ipv4 any any udp dport 54-65535\nin {it} ipv4 any any\n"
        for it in ("permit", "permit+reflect")), ["in pass rule 5 -> pass rule 5 reflect"]),
    ("reflected where IPv4 is dropped before", *(f"in deny ipv4 any any\nin {it} ipv6 any any\n" for it in ("permit", "permit+reflect")),
     ["in pass rule 2 -> pass rule 2 reflect"]),
    ("out of an interface without a mac line", "interface 7\nout permit ipv4 any any\n", "interface 7\nout deny ipv6 any any\n", []),
    # some 30 rules are looked at for each of 3600 cells, more than the tests that a pair has of its own
    ("many cases", crossing(60), "in permit ipv4 any any tcp\n", []),
    ("two rules of the one and two of the other", "in permit ipv4 10.0.0.0/8 any\nin permit+reflect ipv4 any any\n",
     "in deny ipv4 any 10.0.0.0/8\nin permit ipv4 any any\n",
     ["in pass rule 1 -> drop rule 1", "in pass rule 2 reflect -> drop rule 1", "in pass rule 2 reflect -> pass rule 2"]),
]

FAULTS = [
    ("a wrong line", b"maybe\n", b"\n", "racl: {old}: line 1: `maybe` begins no line: in, out, mac and interface do; see racl check\n"),
    ("a wrong line of the other", b"\n", b"\nmaybe\n", "racl: {new}: line 2: `maybe` begins no line: in, out, mac and interface do; see racl check\n"),
    ("a wrong line of each", b"maybe\n", b"\nmaybe\n", "racl: {old}: line 1: `maybe` begins no line: in, out, mac and interface do; see racl check\n"),
]

# Two policies whose own addresses differ, or whose rules make too many cases, and the report.
REPORTS = [
    ("other mac lines", OWN + SSH, OWN.replace("1", "2") + SSH + "interface 9\n" + OWN,
     b"interface 0: the mac lines differ\ninterface 9: the mac lines differ\npairs that differ 0 unknown 0\n"),
    ("a mac line more", "out permit ipv4 any any\n", OWN + "out deny ipv4 any any\n", b"interface 0: the mac lines differ\npairs that differ 0 unknown 0\n"),
    ("another mac line, and other rules", OWN + "out permit ipv4 any any 47\n", OWN.replace("1", "2"),
     b"interface 0: the mac lines differ\nout 47 0.0.0.0 0.0.0.0: pass rule 1 -> drop default\npairs that differ 1 unknown 0\n"),
    ("too many cases", crossing(300), "in permit ipv4 any any tcp\n",
     b"in unknown: drop rule 603 -> pass rule 1\npairs that differ 0 unknown 1\n"),
]

# What random policies have of each kind of word, and the packets of a small world on which they are tried.
ENDS = {"ipv4": ["any", "10.0.0.0/30", "10.0.0.2/31", "10.0.0.1"], "ipv6": ["any", "2001:db8::/126", "2001:db8::2/127", "2001:db8::1"]}
ACTIONS = ["deny", "permit", "permit+reflect"]
PARTS = ["", "any", "tcp", "tcp dport 1-2", "tcp sport 2 dport 1", "tcp flags 02/12", "tcp dport 2 flags 10/10", "tcp flags 01/00", "udp", "udp sport 1-2",
         "udp dport 2", "icmp", "icmp type 8", "icmp type 8-9 code 1", "icmp type 0-127", "icmp type 128", "47"]
CARRIED = [f"tcp {{}} {a} {{}} {b} flags {it}" for a in (1, 2) for b in (1, 2) for it in ("02", "10", "12")] + [
    f"udp {{}} {a} {{}} {b}" for a in (1, 2) for b in (1, 2)] + [f"icmp {{}} {{}} type {a} code {b}" for a in (0, 8, 9, 128) for b in (0, 1)] + [
    "fragment tcp {} {}", "fragment udp {} {}", "fragment icmp {} {}", "47 {} {}", "50 {} {}"]
ADDRESSES = {"ipv4": [f"10.0.0.{it}" for it in range(5)], "ipv6": [f"2001:db8::{it}" for it in range(5)]}
WORLD = [it.format(one, other) for ends in ADDRESSES.values() for one in ends for other in ends for it in CARRIED]
WAYS = ["in", "out", "in if 1", "out if 1"]


def number_of(protocol, family):
    return {"tcp": 6, "udp": 17, "icmp": 1 if family == "ipv4" else 58}.get(protocol) or int(protocol)


class Packet:
    """A packet by its words, as far as rules look at it and at the way that it goes."""

    def __init__(self, words):
        kind, *rest = WAY.sub("", words, count=1).strip().removeprefix("fragment ").split()
        self.ends = [ipaddress.ip_address(it) for it in rest if re.search("[.:]", it)]
        self.family = f"ipv{self.ends[0].version}"
        self.proto = number_of(kind, self.family)
        others = [it for it in rest if not re.search("[.:]", it)]
        self.numbers = [int(it) for it in (others[1::2] if "type" in rest else others[:2])]
        self.flags = int(others[3], 16) if "flags" in rest else 0
        # TCP, UDP and echo requests may start sessions, but no later fragment
        self.starts = bool(self.numbers) and (kind != "icmp" or self.numbers[0] == {"ipv4": 8, "ipv6": 128}[self.family])


PACKETS = [(it, Packet(it)) for it in WORLD]


class Rule:
    """A rule by its words, and which packets it matches."""

    def __init__(self, words):
        self.way, self.action, self.family, *ends = words.split()[:5]
        every = "0.0.0.0/0" if self.family == "ipv4" else "::/0"
        self.ends = [ipaddress.ip_network(every if it == "any" else it) for it in ends]
        protocol, *parts = words.split()[5:] or ["any"]
        self.proto = None if protocol == "any" else number_of(protocol, self.family)
        given = dict(zip(parts[::2], parts[1::2]))
        self.ranges = [[*map(int, given.get(one, given.get(other, "0-65535")).split("-"))] for one, other in (("sport", "type"), ("dport", "code"))]
        self.value, self.mask = (int(it, 16) for it in given.get("flags", "00/00").split("/"))

    def matches(self, packet):
        if self.family != packet.family or self.proto not in (None, packet.proto) or not all(it in net for it, net in zip(packet.ends, self.ends)):
            return False
        if self.proto is None or not packet.numbers:
            return True
        return packet.flags & self.mask == self.value and all(it[0] <= n <= it[-1] for n, it in zip(packet.numbers, self.ranges))


def decider(rules, packet):
    """The number and the action of the first rule that matches."""
    return next(((number, it.action) for number, it in enumerate(rules, 1) if it.matches(packet)), (0, "deny"))


def words_of(number, action):
    """What is told where this decides."""
    told = f"rule {number}" if number else "default"
    return {"deny": f"drop {told}", "permit": f"pass {told}", "permit+reflect": f"pass {told} reflect"}[action]


def outcome(action, packet):
    """What becomes of the packet, if no session is there: none is entered where it may start none."""
    return "permit" if action == "permit+reflect" and not packet.starts else action


def verdict_of(rules, packet):
    """What a report says of the packet, if no session is there."""
    number, action = decider(rules, packet)
    return words_of(number, outcome(action, packet))


def random_rule(source):
    family = source.choice(["ipv4", "ipv4", "ipv6"])
    ends = ENDS[family]
    return f"{source.choice(['in', 'in', 'out'])} {source.choice(ACTIONS)} {family} {source.choice(ends)} {source.choice(ends)} {source.choice(PARTS)}"


def random_policies(source):
    """Two policies, of which the other has some rules of the one, some with another action. A section is its own address, if any, and its
    rules."""
    one, two = [], []
    for _ in range(2):
        own = source.choice([OWN, OWN, ""])
        one.append((own, [random_rule(source) for _ in range(source.randint(0, 6))]))
        rules = [it if source.random() < .7 else random_rule(source) for it in one[-1][1] if source.random() < .9]
        rules = [it if source.random() < .8 else re.sub(r"permit(?:\+reflect)?", source.choice(ACTIONS), it) for it in rules]
        for _ in range(source.choice([0, 0, 1])):
            rules.insert(source.randint(0, len(rules)), random_rule(source))
        two.append((own if source.random() < .8 else source.choice([OWN, ""]), rules))
    return one, two


def text_of(sections):
    return "".join(f"{heading}{own}" + "".join(f"{it}\n" for it in rules) for heading, (own, rules) in zip(("", "interface 1\n"), sections))


def rules_by_way(sections):
    """The rules of each way in which packets are seen: those that go out only where there is an own address."""
    return {way: [it for it in map(Rule, sections[way.endswith("1")][1]) if it.way == way.split()[0]]
            for way in WAYS if way.startswith("in") or sections[way.endswith("1")][0]}


def asked(packets):
    """The packets, each so late that no session of one before lives."""
    return [f"{100_000 * place} {it}" for place, it in enumerate(packets)]


def verdicts_in(report):
    """What a report says of each packet."""
    return [it.split(" ", 1)[1] for it in re.sub(r"(?m)^(\d+) if \d+", r"\1", report).splitlines()[:-1]]


def differences(told):
    """The packets that are told, each with its pair; and whether pairs are told once, and counted at the end."""
    *lines, last = told.splitlines()
    lines = [it for it in lines if not MAC.fullmatch(it)]
    found = [LINE.fullmatch(it) for it in lines]
    pairs = [(WAY.match(it[1])[0], it[2], it[3]) for it in found if it]
    is_whole = all(found) and len(set(pairs)) == len(pairs)
    end = f"pairs that differ {len(lines)} unknown 0" if MAC.search(told) or lines else SAME.decode().strip()
    return [it.groups() for it in found if it], pairs, is_whole and last == end


def wrong_with(old, new, told):
    """What is wrong of what was told of two policies, by a look at the packets that are told and at each of a small world."""
    examples, pairs, is_whole = differences(told)
    if not is_whole:
        return f"not each pair once, or not so many: {told!r}"
    if [int(it) for it in MAC.findall(told)] != [number for number, it in enumerate(zip(old, new)) if it[0][0] != it[1][0]]:
        return f"not the interfaces whose own addresses differ: {told!r}"
    rules = [rules_by_way(it) for it in (old, new)]
    ways = [it for it in WAYS if all(it in by_way for by_way in rules)]
    tried = [(WAY.match(it[0])[0], it[0], Packet(it[0]), True) for it in examples] + [(way, f"{way} {words}", it, False) for way in ways for words, it in PACKETS]
    for way, words, packet, is_told in tried:
        decided = [decider(by_way.get(way, []), packet) for by_way in rules]
        differs = way in ways and len({outcome(action, packet) for _, action in decided}) == 2
        if is_told and not (differs and (words, *(words_of(*it) for it in decided)) in examples):
            return f"is told, and isn't so: {words}"
        if differs and (way, *(words_of(*it) for it in decided)) not in pairs:
            return f"isn't told: {words}"
    return None


class Compared(Case):
    def compared(self, old, new):
        self.old, self.new = self.hold("old", old.encode()), self.hold("new", new.encode())
        return self.program.run(["compare", self.old, self.new])

    def ask(self, policy, packets):
        return self.program.run(["ask", policy, *asked(packets)])["stdout"].decode()

    @each(PAIRS)
    def pairs(self, old, new, lines):
        got = self.compared(OWN + old.removeprefix(OWN), OWN + new.removeprefix(OWN))
        examples, pairs, is_whole = differences(got["stdout"].decode())
        self.compare({"whole": is_whole, "pairs": sorted(f"{way} {one} -> {two}" for way, one, two in pairs), "status": got["status"]},
                     {"whole": True, "pairs": sorted(lines), "status": 5 if lines else 0})
        packets = [it[0] for it in examples]
        for policy, place in ((self.old, 1), (self.new, 2)):
            said = verdicts_in(self.ask(policy, packets))
            other = [(one, it[place]) for one, it in zip(said, examples) if it[place] not in (one, f"{one} reflect")]
            self.compare({"asked": len(said), "other": other}, {"asked": len(packets), "other": []})

    def test_short_addresses(self):
        """Runs of zeros in an address of IPv6 are left out, as elsewhere."""
        got = self.compared("in permit ipv6 2001:db8::1 ::ffff:a00:1 udp dport 53\n", "")
        self.compare(got, wanted(b"in udp 2001:db8::1 0 ::ffff:a00:1 53: pass rule 1 -> drop default\npairs that differ 1 unknown 0\n", status=5))

    @each((f"policies {seed}", seed) for seed in range(60))
    def by_random(self, seed):
        """Beside a look at each packet. The packets that are told, and some others, are asked about, too."""
        source = random.Random(seed)
        sections = random_policies(source)
        got = self.compared(*map(text_of, sections))
        told = got["stdout"].decode()
        wrong = [wrong_with(*sections, told)]
        for policy, one in ((self.old, sections[0]), (self.new, sections[1])):
            rules = rules_by_way(one)
            packets = [it[0] for it in differences(told)[0] if WAY.match(it[0])[0] in rules]
            packets += [f"{source.choice(list(rules))} {source.choice(WORLD)}" for _ in range(50)]
            said = verdicts_in(self.ask(policy, packets))
            wrong += [(it, verdict) for it, verdict in zip(packets, said, strict=True) if verdict != verdict_of(rules[WAY.match(it)[0]], Packet(it))]
        self.compare({"wrong": [it for it in wrong if it], "status": got["status"]}, {"wrong": [], "status": 0 if got["stdout"] == SAME else 5})

    @each(REPORTS)
    def reports(self, old, new, report):
        self.compare(self.compared(old, new), wanted(report, status=5))

    @each(FAULTS)
    def faults(self, old, new, said):
        got = self.compared(old.decode(), new.decode())
        self.compare(got, wanted(stderr=said.format(old=self.old, new=self.new), status=1))

    @each([("no files", ["compare"], "the following required arguments were not provided:\n  <OLD>\n  <NEW>"),
           ("one file", ["compare", "a"], "the following required arguments were not provided:\n  <NEW>"),
           ("three files", ["compare", "a", "b", "c"], "unexpected argument 'c' found")])
    def words(self, given, why):
        told = f"error: {why}\n\nUsage: racl compare OLD NEW\n\nFor more information, try '--help'.\n"
        self.compare(self.program.run(given), wanted(stderr=told, status=2))

    def test_a_file_that_is_missing(self):
        got = self.program.run(["compare", f"{self.folder}/none", f"{self.folder}/none"])
        self.compare(got, wanted(stderr=f"racl: {self.folder}/none: No such file or directory (os error 2)\n", status=4))
