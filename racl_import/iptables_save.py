"""The rules of iptables-save and ip6tables-save."""
import collections
import re
import shlex

from .address_types import UNKNOWN, boxes_of_types
from .names import bits_of, number, protocol_box, type_box
from .packets import (ANY, BYTES, FAMILIES, ICMP6, PORTS, TCP, UDP, NoForm, address_boxes, flag_boxes, in_range, net_box, network,
                      other_addresses, other_values, product, shown)
from .rules import BEFORE, HOPS, ROUTED, STATES, UNROUTED, Base, Rule, Ruleset, Told, Wrong

TARGETS = {"ACCEPT": "permit", "DROP": "deny", "REJECT": "deny", "RETURN": "return",
           **dict.fromkeys(("DNAT", "SNAT", "MASQUERADE", "REDIRECT", "NETMAP"), "translate")}
# What decides nothing of a packet, and changes nothing that another line of the filter looks at, but marks, which are told there.
SILENT = {"LOG", "NFLOG", "ULOG", "MARK", "CONNMARK", "TRACE", "AUDIT", "SECMARK", "CONNSECMARK", "TCPMSS", "DSCP", "TOS", "CHECKSUM",
          "CLASSIFY", "HMARK", "SET", "TTL", "HL", "TEE", "CT", "NOTRACK", ""}
MODULES = {"tcp", "udp", "icmp", "icmp6", "ipv6-icmp", "multiport", "conntrack", "state", "comment", "iprange", "addrtype", "rpfilter", "hl", "rt"}
# The chains that see what is captured, in order; those of nat, which change packets; and those that see what is forwarded alone.
HOOKS = {"in": (("raw", "PREROUTING"), ("mangle", "PREROUTING"), ("mangle", "INPUT"), ("filter", "INPUT"), ("security", "INPUT")),
         "out": (("raw", "OUTPUT"), ("mangle", "OUTPUT"), ("filter", "OUTPUT"), ("security", "OUTPUT"), ("mangle", "POSTROUTING"))}
NAT, FORWARD = ("PREROUTING", "INPUT", "OUTPUT", "POSTROUTING"), ("mangle", "filter", "security")
UNTRACKED = "flows that it takes out of tracking are judged as if they were tracked"
CHANGED = "what came by a changed address has no form; the other states have"
NAMED_PORT = "number of a port (names of ports have no form)"


class Arguments:
    """What the options of a rule of iptables-save ask of packets."""

    def __init__(self, family, own):
        self.family, self.own, self.alternatives, self.states, self.devices, self.reason = family, own, [], STATES, [], None
        self.comment, self.target, self.is_goto, self.told, self.changed = "", "", False, [], False
        # Conditions that may go, each with the action for which they may, and what is told then.
        self.soft = []

    def take(self, words):
        words = collections.deque(words)
        while words:
            negated = words[0] == "!"
            if negated:
                words.popleft()
            option = words.popleft() if words else ""
            if option in ("-j", "--jump", "-g", "--goto"):
                self.ending(option, words)
                return
            values = []
            while words and len(values) < COUNTS.get(option, 1):
                if option not in COUNTS and (words[0] == "!" or words[0].startswith("-")):
                    break
                values.append(words.popleft())
            try:
                self.option(option, values, negated)
            except NoForm as why:
                self.reason = self.reason or str(why)
            except (ValueError, IndexError):
                self.reason = self.reason or f"`{shown(option)}` has a value of no known form"

    def ending(self, option, words):
        """The target, and what stands behind it."""
        self.target, self.is_goto = words.popleft() if words else "", option in ("-g", "--goto")
        rest = list(words)
        if self.target == "NOTRACK" or self.target == "CT" and "--notrack" in rest:
            self.told.append(Told("warning", UNTRACKED))
        if self.target in SILENT or TARGETS.get(self.target) == "translate" or self.target == "REJECT" and len(rest) == 2 and rest[0] == "--reject-with":
            return
        if rest:
            self.reason = self.reason or f"`{shown(rest[0])}` has no equal form"
            self.target = next((it for it, before in zip(rest[1:], rest) if before in ("-j", "-g")), self.target)

    def option(self, option, values, negated):
        if option == "--comment":
            self.comment = values[0]
        elif option == "-m":
            if values[0] not in MODULES:
                raise NoForm(f"`-m {shown(values[0])}` has no equal form")
        elif option in ("-i", "-o"):
            self.devices.append(("in" if option == "-i" else "out", (values[0].replace("+", "*"),), negated))
        elif option in ("--ctstate", "--state"):
            self.of_states(values[0], negated)
        elif option in ("--syn", "--tcp-flags"):
            mask, value = [bits_of(it.split(",")) for it in values] if values else (0x17, 0x02)
            self.alternatives.append(flag_boxes(value, mask, negated))
        elif option == "--dst-type":
            boxes, hangs = boxes_of_types(values[0].lower().split(","), "dest", self.family, self.own, negated)
            self.alternatives.append(boxes)
            self.told += [Told("warning", UNKNOWN)] if hangs else []
        elif option in ("--sport", "--dport", "--sports", "--dports", "--ports"):
            self.of_ports(option, values[0].split(","), negated)
        elif option in SOFT and not negated:
            is_all, given = SOFT[option]
            if is_all and values != is_all:
                raise NoForm(f"`{shown(option)} {shown(' '.join(values))}` has no equal form")
            self.soft += given
        else:
            self.alternatives.append(self.boxes(option, values, negated))

    def of_states(self, value, negated):
        named = frozenset(value.lower().split(","))
        self.changed = not negated and len(named & STATES) > 0 and bool(named - STATES)
        if not named <= STATES | {"dnat", "snat"} or named - STATES and not self.changed:
            raise NoForm(f"`{shown(value)}` has a state without an equal form")
        self.states &= STATES - named if negated else named

    def of_ports(self, option, values, negated):
        ranges = [self.range(it) for it in values]
        fields = {"s": ["sport"], "d": ["dport"], "p": ["sport", "dport"]}[option[2]]
        if negated:
            self.alternatives += [other_values(it, [ANY._replace(**{it: one}) for one in ranges], PORTS) for it in fields]
        else:
            self.alternatives.append([ANY._replace(**{field: it}) for field in fields for it in ranges])

    def boxes(self, option, values, negated):
        """The boxes of an option, or of all that isn't so."""
        if option in ("-s", "-d"):
            net = network(values[0])
            if net.version != self.family:
                raise Wrong(f"`{shown(values[0])}` is of the other family")
            field = "source" if option == "-s" else "dest"
            return other_addresses(field, [ANY._replace(family=net.version, **{field: net})]) if negated else [net_box(field, net)]
        if option in ("--src-range", "--dst-range"):
            first, _, last = values[0].partition("-")
            field = "source" if option == "--src-range" else "dest"
            boxes = address_boxes(field, first, last or first)
            return other_addresses(field, boxes) if negated else boxes
        if option in ("--icmp-type", "--icmpv6-type"):
            return self.of_type(4 if option == "--icmp-type" else 6, values[0], negated)
        if option == "-p" and not negated:
            return [ANY] if values[0] in ("all", "0") else [protocol_box(values[0])]
        raise NoForm(f"`! {shown(option)}` has no equal form; {BEFORE}" if negated else f"`{shown(option)}` has no equal form")

    @staticmethod
    def of_type(family, value, negated):
        if value in ("any", "255"):
            return [] if negated else [ANY]
        box = type_box(family, value)
        if not negated:
            return [box]
        same = other_values("code", [box], BYTES) if box.code else []
        return other_values("type", [box._replace(code=None)], BYTES) + same

    @staticmethod
    def range(text):
        first, colon, last = text.partition(":")
        ends = [number(it or str(most), {}, NAMED_PORT) for it, most in ((first, 0), (last if colon else first, PORTS[1]))]
        return in_range(*ends, PORTS)

    def decide(self, action, boxes):
        """The action once conditions are gone that may go."""
        for wanted, told in self.soft:
            if action != wanted or wanted == "permit" and any(it.proto != ICMP6 for it in boxes):
                self.reason = self.reason or "a condition has no equal form but of what is accepted of ICMPv6, or dropped"
            elif not self.reason:
                self.told.append(Told("warning", told))
        if self.changed:
            if action == "permit":
                self.told.append(Told("left out", CHANGED))
            else:
                self.reason = self.reason or CHANGED
        return None if self.soft and action == "deny" and not self.reason else action


# How many values an option takes that is known here, and what conditions may go for.
COUNTS = {**dict.fromkeys(("-s", "-d", "-p", "-i", "-o", "-m", "--comment", "--icmp-type", "--icmpv6-type", "--ctstate", "--state", "--src-range",
                           "--dst-range", "--sport", "--dport", "--sports", "--dports", "--ports", "--dst-type", "--hl-eq", "--rt-type"), 1),
          "--tcp-flags": 2, "--syn": 0, "-f": 0, "--invert": 0, "--validmark": 0}
SOFT = {"--invert": (None, [("deny", UNROUTED)]), "--validmark": (None, []), "--rt-type": (["0"], [("deny", ROUTED)]),
        "--hl-eq": (None, [("permit", HOPS)])}


class Tables:
    """The tables of a file: the policy of each chain, and the rules, with where they stand."""

    def __init__(self, text):
        self.policies, self.rules, self.writers, self.begun = {}, [], set(), {}
        table = None
        for place, line in enumerate(text.split("\n"), 1):
            line, where = line.rstrip("\r"), f"line {place}"
            self.writers.update(re.findall(r"^# Generated by (ip6?)tables-save", line))
            if line == "COMMIT":
                table = None
            elif line.strip() and not line.startswith("#"):
                table = self.take(table, where, line)
        if table:
            raise Wrong(f"the table {shown(table)} has no line COMMIT: it isn't whole")
        if "filter" not in self.begun:
            raise Wrong("there is no table *filter")

    def take(self, table, where, line):
        """Takes a line of a table, or one that begins the next. The table in which the line behind it stands."""
        declared = re.fullmatch(r":(\S+) (\S+)(?: \[\d+:\d+\])?", line)
        if line.startswith("*"):
            table = line[1:]
            if table in self.begun:
                raise Wrong(f"{where} begins the table {shown(table)} once more, of which {self.begun[table]} is the first: "
                            "iptables-restore keeps the last alone")
            self.begun[table] = where
        elif declared and table:
            self.policies[table, declared[1]] = declared[2], where, line
        elif re.match(r"(?:\[\d+:\d+\] )?-A \S", line) and table:
            line = re.sub(r"^\[\d+:\d+\] ", "", line)
            try:
                self.rules.append((table, where, line, shlex.split(line)))
            except ValueError:
                raise Wrong(f"{where} has a quotation that doesn't end") from None
        else:
            raise Wrong(f"{where} is no line of iptables-save: {shown(line)}")
        return table

    def family(self, is_six):
        """The family of the rules: what their writer says, or the caller, or addresses."""
        if len(self.writers) > 1:
            raise Wrong("these are rules of both families; each has a policy of its own")
        if self.writers and is_six and self.writers != {"ip6"}:
            raise Wrong("these are rules of iptables-save, and --ipv6 is given")
        if self.writers:
            return 6 if self.writers == {"ip6"} else 4
        return 6 if is_six or any(is_of_ipv6(words) for *_, words in self.rules) else 4


def is_of_ipv6(words):
    """Whether a rule has what IPv6 alone has."""
    return any(before in ("-s", "-d") and ":" in it or before == "-p" and it in ("ipv6-icmp", "icmpv6")
               or before == "--reject-with" and it.startswith("icmp6-") or it == "--icmpv6-type" and before not in ("--comment", "--log-prefix")
               for before, it in zip(words, words[1:]))


def rule_of(table, where, line, words, family, own, chains):
    it = Arguments(family, own)
    try:
        it.take(words[2:])
    except Wrong as why:
        raise Wrong(f"{where}: {why}") from None
    boxes = [ANY]
    try:
        boxes = product(it.alternatives)
    except NoForm as why:
        it.reason = it.reason or str(why)
    if any((box.sport or box.dport) and box.proto not in (TCP, UDP) for box in boxes):
        it.reason = it.reason or "ports are of TCP and UDP alone"
    if table == "raw" and it.states != STATES:
        it.reason = it.reason or "conntrack comes behind the table raw"
    if "rpfilter" in words and not any(why == UNROUTED for _, why in it.soft):
        it.reason = it.reason or "`-m rpfilter` has no equal form"
    if TARGETS.get(it.target) == "translate":
        action, it.reason = "translate", f"the target {it.target} has no equal form"
    elif it.target in TARGETS:
        action = it.decide(TARGETS[it.target], boxes)
    elif it.target in SILENT:
        action = None
    elif it.target in chains:
        action = it.decide("goto" if it.is_goto else "jump", boxes)
    else:
        action, it.reason = "unknown", f"the target {shown(it.target)} has no equal form"
    return Rule(where, line, it.comment, boxes, it.states, it.devices, action, it.target, it.reason, it.told)


def read(text, is_six, own):
    """The rules of a file, of which the host has these addresses."""
    tables = Tables(text)
    family = tables.family(is_six)
    ruleset = Ruleset("iptables-save")
    ruleset.families = (family,)
    ruleset.chains = {it: [] for it in tables.policies}
    for table, where, line, words in tables.rules:
        if (table, words[1]) not in ruleset.chains:
            raise Wrong(f"{where} is of a chain that isn't declared")
        chains = {chain for it, chain in tables.policies if it == table}
        ruleset.chains[table, words[1]].append(rule_of(table, where, line, words, family, own, chains))

    def base(table, chain):
        policy, *_ = tables.policies.get((table, chain), ("ACCEPT",))
        told = "" if table == "filter" else f"{table} "
        return Base((table, chain), policy == "ACCEPT", f"{told}{chain}'s policy")

    for direction, hooks in HOOKS.items():
        for table, chain in hooks:
            ruleset.add_base(direction, [family], base(table, chain), is_judged=table == "filter")
    for chain in NAT:
        ruleset.set_aside(base("nat", chain), "the table nat")
    for table in FORWARD:
        ruleset.set_aside(base(table, "FORWARD"), "", is_forward=True)
    ruleset.tell("note", "", "", f"the rules are those of {FAMILIES[family]} alone, so no packet of {FAMILIES[10 - family]} passes")
    return ruleset
