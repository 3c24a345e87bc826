"""What matches of nft's JSON ask of packets."""
import functools
import operator

from .address_types import UNKNOWN, boxes_of_types
from .names import CODES, PROTOCOLS, TYPES, bits_of, number, protocol_box
from .nft_text import compact
from .packets import (ANY, BITS, BYTES, ICMP_OF, PORTS, TCP, UDP, NoForm, address_boxes, flag_boxes, in_range, net_box, network,
                      other_addresses, other_values, product, shown)
from .rules import BEFORE, HOPS, ROUTED, STATES, UNROUTED, Told

# What an element of a set may have beside its value without asking more of packets.
OF_ELEMENTS = {"val", "timeout", "expires", "comment", "counter"}
DEVICES = ("iif", "iifname", "oif", "oifname")
# Fields of which a match can ask that they are none of some values.
FIELDS = {"saddr": "source", "daddr": "dest", "sport": "sport", "dport": "dport", "type": "type", "code": "code"}


def as_list(value):
    return value if isinstance(value, list) else [value]


class Asked:
    """What the matches of a rule ask of packets."""

    def __init__(self, family):
        self.alternatives = [[ANY._replace(family=family)]] if family else []
        self.ports_alone, self.states, self.devices, self.told, self.soft = [], STATES, [], [], []

    def boxes(self, more):
        """The boxes of a rule whose map of verdicts asks for these, too."""
        found = product([*self.alternatives, more])
        if self.ports_alone and not {box.proto for box in found} <= {TCP, UDP}:
            raise NoForm("`th` without `meta l4proto` has no equal form")
        return product([found, *self.ports_alone])


class Table:
    """A table of nft: its family, and its sets and maps; and the host's own addresses."""

    def __init__(self, family, own, is_dormant):
        self.family, self.own, self.is_dormant, self.sets = family, own, is_dormant, {}

    def named(self, name):
        if name not in self.sets:
            raise NoForm(f"there is no set @{shown(name)}")
        return self.sets[name]

    def elements(self, value):
        """The values of a set, named or not, or one value."""
        if isinstance(value, str) and value.startswith("@"):
            return [self.plain(it) for it in self.named(value[1:])]
        return [self.plain(it) for it in as_list(value["set"])] if isinstance(value, dict) and "set" in value else [value]

    @staticmethod
    def plain(value):
        if not (isinstance(value, dict) and "elem" in value):
            return value
        more = sorted(set(value["elem"]) - OF_ELEMENTS)
        if more:
            raise NoForm(f"an element has `{shown(more[0])}` of its own, which has no equal form")
        return value["elem"]["val"]

    def ask(self, asked, statement):
        """Adds what a match asks."""
        left, right, op = statement["left"], statement["right"], statement["op"]
        if op not in ("==", "!=", "in", "<", ">", "<=", ">=", "!"):
            raise NoForm(f"`{shown(op)}` has no equal form")
        key = left if isinstance(left, dict) else {}
        if key.get("ct", {}).get("key") == "state":
            asked.states &= self.states(right, op)
        elif key.get("meta", {}).get("key") in DEVICES:
            asked.devices.append(self.device(key["meta"]["key"], right, op))
        elif "fib" in key:
            self.ask_fib(asked, key["fib"], right, op)
        elif (op, right) == ("==", 255) and key.get("payload") == {"protocol": "ip6", "field": "hoplimit"}:
            asked.soft.append(("permit", HOPS))
        elif (op, right) == ("==", 0) and key.get("exthdr") == {"name": "rt", "field": "type"}:
            asked.soft.append(("deny", ROUTED))
        else:
            boxes = self.match(left, self.elements(right), op)
            (asked.ports_alone if '"protocol":"th"' in compact(left) else asked.alternatives).append(boxes)

    def states(self, right, op):
        if op in ("==", "!=") and (isinstance(right, list) or isinstance(right, dict) and "|" in right):
            raise NoForm("several states at once are never so; nft writes `ct state a,b` or `ct state ! a,b` for one of them")
        named = frozenset(state for it in self.elements(right) for state in as_list(it))
        if not named <= STATES or op not in ("==", "in", "!=", "!"):
            raise NoForm("it has a state without an equal form")
        return STATES - named if op in ("!=", "!") else named

    def device(self, key, right, op):
        names = self.elements(right)
        if op not in ("==", "!=") or not all(isinstance(it, str) for it in names):
            raise NoForm("what it asks of devices has no equal form")
        return "in" if key[0] == "i" else "out", tuple(names), op == "!="

    def ask_fib(self, asked, fib, right, op):
        """A look into the routes: whether a packet's source is routed by its device, or of which type its destination is."""
        if fib["result"] == "oif" and set(fib["flags"]) - {"mark"} == {"saddr", "iif"} and (op, right) == ("==", False):
            asked.soft.append(("deny", UNROUTED))
        elif (fib["result"], fib["flags"]) == ("type", ["daddr"]) and op in ("==", "!="):
            parts = [boxes_of_types(self.elements(right), "dest", it, self.own, op == "!=") for it in ([self.family] if self.family else [4, 6])]
            asked.alternatives.append([box for boxes, _ in parts for box in boxes])
            asked.told += [Told("warning", UNKNOWN)] if any(hangs for _, hangs in parts) else []
        else:
            raise NoForm("`fib` has no equal form but of types of destinations")

    def match(self, left, values, op):
        if op == "!=" and left.get("payload", {}).get("field") in FIELDS or op == "!=" and left.get("meta", {}).get("key") == "nfproto":
            return self.others(left, [box for it in values for box in self.value_boxes(left, it, "==")])
        if op == "!=" and (len(values) != 1 or '"field":"flags"' not in compact(left)):
            raise NoForm(f"`!=` has no equal form; {BEFORE}")
        return [box for it in values for box in self.value_boxes(left, it, op)]

    @staticmethod
    def others(left, boxes):
        """The boxes of all packets that have this field, with a value of none of these."""
        field = FIELDS.get(left.get("payload", {}).get("field"))
        if not boxes or '"th"' in compact(left):
            raise NoForm("`!=` of an empty set, or of `th`, has no equal form")
        if field in ("source", "dest"):
            return other_addresses(field, boxes)
        if field:
            return other_values(field, boxes, PORTS if field in ("sport", "dport") else BYTES)
        return [ANY._replace(family=it) for it in (4, 6) if it not in {box.family for box in boxes}]

    def verdicts(self, given):
        """Of a map of verdicts: what each key asks, with its boxes and verdict, states of one verdict together."""
        data, found, of_states = given["data"], [], {}
        for key, verdict in self.named(data[1:]) if isinstance(data, str) else data["set"]:
            asked = Asked(None)
            self.ask(asked, {"op": "==", "left": given["key"], "right": self.plain(key)})
            if asked.soft or asked.told or asked.ports_alone:
                raise NoForm("what the map asks has no equal form")
            if asked.states != STATES:
                of_states.setdefault(compact(verdict), (set(), verdict))[0].update(asked.states)
            else:
                found.append((product(asked.alternatives), STATES, asked.devices, verdict))
        return found + [([ANY], frozenset(named), [], verdict) for named, verdict in of_states.values()]

    def value_boxes(self, left, value, op):
        if "concat" in left:
            if not isinstance(value, dict) or "concat" not in value or len(value["concat"]) != len(left["concat"]):
                raise NoForm("an element has not as many parts as are asked for")
            return product([self.value_boxes(*it, op) for it in zip(left["concat"], value["concat"])])
        mask = None
        if "&" in left:
            left, mask = left["&"]
        payload, meta = left.get("payload"), left.get("meta")
        if meta and mask is None and op == "==":
            if meta["key"] == "l4proto":
                return [protocol_box(value)]
            families = {"ipv4": 4, "ip": 4, "ipv6": 6, "ip6": 6}
            if meta["key"] in ("nfproto", "protocol") and value in families:
                return [ANY._replace(family=families[value])]
        if not payload or "protocol" not in payload:
            raise NoForm(f"`{shown(compact(left))}` has no equal form")
        what = payload["protocol"], payload["field"]
        if what == ("tcp", "flags"):
            return self.of_flags(value, mask, op)
        if mask is not None or op in ("in", "!"):
            raise NoForm("a mask of bits has no equal form but of flags")
        return self.field_boxes(*what, value, op)

    def field_boxes(self, protocol, field, value, op):
        if protocol in ("ip", "ip6") and field in ("saddr", "daddr") and op == "==":
            field = "source" if field == "saddr" else "dest"
            if isinstance(value, dict) and "range" in value:
                return address_boxes(field, *value["range"])
            if isinstance(value, dict) and "prefix" in value:
                value = f"{value['prefix']['addr']}/{value['prefix']['len']}"
            return [net_box(field, network(value))]
        if (protocol, field) == ("ip", "protocol") and op == "==":
            return [protocol_box(value)._replace(family=4)]
        if (protocol, field) == ("ip6", "nexthdr"):
            raise NoForm("`ip6 nexthdr` looks at the first header alone; `meta l4proto` has a form")
        if field in ("sport", "dport") and protocol in ("tcp", "udp", "th"):
            proto = PROTOCOLS.get(protocol)
            return [ANY._replace(proto=it, **{field: self.range(value, op, {}, PORTS)}) for it in ([proto] if proto else [TCP, UDP])]
        if field in ("type", "code") and protocol in ("icmp", "icmpv6"):
            family = 4 if protocol == "icmp" else 6
            names = TYPES[family] if field == "type" else CODES[family]
            box = ANY._replace(family=family, proto=ICMP_OF[family])
            return [box._replace(**{field: self.range(value, op, names, BYTES)})]
        raise NoForm(f"`{shown(protocol)} {shown(field)}` has no equal form")

    @staticmethod
    def range(value, op, names, most):
        ends = value["range"] if isinstance(value, dict) and "range" in value else [value, value]
        first, last = (number(it, names, "number") for it in ends)
        if isinstance(first, tuple) or isinstance(last, tuple):
            raise NoForm(f"`{shown(value)}` is no number")
        first, last = {"==": (first, last), "<": (0, first - 1), "<=": (0, first), ">": (first + 1, most[1]), ">=": (first, most[1])}[op]
        return in_range(first, last, most)

    @staticmethod
    def of_flags(value, mask, op):
        def bits(it):
            names = it["|"] if isinstance(it, dict) and "|" in it else as_list(it)
            return functools.reduce(operator.or_, (bits(one) if isinstance(one, (dict, list)) else bits_of([one]) for one in names), 0)
        wanted = bits(value)
        if mask is None and op == "in":
            return [box for it in BITS if wanted & it for box in flag_boxes(it, it)]
        if mask is None and op == "!":
            return flag_boxes(0, wanted)
        if op not in ("==", "!="):
            raise NoForm(f"flags with `{shown(op)}` have no equal form")
        return flag_boxes(wanted, 0xFF if mask is None else bits(mask), op == "!=")
