"""The rules of VPP's `show acl-plugin acl`."""
import re

from .packets import ANY, BYTES, ICMP_OF, PORTS, TCP, UDP, NoForm, in_range, meet, net_box, network
from .rules import STATES, Base, Rule, Ruleset, Wrong, shown

ACL = re.compile(r"acl-index (\d+) count (\d+) tag \{.*\}\s*")
ACE = re.compile(r"\s*\d+: (ipv4|ipv6) (deny|permit|permit\+reflect) src (\S+) dst (\S+) proto (\d+) sport (\d+)(?:-(\d+))? "
                 r"dport (\d+)(?:-(\d+))?(?: tcpflags (\d+) mask (\d+))?\s*")
BESIDE = re.compile(r"\s+(?:applied (?:inbound|outbound) on sw_if_index|used in lookup context index):.*")


def box_of(found):
    family = 4 if found[1] == "ipv4" else 6
    source, dest = network(found[3]), network(found[4])
    if {source.version, dest.version} != {family}:
        raise NoForm("an address is of the other family")
    box = meet(net_box("source", source), net_box("dest", dest))
    proto = int(found[5])
    if proto > 255:
        raise NoForm(f"protocol {proto} has no form")
    # VPP looks at ports, types and flags where there is a protocol alone
    if not proto:
        return box
    pairs = [(int(found[at]), int(found[at + 1] or found[at])) for at in (6, 8)]
    box = box._replace(proto=proto)
    if proto in (TCP, UDP):
        sport, dport = (in_range(*it, PORTS) for it in pairs)
        box = box._replace(sport=sport, dport=dport)
    elif proto == ICMP_OF[family]:
        kind, code = (in_range(first, min(last, 255), BYTES) for first, last in pairs)
        box = box._replace(type=kind, code=code)
    elif any(it != PORTS for it in pairs):
        raise NoForm("ports are of TCP and UDP alone")
    # A value with bits outside its mask is that of no flags, and such a rule still matches later fragments, which have none; so does
    # a policy's.
    value, mask = (int(found[at] or 0) for at in (10, 11))
    if proto == TCP and (value or mask):
        if max(value, mask) > BYTES[1]:
            raise NoForm("flags of TCP are of one byte")
        box = box._replace(flags=(value, mask))
    return box


def read(text, bound):
    """The rules of the ACLs that are bound to each direction."""
    ruleset, acls, counts, current = Ruleset("vpp"), {}, {}, None
    for place, line in enumerate(text.split("\n"), 1):
        where, line = f"line {place}", line.rstrip("\r")
        head, entry = ACL.fullmatch(line), ACE.fullmatch(line)
        if head:
            if int(head[1]) in acls:
                raise Wrong(f"{where} begins acl-index {head[1]} once more")
            current = acls[int(head[1])] = []
            counts[int(head[1])] = int(head[2])
        elif entry and current is not None:
            box, reason = ANY, None
            try:
                box = box_of(entry)
            except NoForm as why:
                reason = str(why)
            action = "reflect" if entry[2] == "permit+reflect" else entry[2]
            current.append(Rule(where, line.strip(), "", [box], STATES, [], action, None, reason, []))
        elif line.strip() and not BESIDE.fullmatch(line):
            raise Wrong(f"{where} is no line of `show acl-plugin acl`: {shown(line.strip())}")
    for it, rules in acls.items():
        if len(rules) != counts[it]:
            raise Wrong(f"acl-index {it} has {len(rules)} rules, and not the {counts[it]} that it counts")
    if not acls:
        raise Wrong("there is no line `acl-index N count N tag {..}`")
    for direction, indices in bound.items():
        missing = [it for it in indices if it not in acls]
        if missing:
            raise Wrong(f"there is no acl-index {missing[0]}; there are {', '.join(map(str, sorted(acls)))}")
        if indices:
            ruleset.chains[direction,] = [rule for it in indices for rule in acls[it]]
            ruleset.add_base(direction, (4, 6), Base((direction,), False, ""))
    ruleset.has_fragments = True
    return ruleset
