"""Which lines of a ruleset stand for sessions: flows whose packets are let through both ways."""
from .packets import ANY, ICMP, ICMP6, TCP, UDP, holds, is_icmp, meet, meets

# The types by which conntrack takes up a flow of ICMP, and those that it doesn't track; of echo the request and the answer.
OPENING_TYPES = {4: ((8, 8), (13, 13), (15, 15), (17, 17)), 6: ((128, 128), (139, 139))}
UNTRACKED_TYPES = {4: (), 6: ((130, 136), (143, 143))}
ECHO = {4: (8, 0), 6: (128, 129)}
# The flags of a TCP packet by which it takes up a connection: SYN alone, or ACK where the beginning wasn't seen.
OPENING_FLAGS = ((0x02, 0x17), (0x10, 0x17))
# The types of ICMP errors, each of a flow of some protocol.
ERROR_TYPES = {4: ((3, 3), (11, 12)), 6: ((1, 4),)}


def is_of_flows(item):
    return item.kind == "permit" and "established" in item.states and "new" not in item.states


def mirrored(box):
    """The answers of a flow whose packets are in the box."""
    reply = (ECHO[box.family][1],) * 2 if is_icmp(box) else box.type
    return box._replace(source=box.dest, dest=box.source, sport=box.dport, dport=box.sport, flags=None, type=reply, code=None)


def asking(box):
    """The packets of flows whose answers are in the box."""
    request = (ECHO[box.family][0],) * 2 if is_icmp(box) else box.type
    return mirrored(box)._replace(type=request)


def forward(box):
    """All packets of a flow that one in the box began, the same way."""
    kind = (ECHO[box.family][0],) * 2 if is_icmp(box) else None
    return box._replace(flags=None, code=None, type=kind)


def may_enter(box):
    """Whether a packet of the box may enter a session."""
    echo = ECHO[box.family][0]
    return box.proto in (None, TCP, UDP) or is_icmp(box) and (box.type is None or box.type[0] <= echo <= box.type[1])


def covering(items, box):
    """The rule that accepts all packets of live flows in a box, the drops before it that take some of them, and whether others do
    of new flows alone, so that it isn't by that rule that flows live on."""
    cuts, is_needed = [], False
    for it in items:
        if it.box is None or not meet(it.box, box):
            continue
        if it.kind == "deny" and "established" in it.states:
            cuts.append(it)
        elif it.kind == "deny":
            is_needed = True
        elif "established" in it.states and holds(it.box, box):
            return it, cuts, is_needed or is_of_flows(it)
    return None, cuts, False


def openings(box, states):
    """The packets of a box by which a flow may begin, where those that are of no flow aren't accepted."""
    if "invalid" in states:
        return [box]
    if box.proto == TCP:
        return meets([box], [ANY._replace(flags=it) for it in OPENING_FLAGS])
    if is_icmp(box):
        untracked = UNTRACKED_TYPES[box.family] if "untracked" in states else ()
        return meets([box], [ANY._replace(type=it) for it in (*OPENING_TYPES[box.family], *untracked)])
    return [box]


def is_untracked(box):
    """Whether conntrack tracks no packet of a box of ICMP."""
    return is_icmp(box) and box.type is not None and any(first <= box.type[0] and box.type[1] <= last for first, last in UNTRACKED_TYPES[box.family])


def errors(box):
    """The ICMP errors in a box of one family, which conntrack calls related where they are of a flow."""
    kinds = [ANY._replace(family=box.family, proto={4: ICMP, 6: ICMP6}[box.family], type=it) for it in ERROR_TYPES[box.family]]
    return meets([box], kinds)


def is_fine(box):
    """Whether a box has some packets of a flow alone."""
    return bool(box.flags or box.type or box.code)
