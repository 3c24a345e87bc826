"""Boxes of packets: what a rule of a policy can ask of a packet, and what of that another filter's rules ask."""
import collections
import ipaddress

MOST_RULES = 4096
FAMILIES = {4: "ipv4", 6: "ipv6"}
TCP, UDP, ICMP, ICMP6 = 6, 17, 1, 58
ICMP_OF = {4: ICMP, 6: ICMP6}
PORTS, BYTES, BITS = (0, 65535), (0, 255), [1 << it for it in range(8)]

# What a rule asks of a packet; None is anything. A box is of one family once it is written.
Box = collections.namedtuple("Box", "family source dest proto sport dport flags type code")
ANY = Box(*[None] * 9)


class NoForm(Exception):
    """Why a rule has no equal form."""


def shown(text, most=200):
    """A text of others: bytes that are no visible ASCII as \\xNN, and cut."""
    told = "".join(chr(it) if 32 <= it < 127 else f"\\x{it:02x}" for it in str(text).encode("utf-8", "surrogateescape"))
    return told if len(told) <= most else f"{told[:most - 2]}.."


def meet_of(field, one, other):
    """What holds of a field where both hold; NoForm where nothing does."""
    if one is None or other is None or one == other:
        return one if other is None else other
    if field in ("source", "dest") and one.version == other.version:
        if one.subnet_of(other) or other.subnet_of(one):
            return max(one, other, key=lambda it: it.prefixlen)
    elif field == "flags":
        (value, mask), (value2, mask2) = one, other
        if value & mask2 == value2 & mask:
            return value | value2, mask | mask2
    elif field in ("sport", "dport", "type", "code"):
        first, last = max(one[0], other[0]), min(one[1], other[1])
        if first <= last:
            return first, last
    raise NoForm


def meet(one, other):
    """The packets of both boxes, or None."""
    try:
        return Box(*map(meet_of, Box._fields, one, other))
    except NoForm:
        return None


def meets(boxes, others):
    return [it for it in (meet(one, other) for one in boxes for other in others) if it]


def holds(outer, inner):
    return meet(outer, inner) == inner


def product(alternatives):
    """The boxes of a rule that asks for one of each of these lists."""
    boxes = [ANY]
    for it in alternatives:
        boxes = meets(boxes, it)
        if len(boxes) > MOST_RULES:
            raise NoForm(f"it stands for more than {MOST_RULES} rules")
    return boxes


def is_icmp(box):
    """Whether a box has ICMP of its own family alone, the other of which no packet has types."""
    return box.proto is not None and box.proto == ICMP_OF.get(box.family)


def whole_of(box):
    """The box without what later fragments don't have."""
    return box._replace(sport=None, dport=None, flags=None, type=None, code=None)


def in_range(first, last, most):
    """A range; None for all numbers."""
    if not 0 <= first <= last <= most[1]:
        raise NoForm(f"{first}-{last} is no range of numbers up to {most[1]}")
    return None if (first, last) == most else (first, last)


def outside(ranges, most):
    """The ranges of the numbers up to `most` that are in none of these."""
    found, begin = [], 0
    for first, last in sorted(ranges):
        if first > begin:
            found.append((begin, first - 1))
        begin = max(begin, last + 1)
    return found + [(begin, most)] if begin <= most else found


def other_values(field, boxes, most):
    """The boxes of all values of a field that is in none of these, which have this field alone and what goes with it."""
    ranges = outside([getattr(it, field) or most for it in boxes], most[1])
    return [boxes[0]._replace(**{field: it}) for it in ranges]


def net_box(field, net):
    return ANY._replace(family=net.version, **{field: net if net.prefixlen else None})


def network(text):
    try:
        return ipaddress.ip_network(text, strict=False)
    except ValueError:
        raise NoForm(f"`{shown(text)}` is no address and no prefix") from None


def address_boxes(field, first, last):
    """The prefixes of a range of addresses."""
    try:
        ends = ipaddress.ip_address(first), ipaddress.ip_address(last)
        return [net_box(field, it) for it in ipaddress.summarize_address_range(*ends)]
    except (ValueError, TypeError):
        raise NoForm(f"`{shown(first)}-{shown(last)}` is no range of addresses") from None


def other_addresses(field, boxes):
    """The prefixes of all addresses of a family that are in none of these boxes."""
    family = boxes[0].family
    bits, kind = (32, ipaddress.IPv4Address) if family == 4 else (128, ipaddress.IPv6Address)
    nets = [getattr(it, field) for it in boxes]
    ranges = [(0, 2 ** bits - 1) if it is None else (int(it[0]), int(it[-1])) for it in nets]
    return [box for first, last in outside(ranges, 2 ** bits - 1) for box in address_boxes(field, kind(first), kind(last))]


def flag_boxes(value, mask, negated=False):
    """Packets of TCP whose flags, cut down to a mask, are a value, or aren't; none where they can't be."""
    if value & ~mask:
        pairs = [(0, 0)] if negated else []
    else:
        pairs = [(~value & bit, bit) for bit in BITS if mask & bit] if negated else [(value, mask)]
    return [ANY._replace(proto=TCP, flags=it if it[1] else None) for it in pairs]


def of_address(net):
    if net is None:
        return "any"
    text = str(net.network_address)
    if net.version == 6 and "." in text:
        groups = net.network_address.exploded.split(":")
        text = f"::ffff:{int(groups[6], 16):x}:{int(groups[7], 16):x}"
    return text if net.prefixlen == net.max_prefixlen else f"{text}/{net.prefixlen}"


def words_of(box):
    """A rule of a policy behind its action."""
    words = [FAMILIES[box.family], of_address(box.source), of_address(box.dest)]
    if box.proto is not None:
        words.append({TCP: "tcp", UDP: "udp", ICMP_OF[box.family]: "icmp"}.get(box.proto, str(box.proto)))
    for name in ("sport", "dport", "type", "code"):
        value = getattr(box, name)
        if value:
            words.append(f"{name} {value[0]}" if value[0] == value[1] else f"{name} {value[0]}-{value[1]}")
    if box.flags:
        words.append(f"flags {box.flags[0]:02x}/{box.flags[1]:02x}")
    return " ".join(words)
