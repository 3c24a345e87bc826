"""Names by which rules call protocols, types of ICMP and flags."""
import functools
import operator
import re

from .packets import ANY, BYTES, ICMP_OF, NoForm, in_range, shown

# Protocols by name, types of ICMP and ICMPv6 (RFC 792, 950, 4443, 4861 and 3810) with or without a code, codes, and flags of TCP.
PROTOCOLS = {"icmp": 1, "igmp": 2, "ipencap": 4, "ipip": 4, "tcp": 6, "udp": 17, "dccp": 33, "ipv6": 41, "gre": 47, "esp": 50, "ah": 51,
             "icmpv6": 58, "ipv6-icmp": 58, "ospf": 89, "ospfigp": 89, "pim": 103, "comp": 108, "ipcomp": 108, "vrrp": 112,
             "l2tp": 115, "sctp": 132, "udplite": 136}
TYPES = {4: {"echo-reply": 0, "destination-unreachable": 3, "source-quench": 4, "redirect": 5, "echo-request": 8,
             "router-advertisement": 9, "router-solicitation": 10, "time-exceeded": 11, "parameter-problem": 12,
             "timestamp-request": 13, "timestamp-reply": 14, "info-request": 15, "info-reply": 16,
             "address-mask-request": 17, "address-mask-reply": 18, "network-unreachable": (3, 0), "host-unreachable": (3, 1),
             "protocol-unreachable": (3, 2), "port-unreachable": (3, 3), "fragmentation-needed": (3, 4),
             "source-route-failed": (3, 5), "network-redirect": (5, 0), "host-redirect": (5, 1),
             "ttl-zero-during-transit": (11, 0), "ttl-zero-during-reassembly": (11, 1), "ip-header-bad": (12, 0),
             "required-option-missing": (12, 1)},
         6: {"destination-unreachable": 1, "packet-too-big": 2, "time-exceeded": 3, "parameter-problem": 4, "echo-request": 128,
             "echo-reply": 129, "mld-listener-query": 130, "mld-listener-report": 131, "mld-listener-done": 132,
             "mld-listener-reduction": 132, "router-solicitation": 133, "nd-router-solicit": 133, "router-advertisement": 134,
             "nd-router-advert": 134, "neighbour-solicitation": 135, "neighbor-solicitation": 135, "nd-neighbor-solicit": 135,
             "neighbour-advertisement": 136, "neighbor-advertisement": 136, "nd-neighbor-advert": 136, "redirect": 137,
             "nd-redirect": 137, "router-renumbering": 138, "ind-neighbor-solicit": 141, "ind-neighbor-advert": 142,
             "mld2-listener-report": 143, "no-route": (1, 0), "communication-prohibited": (1, 1), "address-unreachable": (1, 3),
             "port-unreachable": (1, 4), "ttl-zero-during-transit": (3, 0), "ttl-zero-during-reassembly": (3, 1),
             "bad-header": (4, 0), "unknown-header-type": (4, 1), "unknown-option": (4, 2)}}
CODES = {4: {"net-unreachable": 0, "host-unreachable": 1, "prot-unreachable": 2, "port-unreachable": 3, "frag-needed": 4,
             "net-prohibited": 9, "host-prohibited": 10, "admin-prohibited": 13},
         6: {"no-route": 0, "admin-prohibited": 1, "addr-unreachable": 3, "port-unreachable": 4, "policy-fail": 5, "reject-route": 6}}
FLAGS = {"fin": 1, "syn": 2, "rst": 4, "psh": 8, "ack": 16, "urg": 32, "ecn": 64, "cwr": 128, "all": 63, "none": 0}


def number(text, names, what):
    if isinstance(text, int) and not isinstance(text, bool):
        return text
    if str(text).lower() in names:
        return names[str(text).lower()]
    if re.fullmatch(r"[0-9]{1,5}", str(text)):
        return int(text)
    raise NoForm(f"`{shown(text)}` is no {what} that is known here")


def protocol_box(text):
    proto = number(text, PROTOCOLS, "protocol")
    if not 0 < proto < 256:
        raise NoForm(f"protocol {proto} has no form")
    return ANY._replace(proto=proto)


def type_box(family, text):
    """A type of ICMP by number or name, perhaps with a code."""
    first, _, code = str(text).partition("/")
    found = number(first, TYPES[family], "type of ICMP")
    kind, code = found if isinstance(found, tuple) else (found, number(code, {}, "code") if code else None)
    box = ANY._replace(family=family, proto=ICMP_OF[family], type=in_range(kind, kind, BYTES))
    return box if code is None else box._replace(code=in_range(code, code, BYTES))


def bits_of(names):
    return functools.reduce(operator.or_, (number(it, FLAGS, "flag") for it in names), 0)
