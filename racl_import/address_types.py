"""Types of addresses, as `addrtype` of iptables and `fib` of nft ask for: they hang on the host's own addresses."""
import ipaddress

from .packets import ANY, NoForm, net_box, network, other_addresses, shown

UNKNOWN = "the host's addresses aren't given (--address), so each is taken for its own, and of broadcast ones 255.255.255.255 alone is known"
GROUPS = {4: ["224.0.0.0/4"], 6: ["ff00::/8"]}
# (of the first the kernel takes that of no source)
BROADCAST = {4: ["0.0.0.0", "255.255.255.255"], 6: []}


def own_networks(words):
    """The host's addresses, each with its network."""
    return [ipaddress.ip_interface(it) for it in words]


def boxes_of_type(kind, field, family, own):
    """The boxes of a type of addresses, given the host's own. (Those of loopback aren't captured.)"""
    own = [it for it in own if it.version == family]
    if kind == "local" and not own:
        return [ANY._replace(family=family)]
    wide = [str(it.network.broadcast_address) for it in own if family == 4 and it.network.prefixlen < 31]
    named = {"multicast": GROUPS[family], "broadcast": BROADCAST[family] + wide, "local": [str(it.ip) for it in own]}.get(kind)
    if named is None:
        raise NoForm(f"the type of addresses `{shown(kind)}` has no equal form")
    return [net_box(field, network(it)) for it in dict.fromkeys(named)]


def boxes_of_types(kinds, field, family, own, negated=False):
    """The boxes of addresses of one of these types, or of none of them, and whether that hangs on addresses that aren't given."""
    boxes = [box for it in kinds for box in boxes_of_type(it, field, family, own)]
    hangs = not any(it.version == family for it in own) and ("local" in kinds or family == 4 and "broadcast" in kinds)
    if negated and not boxes:
        return [ANY._replace(family=family)], hangs
    return other_addresses(field, boxes) if negated else boxes, hangs
