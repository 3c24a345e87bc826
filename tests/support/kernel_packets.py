"""Packets between a host that filters and another one, made of what a policy names: flows both ways, packets of no flow, and ICMP errors.

A packet is its way (`in` or `out` of the host), its family, its bytes from the IP header on, of which the last four are its number,
what kind it is, and the number of its flow, or none.
"""
import collections
import ipaddress
import random
import re
import struct

Packet = collections.namedtuple("Packet", "way family bytes kind flow")
# Ends of a flow: the host's address and the other's; of TCP and UDP with their ports.
Ends = collections.namedtuple("Ends", "here there")

TCP, UDP, OTHERS = 6, 17, (47, 50, 132)
ICMP = {4: 1, 6: 58}
ECHO = {4: (8, 0), 6: (128, 129)}
FIN, SYN, RST, PSH, ACK, URG = 1, 2, 4, 8, 16, 32
BITS = {4: 32, 6: 128}
OPPOSITE = {"in": "out", "out": "in"}


def checksum(data):
    data += b"\0" * (len(data) % 2)
    total = sum(struct.unpack(f">{len(data) // 2}H", data))
    while total >> 16:
        total = (total & 0xFFFF) + (total >> 16)
    return ~total & 0xFFFF


def of_ip(family, source, dest, proto, payload):
    source, dest = (ipaddress.ip_address(it).packed for it in (source, dest))
    if family == 6:
        return struct.pack(">IHBB", 6 << 28, len(payload), proto, 255) + source + dest + payload
    head = struct.pack(">BBHHHBBH", 0x45, 0, 20 + len(payload), 1, 0, 64, proto, 0) + source + dest
    return head[:10] + struct.pack(">H", checksum(head)) + head[12:] + payload


def with_checksum(family, source, dest, proto, payload, at):
    """The payload with the checksum that stands at this place in it."""
    pseudo = b"" if proto == 1 else b"".join(ipaddress.ip_address(it).packed for it in (source, dest)) + struct.pack(">II", len(payload), proto)
    return payload[:at] + struct.pack(">H", checksum(pseudo + payload) or 0xFFFF) + payload[at + 2:]


class Maker:
    """Packets with numbers, from what a policy names."""

    def __init__(self, policy, seed, families, own):
        self.random, self.own, self.packets, self.number, self.used = random.Random(seed), own, [], None, set()
        self.families = families
        words = [it.partition("#")[0].split() for it in policy.splitlines()]
        rules = [it for it in words if it[:1] in (["in"], ["out"])]
        ports = {int(it) for line in rules for word in re.findall(r"[sd]port (\S+)", " ".join(line)) for it in word.split("-")}
        self.ports = sorted({at for it in ports for at in (it - 1, it, it + 1) if 0 < at < 65536} | {9, 40000})
        self.types = {4: [0, 3, 5, 8, 11, 12, 13, 30], 6: [1, 2, 3, 4, 128, 129, 139, 200]}
        self.flags = sorted({SYN, ACK, SYN | ACK, FIN | ACK, RST, RST | ACK, PSH | ACK, 0, FIN, SYN | FIN, FIN | PSH | URG, 63})
        nets = {4: ["203.0.113.9/32", "198.18.0.0/15"], 6: ["2001:db8:9::9/128", "2001:db8:7::/48"]}
        for line in rules:
            other = line[3] if line[0] == "in" else line[4]
            if other != "any":
                nets[6 if ":" in other else 4].append(other)
        self.nets = {family: [it for it in (ipaddress.ip_network(one) for one in found) if not (it[0].is_multicast or it[0].is_loopback or it[0].is_unspecified)]
                     for family, found in nets.items()}

    def there(self, family):
        net = self.random.choice(self.nets[family])
        at = int(net[0]) + self.random.choice([0, 1, net.num_addresses - 1, net.num_addresses, self.random.randrange(net.num_addresses)])
        found = ipaddress.ip_address(at % 2 ** BITS[family]) if family == 4 else ipaddress.IPv6Address(at % 2 ** 128)
        is_right = not (found.is_multicast or found.is_loopback or found.is_unspecified or found.is_link_local or str(found) in self.own[family]
                        or family == 4 and (found.packed[0] in (0, 127) or found.packed[0] >= 224 or found.packed[3] in (0, 255)))
        return str(found) if is_right else {4: "203.0.113.9", 6: "2001:db8:9::9"}[family]

    def add(self, way, family, ends, proto, payload, at, kind):
        """Adds a packet, whose checksum stands at a place of its payload, or nowhere."""
        source, dest = (ends.there, ends.here) if way == "in" else (ends.here, ends.there)
        payload += struct.pack(">I", len(self.packets))
        if proto == UDP:
            payload = payload[:4] + struct.pack(">H", len(payload)) + payload[6:]
        if at is not None:
            payload = with_checksum(family, source, dest, proto, payload, at)
        self.packets.append(Packet(way, family, of_ip(family, source, dest, proto, payload), kind, self.number))

    def tcp(self, way, family, ends, ports, flags, kind, sequence=(1, 1)):
        ports = ports if way == "out" else ports[::-1]
        head = struct.pack(">HHIIBBHHH", *ports, sequence[0], sequence[1] if flags & ACK else 0, 0x50, flags, 8192, 0, 0)
        self.add(way, family, ends, TCP, head, 16, kind)

    def udp(self, way, family, ends, ports, kind):
        self.add(way, family, ends, UDP, struct.pack(">HHHH", *(ports if way == "out" else ports[::-1]), 0, 0), 6, kind)

    def icmp(self, way, family, ends, kind, code, number, what, data=b""):
        self.add(way, family, ends, ICMP[family], struct.pack(">BBHHH", kind, code, 0, number, 1) + data, 2, what)

    def ports_of(self, way, ends):
        """Ports of a flow of these ends that no other has: one that the policy names of who is asked, and any of who asks. The host's is
        the first."""
        while True:
            asked, other = self.random.choice(self.ports), self.random.choice([self.random.choice(self.ports), self.random.randrange(1024, 65536)])
            found = (asked, other) if way == "in" else (other, asked)
            if (ends, found) not in self.used:
                self.used.add((ends, found))
                return found

    def flow(self):
        """Yields after each packet of a new flow, of which each side sends some."""
        choose, family = self.random.choice, self.random.choice(self.families)
        ends, way, kind = Ends(choose(self.own[family]), self.there(family)), choose(["in", "out"]), self.random.random()
        ports = self.ports_of(way, ends)
        if kind < 0.45:
            yield from self.connection(way, family, ends, ports)
        elif kind < 0.75:
            for it in (way, OPPOSITE[way], way, OPPOSITE[way])[:choose([1, 2, 4])]:
                self.udp(it, family, ends, ports, "datagram")
                yield
            yield from self.error(way, family, ends, UDP)
        elif kind < 0.9:
            number = self.random.randrange(65536)
            for it, type_at in ((way, 0), (OPPOSITE[way], 1), (way, 0))[:choose([1, 3])]:
                self.icmp(it, family, ends, ECHO[family][type_at], 0, number, "echo")
                yield
        else:
            proto = choose(OTHERS)
            for it in (way, OPPOSITE[way])[:choose([1, 2])]:
                self.add(it, family, ends, proto, bytes(20), None, "other protocol")
                yield

    def connection(self, way, family, ends, ports):
        back, counts = OPPOSITE[way], {"in": 1000, "out": 5000}
        steps = [(way, SYN), (back, SYN | ACK), (way, ACK), (back, ACK), (way, PSH | ACK), (back, PSH | ACK), (way, FIN | ACK), (back, FIN | ACK)]
        if self.random.random() < 0.3:
            steps = steps[2:6]
        for it, flags in steps[:self.random.choice([1, 4, 8])]:
            kind = "connection" if steps[0][1] == SYN else "connection whose beginning wasn't seen"
            self.tcp(it, family, ends, ports, flags, kind, (counts[it], counts[OPPOSITE[it]]))
            counts[it] += 4 + bool(flags & (SYN | FIN))
            yield

    def error(self, way, family, ends, proto):
        """Perhaps an ICMP error, of the last packet of a flow, back to who sent it."""
        if self.random.random() < 0.2:
            last = self.packets[-1]
            kind, code = (3, 3) if family == 4 else (1, 4)
            self.icmp(OPPOSITE[last.way], family, ends, kind, code, 0, "error of a flow", last.bytes)
            yield

    def stray(self):
        """A packet of no flow."""
        choose, family = self.random.choice, self.random.choice(self.families)
        ends, way = Ends(choose(self.own[family]), self.there(family)), choose(["in", "out"])
        ports = self.ports_of(way, ends)
        if self.random.random() < 0.7:
            flags = choose(self.flags)
            self.tcp(way, family, ends, ports, flags, f"stray TCP of flags {flags:02x}")
        else:
            kind = choose(self.types[family])
            is_error = kind in ((3, 4, 5, 11, 12) if family == 4 else (1, 2, 3, 4))
            inner = of_ip(family, ends.there, ends.here, UDP, struct.pack(">HHHH", 7, 7, 16, 0) + bytes(8)) if is_error else b""
            self.icmp(way, family, ends, kind, 0, self.random.randrange(65536), f"stray ICMP of type {kind}", inner)

    def made(self, count):
        """So many packets, of flows that are mixed."""
        live, begun = {}, 0
        while len(self.packets) < count:
            if len(live) < 8:
                live[begun], begun = self.flow(), begun + 1
            self.number = None
            if self.random.random() < 0.15:
                self.stray()
            self.number = self.random.choice(list(live))
            if next(live[self.number], live) is live:
                del live[self.number]
        return self.packets[:count]
