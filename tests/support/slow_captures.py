"""Captures of few packets a second, and what a filter says of them that keeps its sessions in a plain map and forgets none."""
import functools
import random
import struct

from support.captures import header, record
from support.large_inputs import mixed

TIMEOUT = 600
POLICY = b"mac 02:00:00:00:00:01\nout permit+reflect ipv4 any any udp\nout permit+reflect ipv6 any any udp\n"
PACKETS = 100_000

INSIDE, OUTSIDE = b"\x02\0\0\0\0\x01", b"\x02\0\0\0\0\x02"
# What stands between the Ethernet addresses of a frame and the IP addresses, by the family.
HEADS = {4: bytes.fromhex("0800 4500001c 00000000 40110000"), 6: bytes.fromhex("86dd 60000000 0008 11 40")}


def address(family, number):
    return struct.pack(">I", 10 << 24 | number) if family == 4 else b"\x20\x01\x0d\xb8" + struct.pack(">IQ", 0, number)


def datagram(moment, outbound, family, number):
    """A record of a UDP packet of the flow with this number, from the host inside or to it."""
    ends = (address(family, 1), 1024 + number % 60_000), (address(family, 2 + number // 60_000), 53)
    source, target = ends if outbound else ends[::-1]
    way = OUTSIDE + INSIDE if outbound else INSIDE + OUTSIDE
    ports = struct.pack(">HHHH", source[1], target[1], 8, 0)
    return record(moment, way + HEADS[family] + source[0] + target[0] + ports)


def bucket_of(number, bits):
    """The bucket of the IPv4 flow with this number, among two to the power of bits."""
    ends = int.from_bytes(address(4, 1), "big"), int.from_bytes(address(4, 2 + number // 60_000), "big")
    ports = 1024 + number % 60_000 << 48 | 53 << 32 | 17 << 24
    return mixed(mixed(ends[0] << 32 | ends[1]) ^ ports) % 2 ** bits


def capture_of(packets):
    return header() + b"".join(datagram(*it) for it in packets)


def verdicts_on(packets):
    """The verdicts of a filter whose map has the latest second of each flow that ever had a session."""
    latest, verdicts = {}, []
    for moment, outbound, *flow in packets:
        flow = tuple(flow)
        if moment <= latest.get(flow, -1 - TIMEOUT) + TIMEOUT:
            latest[flow] = max(latest[flow], moment)
            verdicts.append("pass session")
        elif outbound:
            latest[flow] = moment
            verdicts.append(f"pass rule {1 if flow[0] == 4 else 2} reflect")
        else:
            verdicts.append("drop default")
    return verdicts


def latest_of(packets):
    """The latest second of each flow whose packets that filter lets through, and the latest of all."""
    latest = {}
    for (moment, _, *flow), verdict in zip(packets, verdicts_on(packets)):
        if verdict.startswith("pass"):
            latest[tuple(flow)] = max(latest.get(tuple(flow), 0), moment)
    return latest, max(it[0] for it in packets)


def listing_of(packets):
    """The lines of the sessions that are live at the latest second, in the order of their keys. All flows have a number below 60,000."""
    latest, last = latest_of(packets)
    ends = {4: ("10.0.0.1", "10.0.0.2"), 6: ("2001:db8::1", "2001:db8::2")}
    return "".join(f"session interface 0 udp {ends[family][0]} port {1024 + number} and {ends[family][1]} port 53 last {moment} until {moment + TIMEOUT}\n"
                   for (family, number), moment in sorted(latest.items()) if moment + TIMEOUT >= last).encode()


@functools.lru_cache(maxsize=None)
def slow_packets(a_second):
    """So many packets a second. Most are the first of a flow; the others are of one of the last 1200 seconds, either way."""
    chance, packets, flows = random.Random(a_second), [], []
    for number in range(PACKETS):
        moment = 1_000_000 + int(number / a_second)
        if not flows or chance.random() < 0.7:
            flows.append((6 if chance.random() < 0.35 else 4, len(flows)))
            packets.append((moment, True, *flows[-1]))
        else:
            back = chance.randint(1, min(len(flows), int(1200 * a_second)))
            packets.append((moment, chance.random() < 0.5, *flows[-back]))
    return packets


@functools.lru_cache(maxsize=None)
def slow(a_second):
    """A capture of so many packets a second, and its verdicts."""
    packets = slow_packets(a_second)
    return capture_of(packets), verdicts_on(packets)
