"""Inputs of many packets and rules, each with the verdicts on its packets."""
import functools
import ipaddress
import itertools

from support.captures import NAMES, header, record, udp
from support.row_files import packets_of

MOST_SESSIONS = 256


@functools.lru_cache(maxsize=None)
def many_flows():
    """A flow for each of 8000 ports, and then eight answers of each."""
    ports = range(1024, 9024)
    requests = (udp(100, True, (1, it), (2, 53)) for it in ports)
    answers = [udp(200, False, (2, 53), (1, it)) for it in ports] * 8
    verdicts = ["pass rule 1 reflect"] * len(ports) + ["pass session"] * len(answers)
    return NAMES + b"pcap\n" + header() + b"".join([*requests, *answers]), verdicts


@functools.lru_cache(maxsize=None)
def paired_flows():
    """A hundred flows, each request with its answer, and all of it twice."""
    servers = [*range(100)] * 2
    pairs = b"".join(udp(100, True, (1, 1000), (it, 53)) + udp(100, False, (it, 53), (1, 1000)) for it in servers)
    verdicts = ["pass rule 1 reflect", "pass session"] * 100 + ["pass session"] * 200
    return NAMES + b"pcap\n" + header() + pairs, verdicts


@functools.lru_cache(maxsize=None)
def strangers():
    """Requests from 2048 ports, each with its answer and one that nobody asked for, 48 times: 17.1 MB of them."""
    packets = b"".join(udp(100, True, (1, it), (2, 53)) + udp(105, False, (2, 53), (1, it)) + udp(106, False, (3, 53), (1, it))
                       for it in range(1000, 3048))
    first, later = ["pass rule 1 reflect", "pass session", "drop default"], ["pass session", "pass session", "drop default"]
    return NAMES + b"pcap\n" + header() + packets * 48, first * 2048 + later * 2048 * 47


@functools.lru_cache(maxsize=None)
def many_lines():
    """Packets of each of 4095 rules in turn, and after each of them a frame that ends within its ports."""
    rules = "".join(f"in permit ipv4 any any udp dport {it}\n" for it in range(1, 4096))
    ports = [it % 4095 + 1 for it in range(135_000)]
    whole = [udp(1, False, (1, 9), (2, it)) for it in range(4096)]
    short = record(1, whole[0][16:16 + 36])
    return (rules.encode() + b"pcap\n" + header() + b"".join(whole[it] + short for it in ports),
            [verdict for it in ports for verdict in (f"pass rule {it}", "drop short")])


@functools.lru_cache(maxsize=None)
def flows_that_end():
    """A capture of 9.4 MB and 1543 seconds: requests from 7000 ports, each with its answer and a packet that nobody asked for. A port
    sends again after 200 seconds."""
    return header() + b"".join(udp(100 + it // 35, True, (1, 1000 + it % 7000), (2, 53)) + udp(100 + it // 35, False, (2, 53), (1, 1000 + it % 7000))
                               + udp(100 + it // 35, False, (3, 53), (1, 1000 + it % 7000)) for it in range(54_000))


# Rules whose ends meet: action, both prefixes, and what is asked of a packet.
GRID_RULES = [
    ("deny", "10.0.0.0/31", "10.0.0.1/32", "tcp dport 80"),
    ("permit", "10.0.0.0/24", "0.0.0.0/0", "tcp dport 81-65535"),
    ("permit", "0.0.0.0/1", "128.0.0.0/1", "tcp sport 0-21"),
    ("deny", "2001:db8::/32", "::/0", "any"),
    ("permit", "::a00:1/128", "::a00:0/127", "tcp"),
    ("permit", "0.0.0.0/0", "10.0.0.0/8", "tcp flags 10/10"),
    ("permit", "::/96", "::/0", "udp dport 0-53"),
    ("deny", "128.0.0.0/1", "0.0.0.0/0", "udp dport 0-53"),
    ("permit", "0.0.0.0/0", "10.0.0.0/24", "icmp type 8 code 0-3"),
    ("permit", "255.255.255.255/32", "0.0.0.0/0", "any"),
    ("deny", "0.0.0.0/0", "255.255.255.254/31", "255"),
    ("deny", "::/0", "::/1", "255"),
]
GRID_ENDS = [0, 0x0A000000, 0x0A000001, 0x0A0000FF, 0x0A000100, 0x7FFFFFFF, 0x80000000, 0xFFFFFFFF]

# Packets of the grid: as a row writes them between and behind the ends, their protocol, and of which rules they have what
# is asked for behind the addresses.
GRID_PACKETS = [
    ("fragment 6 {} > {}", {1, 2, 3, 4, 5, 6, 10}),
    ("tcp {}.0 > {}.65535 00", {2, 3, 4, 5, 10}),
    ("tcp {}.22 > {}.80 02", {1, 4, 5, 10}),
    ("tcp {}.21 > {}.81 12", {2, 3, 4, 5, 6, 10}),
    ("udp {}.53 > {}.53", {4, 7, 8, 10}),
    ("udp {}.65535 > {}.0", {4, 7, 8, 10}),
    ("fragment 17 {} > {}", {4, 7, 8, 10}),
    ("fragment 0 {} > {}", {4, 10}),
    ("fragment 255 {} > {}", {4, 10, 11, 12}),
    ("icmp {} > {} 8.3", {4, 9, 10}),
]


@functools.lru_cache(maxsize=None)
def grid(more):
    """Each packet of the grid between each two of its ends, and so many rules that none of them meets."""
    rules = [(action, *map(ipaddress.ip_network, (source, target)), asked) for action, source, target, asked in GRID_RULES]
    lines = [f"in {action} ipv{source.version} {source} {target} {asked}\n" for action, source, target, asked in rules]
    lines += ["in deny ipv4 192.0.2.1 192.0.2.2\n"] * more
    packets, verdicts = [], []
    for source, target, (form, suited), of in itertools.product(
            GRID_ENDS, GRID_ENDS, GRID_PACKETS, (ipaddress.IPv4Address, ipaddress.IPv6Address)):
        if form.startswith("icmp") and of is ipaddress.IPv6Address:
            continue
        ends = of(source), of(target)
        met = [number for number, it in enumerate(rules, 1) if number in suited and ends[0] in it[1] and ends[1] in it[2]]
        verdict = {"deny": "drop", "permit": "pass"}[rules[met[0] - 1][0]] + f" rule {met[0]}" if met else "drop default"
        packets += packets_of(f"1 in {form.format(*ends)}: {verdict}")
        verdicts.append(verdict)
    times = 3
    data = "".join(lines).encode() + b"pcap\n" + header() + b"".join(it for it, _ in packets) * times
    return data, verdicts * times


@functools.lru_cache(maxsize=None)
def many_rules():
    """For each of 200 sources a rule for its lower ports, odd ones permitted; after them a denial for each."""
    sources = range(1, 201)
    rules = [f"in {'permit' if it % 2 else 'deny'} ipv4 10.0.0.{it} any udp dport 0-{it * 100}\n" for it in sources]
    rules += [f"in deny ipv4 10.0.0.{it} any\n" for it in sources]
    ends = [(number * 7 % 250 + 1, number * 4001 % 65536) for number in range(66_000)]
    verdicts = []
    for source, port in ends:
        if source > len(sources):
            verdicts.append("drop default")
        elif port > source * 100:
            verdicts.append(f"drop rule {len(sources) + source}")
        else:
            verdicts.append(f"{'pass' if source % 2 else 'drop'} rule {source}")
    packets = b"".join(udp(1, False, (source, 9), (2, port)) for source, port in ends)
    return "".join(rules).encode() + b"pcap\n" + header() + packets, verdicts


def address(number):
    """The address of this number in 10.0.0.0/8."""
    return f"10.{number >> 16}.{number >> 8 & 255}.{number & 255}"


@functools.lru_cache(maxsize=None)
def many_prefixes():
    """As many rules as there may be, of 4096 pairs of addresses, each in one rule alone."""
    pairs = [(it * 3 + 1, 8_000_000 + it * 5) for it in range(4096)]
    rules = [f"in {'permit' if it % 3 else 'deny'} ipv4 {address(source)} {address(target)}\n"
             for it, (source, target) in enumerate(pairs)]
    verdicts, packets = [], []
    for it in range(5000):
        number = it * 1237 % 4096
        source, target = pairs[number]
        is_met = it % 5 != 0
        packets.append(udp(1, False, (source, 9), (target if is_met else target + 1, it)))
        verdicts.append(f"{'pass' if number % 3 else 'drop'} rule {number + 1}" if is_met else "drop default")
    return "".join(rules).encode() + b"pcap\n" + header() + b"".join(packets), verdicts


def mixed(word):
    """The hash's step (the finalizer of splitmix64)."""
    word = (word ^ word >> 30) * 0xBF58476D1CE4E5B9 % 2**64
    word = (word ^ word >> 27) * 0x94D049BB133111EB % 2**64
    return word ^ word >> 31


@functools.lru_cache(maxsize=None)
def one_bucket():
    """Flows of one bucket of the table, three more than it can hold, and an answer of the first. Once the sessions have
    ended, the one with the least key makes room, and the next one is there yet."""
    first = mixed(0x0A000001_0A000002)
    flows = ((source, target) for target in range(1, 65536) for source in range(1024, 65536))
    home = (it for it in flows if mixed(first ^ (it[0] << 48 | it[1] << 32 | 17 << 24)) % 4096 == 5)
    flows = list(itertools.islice(home, MOST_SESSIONS + 3))
    packets = [udp(100, True, (1, source), (2, target)) for source, target in flows]
    packets.append(udp(100, False, (2, flows[0][1]), (1, flows[0][0])))
    verdicts = ["pass rule 1 reflect"] * MOST_SESSIONS + ["drop full"] * 3 + ["pass session"]
    (source, target), least, next_least = flows[-1], *sorted(flows[:MOST_SESSIONS])[:2]
    packets += [udp(moment, True, (1, source), (2, target)) for moment in (700, 701)]
    packets += [udp(200, False, (2, it[1]), (1, it[0])) for it in (least, next_least)]
    verdicts += ["drop full", "pass rule 1 reflect", "drop default", "pass session"]
    return NAMES.replace(b" dport 53", b"") + b"pcap\n" + header() + b"".join(packets), verdicts


@functools.lru_cache(maxsize=None)
def many_reads():
    """More packets than several workers judge at once: a flow for each of 8000 ports, and 70 answers of each."""
    data, _ = many_flows()
    ports = range(1024, 9024)
    more = b"".join(udp(205, False, (2, 53), (1, it)) for it in ports) * 62
    return data + more, ["pass rule 1 reflect"] * len(ports) + ["pass session"] * len(ports) * 70


LARGE = [("many flows", many_flows), ("paired flows", paired_flows), ("strangers", strangers), ("many rules", many_rules),
         ("many prefixes", many_prefixes), ("rules one by one", lambda: grid(0)), ("prepared rules", lambda: grid(60)),
         ("many lines", many_lines), ("one bucket", one_bucket), ("many reads", many_reads)]
