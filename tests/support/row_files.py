"""The rows of tests/rows: each paragraph says what it shows, an input or several, and what comes of them.

A row has what it shows (`row:`), the policy's lines or its `file:`, and packets with their verdicts, or a fault that each of several
policies or inputs has, or what `racl check` tells (`told:`). `N * LINE` is a line N times. A packet is its second, its way, perhaps
how many bytes are kept (`cut 34-37`: a packet for each count), its numbers much as `tcpdump` writes them, or digits, and behind a
colon its verdict.
"""
import ipaddress
import os
import re
import struct

from support.captures import header, record, report_of
from support.cases import TOP, bytes_of_file, wanted

# The digits of a frame's Ethernet addresses, outbound and inbound.
ADDRESSES = {"out": "020000000002 020000000001", "in": "020000000001 020000000002"}
PACKET = re.compile(r"(\d+) (?:(out|in) (?:cut (\d+)-(\d+) )?|whole )(.*): ((?:pass|drop) .*)")


def end_of(text):
    """An end as tcpdump writes it, an address and a port."""
    shown, port = text.rsplit(".", 1)
    return ipaddress.ip_address(shown), int(port)


def over_ip(source, target, proto, content):
    """What follows a frame's Ethernet addresses: the type, the IP header, and the packet's content."""
    if source.version == 4:
        head = struct.pack(">HBBHIBBH", 0x0800, 0x45, 0, 20 + len(content), 0, 64, proto, 0)
    else:
        head = struct.pack(">HIHBB", 0x86DD, 6 << 28, len(content), proto, 64)
    return head + source.packed + target.packed + content


def framed(form):
    """What follows a frame's Ethernet addresses, of a packet as a row writes it."""
    kind, rest = form.split(" ", 1)
    if kind == "frame":
        return bytes.fromhex(rest)
    proto = None
    if kind == "fragment":
        proto, rest = rest.split(" ", 1)
    source, _, target, *last = rest.split()
    if kind in ("udp", "tcp"):
        (source, sport), (target, dport) = end_of(source), end_of(target)
        if kind == "udp":
            return over_ip(source, target, 17, struct.pack(">HHHH", sport, dport, 8, 0))
        return over_ip(source, target, 6, struct.pack(">HHIIBBHHH", sport, dport, 0, 0, 0x50, int(last[0], 16), 0, 0, 0))
    source, target = ipaddress.ip_address(source), ipaddress.ip_address(target)
    if kind == "icmp":
        number, code = map(int, last[0].split("."))
        return over_ip(source, target, 1 if source.version == 4 else 58, struct.pack(">BBHHH", number, code, 0, 1, 1))
    if source.version == 4:
        content = over_ip(source, target, int(proto), bytes(8))
        return content[:8] + b"\0\1" + content[10:]
    return over_ip(source, target, 44, struct.pack(">BBHI", int(proto), 0, 8, 1) + bytes(8))


def packets_of(line):
    """The records of a row's line with a packet, and the verdict on each."""
    moment, way, first, last, form, verdict = PACKET.fullmatch(line).groups()
    whole = bytes.fromhex(ADDRESSES[way]) + framed(form) if way else bytes.fromhex(form)
    kept = range(int(first), int(last) + 1) if first else [len(whole)]
    return [(record(int(moment), whole[:it]), verdict) for it in kept]


def bytes_of(text):
    """The bytes of a row's text, in which \\r, \\n, \\t and \\xNN stand for a byte each."""
    return text.encode().decode("unicode_escape").encode("latin-1")


def policy_of(lines):
    """The policy's text: a line that begins with a number and a star stands so often."""
    text = b""
    for line in lines:
        times, star, rule = line.partition(" * ")
        text += (bytes_of(rule) + b"\n") * int(times) if star and times.isdigit() else bytes_of(line) + b"\n"
    return text


class Row:
    """A row's name, its lines by their heads, and its packets with their verdicts."""

    def __init__(self, file, paragraph):
        self.lines, self.packets, self.packet_lines = {}, [], []
        for line in paragraph.split("\n"):
            if line[0].isdigit():
                self.packets += packets_of(line)
                self.packet_lines.append(line)
            elif line[0] != "#":
                head, text = re.fullmatch(r"(row|words|file|policy|each|input|capture|report|fault|told):(?: (.*))?", line).groups()
                self.lines.setdefault(head, []).append(text or "")
        self.name = f"{file} {self.lines['row'][0]}" if self.lines else None
        self.is_told, self.has_fault = "told" in self.lines, "fault" in self.lines

    def words(self):
        if self.is_told:
            return ["check", "-"]
        return self.lines["words"][0].split() if "words" in self.lines else []

    def inputs(self):
        policy = b"".join(bytes_of_file(f"{TOP}/{it}") for it in self.lines.get("file", [])) + policy_of(self.lines.get("policy", []))
        empty = b"pcap\n" + header()
        if self.is_told:
            return [policy]
        if "input" in self.lines:
            return [bytes_of(it) for it in self.lines["input"]]
        if "each" in self.lines:
            return [policy + bytes_of(it) + b"\n" + empty for it in self.lines["each"]]
        if "capture" in self.lines:
            return [policy + b"pcap\n" + bytes.fromhex(self.lines["capture"][0])]
        return [policy + empty + b"".join(it for it, _ in self.packets)]

    def wanted(self):
        """What is wanted of a run on each of the inputs."""
        if self.has_fault:
            return wanted(stderr=f"racl: {self.lines['fault'][0]}\n", status=1)
        lines = self.lines.get("told") or self.lines.get("report")
        if lines is None:
            return wanted(report_of([it for _, it in self.packets]))
        is_cut = any("truncated" in it for it in lines)
        status = int(lines[-1].startswith("no")) if self.is_told else 3 if is_cut else 0
        return wanted("".join(f"{it}\n" for it in lines).encode(), status=status)


def all_rows():
    for name in sorted(os.listdir(f"{TOP}/tests/rows")):
        with open(f"{TOP}/tests/rows/{name}") as file:
            paragraphs = re.split(r"\n{2,}", file.read().strip("\n"))
        rows = [Row(name[:-len(".txt")], it) for it in paragraphs]
        yield from (it for it in rows if it.name)
