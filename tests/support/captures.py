"""Records and captures in the pcap format, the inputs that have them, and the reports that they get."""
import re
import struct

# A capture's header: lowest byte first, microseconds, version 2.4, Ethernet.
MAGIC, ETHERNET = 0xA1B2C3D4, 1
MOST_BYTES = 67_108_864
MOST_KEPT = 262_144


def header(magic=MAGIC, major=2, link=ETHERNET, order="<"):
    return struct.pack(order + "IHHIIII", magic, major, 4, 0, 0, MOST_KEPT, link)


def record(moment, frame, kept=None, order="<"):
    """A record; `kept` is what its header says that it keeps, where that isn't the frame's length."""
    size = len(frame) if kept is None else kept
    return struct.pack(order + "IIII", moment, 0, size, size) + frame


def udp(moment, outbound, source, target, order="<"):
    """A record of a UDP packet between ends (n, port), where n is in 10.0.0.0/8, 16 777 216 addresses."""
    ends = (b"\x02\0\0\0\0\x02", b"\x02\0\0\0\0\x01")
    frame = b"".join(ends if outbound else reversed(ends)) + b"\x08\0"
    frame += bytes.fromhex("4500001c 00000000 40110000")
    frame += struct.pack(">IIHHHH", 10 << 24 | source[0], 10 << 24 | target[0], source[1], target[1], 8, 0)
    return record(moment, frame, order=order)


def request_and_answer(moment, order="<"):
    """A request at second 100 and its answer."""
    return udp(100, True, (1, 1000), (2, 53), order) + udp(moment, False, (2, 53), (1, 1000), order)


# A policy, a capture of a request and its answer, and the reports that such captures get: where the answer comes in time,
# where the answer comes too late, and where no line of a policy is met.
NAMES = b"mac 02:00:00:00:00:01\nout permit+reflect ipv4 10.0.0.1 any udp dport 53\n"
CAPTURE = header() + request_and_answer(105)
REFLECTED = b"1 pass rule 1 reflect\n2 pass session\npackets 2 pass 2 drop 0\n"
EXPIRED = b"1 pass rule 1 reflect\n2 drop default\npackets 2 pass 1 drop 1\n"
DEFAULTS = b"1 drop default\n2 drop default\npackets 2 pass 0 drop 2\n"

# A rule that stands as often as a case wants.
RULES = b"out deny ipv4 any any\n"


def report_of(verdicts):
    passed = sum(it.startswith("pass") for it in verdicts)
    lines = [f"{number} {it}" for number, it in enumerate(verdicts, 1)]
    return "\n".join([*lines, f"packets {len(verdicts)} pass {passed} drop {len(verdicts) - passed}\n"]).encode()


def parts_of(data):
    """The policy of an input, and its captures, each with the number of its interface, or None where it has none."""
    policy, form, content = re.split(rb"^(pcap|hex|hex \d+)\r?$\n?", data, maxsplit=1, flags=re.M)
    if form == b"pcap":
        return policy, [(None, content)]
    digits = re.split(rb"^hex (\d+)\r?$\n?", content, flags=re.M)
    first = int(form[4:]) if form != b"hex" else None
    captures = [(first, digits[0]), *((int(number), it) for number, it in zip(digits[1::2], digits[2::2]))]
    return policy, [(number, bytes.fromhex(it.decode())) for number, it in captures]


def records_of(capture):
    """The header of a capture, and the bytes of its whole records."""
    order = ">" if capture[:1] == b"\xa1" else "<"
    place, records = 24, []
    while place + 16 <= len(capture):
        end = place + 16 + struct.unpack(f"{order}I", capture[place + 8:place + 12])[0]
        if end > len(capture):
            break
        records.append(capture[place:end])
        place = end
    return capture[:24], records


# What is said of most captures of other frames than those of Ethernet.
BY_NAME = "(link type %d); capture an Ethernet interface by its name: tcpdump -i NAME -w OUT"

# Captures that are refused for what they are: name, first bytes, fault, and what the second line says.
OTHERS = [
    ("pcapng", b"\x0a\x0d\x0d\x0a" + bytes(24), "not a pcap capture",
     "pcapng; a capture that is read is made by: editcap -F pcap IN OUT"),
    ("gzip", b"\x1f\x8b\x08" + bytes(24), "not a pcap capture", "compressed; the file that is read is made by: zcat IN > OUT"),
    ("xz", b"\xfd7zXZ\0" + bytes(24), "not a pcap capture", "compressed; the file that is read is made by: xzcat IN > OUT"),
    ("zstd", b"\x28\xb5\x2f\xfd" + bytes(24), "not a pcap capture", "compressed; the file that is read is made by: zstdcat IN > OUT"),
    ("modified", header(0xA1B2CD34), "not a pcap capture",
     "modified pcap; a capture that is read is made by: editcap -F pcap IN OUT"),
    ("cooked", header(link=276, order=">"), "capture is not Ethernet",
     "of Linux cooked frames; capture one interface by its name: tcpdump -i NAME -w OUT"),
    *((f"link {link}", header(link=link, order=order), "capture is not Ethernet", f"of {frames % link}")
      for link, order, frames in [
          (101, "<", f"IP packets without Ethernet headers {BY_NAME}"), (228, ">", f"IP packets without Ethernet headers {BY_NAME}"),
          (0, "<", f"a loopback interface's packets without Ethernet headers {BY_NAME}"),
          (108, ">", f"a loopback interface's packets without Ethernet headers {BY_NAME}"),
          (127, "<", "Wi-Fi frames (link type %d); capture the interface while it isn't in monitor mode: tcpdump -i NAME -y EN10MB -w OUT"),
          (105, ">", "Wi-Fi frames (link type %d); capture the interface while it isn't in monitor mode: tcpdump -i NAME -y EN10MB -w OUT"),
          (9, "<", f"a serial line's frames {BY_NAME}"), (239, "<", f"packets that a firewall logged {BY_NAME}"),
          (143, "<", "link type %d, not of Ethernet; capture an interface that has Ethernet frames: tcpdump -i NAME -y EN10MB -w OUT"),
          (65535, ">", "link type %d, not of Ethernet; capture an interface that has Ethernet frames: tcpdump -i NAME -y EN10MB -w OUT")]),
    ("other", header(0x0D0A0D0A), "not a pcap capture", None),
]

# What is said behind a record that is too long, where that isn't the first of its capture.
PUT_TOGETHER = ("racl: two captures put together by cat have such a record; "
                "one that is read is made by: mergecap -F pcap -w OUT A B\n")
