"""Objects of JSON and explained lines tell the same facts, and with the report's verdicts, on each stored input; and of hits and
sessions the same as lines do."""
import ipaddress
import json
import struct

from program.hits import HITS
from support.captures import CAPTURE, parts_of, report_of
from support.cases import FEWER_LINES, TOP, Case, bytes_of_file, each, kept, names_in, wanted
from support.large_inputs import many_flows

MORE = ["--hits", "--sessions"]


def address_in(text):
    """An address as text, which Python writes as RFC 5952 has it, but for one with a dotted end."""
    address = ipaddress.ip_address(text)
    return text if address.version == 6 and address.ipv4_mapped else str(address)


def protocol_of(number, address):
    return {6: "tcp", 17: "udp", 58 if ":" in address else 1: "icmp"}.get(number, f"protocol {number}")


def rule_in(policy, number):
    """What is shown of a policy's line: all of it, or what stands before a comment that has other bytes than printable ASCII."""
    line = policy.split(b"\n")[number - 1]
    line = line[:-1] if line.endswith(b"\r") else line
    shown = line if all(32 <= it < 127 or it == 9 for it in line) else line.partition(b"#")[0]
    return shown.strip(b" \t")[:200].decode()


def behind_totals(told, policy):
    """The line of hits or sessions that an object of JSON stands for, None where it stands for none."""
    if "until" in told:
        ends = (address_in(it["address"]) + (f" port {it['port']}" if "port" in it else "")
                + (f" flags {it['flags']:02x}" if "flags" in it else "") for it in told["ends"])
        protocol = protocol_of(told["protocol"], told["ends"][0]["address"])
        return (f"session interface {told['interface']} {protocol} {' and '.join(ends)} "
                f"last {told['last']} until {told['until']}")
    if "packet" in told or "pass" in told or "truncated_after" in told:
        return None
    if "rule" in told:
        return (f"interface {told['interface']} {told['direction']} rule {told['rule']} line {told['line']} "
                f"packets {told['packets']} | {rule_in(policy, told['line'])}")
    if "reason" in told:
        return f"{told['reason']} packets {told['packets']}"
    (name, count), = told.items()
    return f"{name.replace('_', ' ')} {count}"


def lines_of(told, policy, is_named):
    """The line of the report that an object of JSON stands for, and what goes on behind it where lines are explained."""
    behind = behind_totals(told, policy)
    if behind:
        return behind, ""
    name = f"if {told['interface']} " if is_named and "interface" in told else ""
    if "truncated_after" in told:
        return f"{name}truncated after {told['truncated_after']}", ""
    if "pass" in told:
        return f"packets {told['packets']} pass {told['pass']} drop {told['drop']}", ""
    said = f"rule {told['rule']}{' reflect' if told.get('reflect') else ''}" if told["reason"] == "rule" else told["reason"]
    behind = f" | interface {told['interface']} {told['direction'] + ' ' if 'direction' in told else ''}time {told['time']}"
    if "protocol" in told:
        ends = (address_in(told[it]) + (f" port {told[it + '_port']}" if it + "_port" in told else "")
                for it in ("source", "destination"))
        behind += f" {protocol_of(told['protocol'], told['source'])} {' to '.join(ends)}"
        behind += f" flags {told['flags']:02x}" if "flags" in told else ""
        behind += f" type {told['type']} code {told['code']}" if "type" in told else ""
        behind += " later fragment" if told.get("later_fragment") else ""
    if "line" in told:
        behind += f" | line {told['line']} {rule_in(policy, told['line'])}"
    return f"{told['packet']} {name}{told['verdict']} {said}", behind


class Views(Case):
    @each((f"{folder}/{name}", f"{TOP}/{folder}/{name}.racl") for folder in ("examples", "tests/corpus")
          for name in names_in(folder, ".racl"))
    def stored(self, path):
        data = bytes_of_file(path)
        report = self.program.run(MORE, data)
        if report["status"] not in (0, 3):
            for view in ("--json", "--explain"):
                self.compare(self.program.run([view, *MORE], data), report, view)
            return
        policy, captures = parts_of(data)
        for workers in ("1", "4"):
            got = self.program.run(["--json", *MORE, "--workers", workers], data)
            objects = [json.loads(it) for it in got["stdout"].splitlines()]
            lines = [lines_of(it, policy, captures[0][0] is not None) for it in objects]
            self.compare({"texts": [it.get("text") for it in objects]},
                         {"texts": [rule_in(policy, it["line"]) if "line" in it else None for it in objects]})
            plain, explained = (("".join(f"{''.join(it[:count])}\n" for it in lines)).encode() for count in (1, 2))
            self.compare({**got, "stdout": plain}, report, "--json", f"{workers} workers")
            got = self.program.run(["--explain", *MORE, "--workers", workers], data)
            self.compare(got, {**report, "stdout": explained}, "--explain", f"{workers} workers")
        for options, word in FEWER_LINES:
            got = self.program.run(["--explain", *MORE, *options], data)
            self.compare(got, {**report, "stdout": kept(explained, word)}, "--explain", *options)

    def test_explained_hits(self):
        data = bytes_of_file(f"{TOP}/examples/router.racl")
        lines = self.program.run(["--explain", "--summary"], data)["stdout"]
        self.compare(self.program.run(["--explain", "--summary", "--hits"], data), wanted(lines + HITS))

    def test_written_rules(self):
        """A rule of an expansion is shown with the file and line in which it was written, and with its own comment."""
        written = self.hold("rules", b"set web 192.0.2.10\n\nmac 02:00:00:00:00:01\nin permit ip any @web tcp dport 80,22 # name: web and ssh\n")
        plain = self.hold("plain", self.program.run(["expand", written])["stdout"])
        got = self.program.run(["ask", "--explain", plain, "100 in tcp 10.0.0.1 5000 192.0.2.10 22 flags 02"])
        self.compare(got, wanted(
            b"1 pass rule 2 | interface 0 in time 100 tcp 10.0.0.1 port 5000 to 192.0.2.10 port 22 flags 02"
            b" | line 3 in permit ipv4 any 192.0.2.10 tcp dport 22 # " + written.encode() + b":4 # name: web and ssh\n"
            b"packets 1 pass 1 drop 0\n"))

    @each([("low byte first", "<", 0xa1b2c3d4, 1), ("high byte first", ">", 0xa1b2c3d4, 1),
           ("nanoseconds, low byte first", "<", 0xa1b23c4d, 1000), ("nanoseconds, high byte first", ">", 0xa1b23c4d, 1000)])
    def microseconds(self, order, magic, parts):
        """Objects have the microsecond of each packet, by what the capture's magic number says of its records."""
        micros = [0, 1, 999, 1000, 999_999, 1_000_001, 4_294_966]
        policy = self.hold("policy", b"in permit ipv4 any any\n")
        capture = struct.pack(f"{order}IHHIIII", magic, 2, 4, 0, 0, 65535, 1)
        capture += b"".join(struct.pack(f"{order}IIII", 7, it * parts + parts - 1, 14, 14) + bytes(14) for it in micros)
        got = self.program.run(["--json", policy, self.hold("capture", capture)])
        told = [json.loads(it) for it in got["stdout"].splitlines()]
        seen = [(it["time"], it["microsecond"]) for it in told if "packet" in it]
        self.compare({"seen": seen, "status": got["status"]}, {"seen": [(7, it) for it in micros], "status": 0})

    def test_texts_in_objects(self):
        """A rule's text stands in an object as JSON has it, without a comment that isn't shown, and cut."""
        for comment, told in ((b'# "a\\b"\tc', 'in deny ipv4 any any # "a\\b"\tc'), ("# ü".encode(), "in deny ipv4 any any"),
                              (b"#" * 300, "in deny ipv4 any any " + "#" * 179)):
            policy = self.hold("policy", b"in deny ipv4 any any " + comment + b"\n")
            got = self.program.run(["--json", "--hits", policy, self.hold("capture", CAPTURE)])
            texts = [json.loads(it)["text"] for it in got["stdout"].splitlines() if b'"line"' in it]
            self.compare({"status": got["status"], "texts": texts}, {"status": 0, "texts": [told] * 3}, told)

    def test_many_explained_lines(self):
        data, verdicts = many_flows()
        for workers in ("1", "4"):
            got = self.program.run(["--explain", "--workers", workers], data)
            plain = b"".join(it.partition(b" | ")[0].rstrip(b"\n") + b"\n" for it in got["stdout"].splitlines(True))
            self.compare({**got, "stdout": plain}, wanted(report_of(verdicts)), f"{workers} workers")
