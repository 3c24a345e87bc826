"""Plain policies that `expand` writes of written ones, and what it says of wrong ones."""
import os

from support.cases import TOP, Case, each, wanted

# What is written, and the plain lines that it stands for, each behind the number of the line in which it was written and before that
# line's own comment.
RIGHT = [
    ("no line", "", []),
    ("a comment and a line without words", "# nothing\n\n \t\n", []),
    ("a plain policy", "mac 02:00:00:00:00:01 # own\nin  permit\tipv4 any 10.0.0.1\ninterface 2\nout deny ipv6 any any icmp type 8\r\n",
     [(1, "mac 02:00:00:00:00:01", "# own"), (2, "in permit ipv4 any 10.0.0.1"), (3, "interface 2"), (4, "out deny ipv6 any any icmp type 8")]),
    ("a carriage return at the end", "in deny ipv4 any any\r", [(1, "in deny ipv4 any any")]),
    ("a comment of its own, of other bytes too", "in deny ip any any\t#name: ü \n",
     [(1, "in deny ipv4 any any", "#name: ?? "), (1, "in deny ipv6 any any", "#name: ?? ")]),
    ("lists of addresses, the sources changing last", "in deny ipv4 10.0.0.1,10.0.0.2 192.0.2.1,any tcp\n",
     [(1, "in deny ipv4 10.0.0.1 192.0.2.1 tcp"), (1, "in deny ipv4 10.0.0.1 any tcp"),
      (1, "in deny ipv4 10.0.0.2 192.0.2.1 tcp"), (1, "in deny ipv4 10.0.0.2 any tcp")]),
    ("lists of ports and protocols", "in permit ipv4 any any tcp,udp sport 53 dport 80,1024-2047\n",
     [(1, "in permit ipv4 any any tcp sport 53 dport 80"), (1, "in permit ipv4 any any tcp sport 53 dport 1024-2047"),
      (1, "in permit ipv4 any any udp sport 53 dport 80"), (1, "in permit ipv4 any any udp sport 53 dport 1024-2047")]),
    ("a set of addresses and one of ports", "set web 192.0.2.10 192.0.2.11\nset ports 80 443\nin permit ipv4 any @web tcp dport @ports\n",
     [(3, "in permit ipv4 any 192.0.2.10 tcp dport 80"), (3, "in permit ipv4 any 192.0.2.10 tcp dport 443"),
      (3, "in permit ipv4 any 192.0.2.11 tcp dport 80"), (3, "in permit ipv4 any 192.0.2.11 tcp dport 443")]),
    ("a set of a set and of a list", "set a 10.0.0.1\nset b @a 10.0.0.2,10.0.0.3\nin deny ipv4 @b,10.0.0.4 any\n",
     [(3, "in deny ipv4 10.0.0.1 any"), (3, "in deny ipv4 10.0.0.2 any"), (3, "in deny ipv4 10.0.0.3 any"), (3, "in deny ipv4 10.0.0.4 any")]),
    ("both families, with any", "in permit ip any any icmp\n", [(1, "in permit ipv4 any any icmp"), (1, "in permit ipv6 any any icmp")]),
    ("both families, each with its own addresses", "in deny ip 10.0.0.1,2001:db8::1,any 192.0.2.0/24,2001:db8::/32\n",
     [(1, "in deny ipv4 10.0.0.1 192.0.2.0/24"), (1, "in deny ipv4 any 192.0.2.0/24"),
      (1, "in deny ipv6 2001:db8::1 2001:db8::/32"), (1, "in deny ipv6 any 2001:db8::/32")]),
    ("both families, of which one has addresses on each side", "in deny ip 10.0.0.1,2001:db8::1 192.0.2.1\n", [(1, "in deny ipv4 10.0.0.1 192.0.2.1")]),
    ("what is written right before stays in front", "in deny ip any any tcp dport 22\nin permit ip any any\n",
     [(1, "in deny ipv4 any any tcp dport 22"), (1, "in deny ipv6 any any tcp dport 22"), (2, "in permit ipv4 any any"), (2, "in permit ipv6 any any")]),
    ("both families, of which the addresses leave one to a type of ICMP", "in permit ip 10.0.0.0/8 any icmp type 8,0\nin permit ip any fe80::/10 icmp type 135 code 0\n",
     [(1, "in permit ipv4 10.0.0.0/8 any icmp type 8"), (1, "in permit ipv4 10.0.0.0/8 any icmp type 0"),
      (2, "in permit ipv6 any fe80::/10 icmp type 135 code 0")]),
    ("as many rules as may be", "in deny ipv4 10.0.0.1,10.0.0.2 any tcp dport " + ",".join(str(it) for it in range(2048)) + "\n",
     [(1, f"in deny ipv4 10.0.0.{host} any tcp dport {port}") for host in (1, 2) for port in range(2048)]),
]

# What is written, and what is said of it behind the file's name.
WRONG = [
    ("a name that no set has", "in deny ipv4 @web any\n", "1: `@web` names no set of a line before: set NAME WORD .."),
    ("a set that comes later", "in deny ipv4 @web any\nset web 10.0.0.1\n", "1: `@web` names no set of a line before: set NAME WORD .."),
    ("a name twice", "set web 10.0.0.1\n\nset web 10.0.0.2\n", "3: `web` names a set that is there already"),
    ("a set without words", "set web\n", "1: ends too early"),
    ("a name with a comma", "set a,b 10.0.0.1\n", "1: `a,b` is no name of a set: it has a comma or @"),
    ("a comma at the end", "in deny ipv4 any any tcp dport 80,\n", "1: `80,` has a comma without a word on one side"),
    ("a word of other bytes", "set web ü\n", "1: `\\xc3\\xbc` has a byte that is no visible ASCII"),
    ("no family with both addresses", "in deny ip 10.0.0.1 2001:db8::1\n", "1: stands for no rule: no family has an address of each side"),
    ("a type of ICMP of both families", "set all any\nin permit ip @all any icmp type 8\n",
     "2: `type` means another message in each family: write a rule for ipv4 and one for ipv6"),
    ("a code of ICMP of both families", "in permit ip 10.0.0.1,2001:db8::1 any icmp code 0\n",
     "1: `code` means another message in each family: write a rule for ipv4 and one for ipv6"),
    ("more rules than a direction may have", "in deny ipv4 10.0.0.1,10.0.0.2,10.0.0.3 any tcp dport " + ",".join(str(it) for it in range(2048)) + "\n",
     "1: stands for more than 4096 rules of a family"),
    ("a rule too many", "in deny ipv4 any any tcp dport " + ",".join(str(it) for it in range(4096)) + "\n# one more\nin deny ipv4 any any\n",
     "3: `in` is one rule too many: a direction has at most 4096"),
    ("an address of the other family", "in deny ipv4 any 10.0.0.1,2001:db8::1\n", "1: `2001:db8::1` is of the other family"),
    ("a word that is no address", "set web 10.0.0.1 10.0.0.256\nin deny ip any @web\n", "2: `10.0.0.256` is neither `any` nor an address or a prefix of one"),
    ("a second own address", "mac 02:00:00:00:00:01\nmac 02:00:00:00:00:02\n", "2: `mac` stands in this section already"),
    ("two wrong lines, each of which stands for two", "in allow ip any any\nin deny ip any any\nin deny ip any any tcp dport 70000\n",
     "1: `allow` is no action: deny, permit or permit+reflect\nracl: -:3: `70000` is over 65535"),
    ("a list of actions", "in permit,deny ipv4 any any\n", "1: `permit,deny` is no action: deny, permit or permit+reflect"),
    ("two carriage returns at the end", "in deny ipv4 any any\r\r", "1: `any\\x0d` has a byte that is no visible ASCII"),
    ("an include without a name", "# names\ninclude # none\n", "2: ends too early"),
    ("an include of two names", "include a b\n", "1: `b` stands behind the name of a file: include NAME"),
    ("an include of a name with other bytes", "include ü\n", "1: `\\xc3\\xbc` has a byte that is no visible ASCII"),
]

# Files, of which the first is expanded, and the plain lines that it stands for, each behind the file and the number of the line in
# which it was written; or what is said, and the status.
INCLUDED = [
    ("a file of names", {"main": "include names\nin deny ipv4 @web any\n", "names": "set web 10.0.0.1 10.0.0.2\n"},
     [("main", 2, "in deny ipv4 10.0.0.1 any"), ("main", 2, "in deny ipv4 10.0.0.2 any")]),
    ("a section in an included file", {"main": "in deny ipv4 any any\n include\tsub/more # there\nout deny ipv4 any any\n",
                                       "sub/more": "in deny ipv6 any any\ninterface 2\n\nin permit ipv4 any any\n"},
     [("main", 1, "in deny ipv4 any any"), ("sub/more", 1, "in deny ipv6 any any"), ("sub/more", 2, "interface 2"),
      ("sub/more", 4, "in permit ipv4 any any"), ("main", 3, "out deny ipv4 any any")]),
    ("files beside the one that includes them", {"main": "include sub/a\n", "sub/a": "include b\ninclude ../c\n",
                                                 "sub/b": "in deny ipv4 any any\n", "c": "in deny ipv6 any any\n"},
     [("sub/b", 1, "in deny ipv4 any any"), ("sub/../c", 1, "in deny ipv6 any any")]),
    ("files that end in a carriage return", {"main": "in deny ipv6 any any\ninclude a\r", "a": "in deny ipv4 any any\r"},
     [("main", 1, "in deny ipv6 any any"), ("a", 1, "in deny ipv4 any any")]),
    ("a file twice, and an empty one", {"main": "include a\ninclude none\ninterface 1\ninclude a\n", "a": "in deny ip any any\n", "none": ""},
     [("a", 1, "in deny ipv4 any any"), ("a", 1, "in deny ipv6 any any"), ("main", 3, "interface 1"),
      ("a", 1, "in deny ipv4 any any"), ("a", 1, "in deny ipv6 any any")]),
    ("files 16 deep", {"main": "include 1\n", **{str(it): f"include {it + 1}\n" for it in range(1, 16)}, "16": "in deny ipv4 any any\n"},
     [("16", 1, "in deny ipv4 any any")]),
    ("files 17 deep", {"main": "include 1\n", **{str(it): f"include {it + 1}\n" for it in range(1, 17)}, "17": ""},
     ("16:1: includes a file more than 16 deep, as one that includes itself does", 1)),
    ("a file that includes itself", {"main": "in deny ipv4 any any\ninclude main\n"},
     ("main:2: includes a file more than 16 deep, as one that includes itself does", 1)),
    ("a file that includes itself by longer and longer names", {"main": "include sub/../main\n", "sub/other": ""},
     ("sub/../" * 16 + "main:1: includes a file more than 16 deep, as one that includes itself does", 1)),
    ("256 files", {"main": "".join(f"include {it}\n" for it in range(255)), **{str(it): f"in deny ipv4 any any tcp dport {it}\n" for it in range(255)}},
     [(str(it), 1, f"in deny ipv4 any any tcp dport {it}") for it in range(255)]),
    ("257 files", {"main": "".join(f"include {it}\n" for it in range(256)), **{str(it): "" for it in range(256)}},
     ("main:256: includes a file too many: a policy has at most 256", 1)),
    ("more lines than a policy may have", {"main": "include a\n" * 17, "a": "#\n" * 65536},
     ("main:17: includes a line too many: a policy has at most 1048576", 1)),
    ("a set that an included file has already", {"main": "set web 10.0.0.1\ninclude a\n", "a": "# more\nset web 10.0.0.2\n"},
     ("a:2: `web` names a set that is there already", 1)),
    ("wrong lines of both files", {"main": "in allow ipv4 any any\ninclude a\n", "a": "\nin deny ipv4 any any tcp dport 70000\n"},
     ("main:1: `allow` is no action: deny, permit or permit+reflect\nracl: {}/a:2: `70000` is over 65535", 1)),
    ("an included file that is not UTF-8", {"main": "include a\n", "a": b"\xff\n"}, ("main:1: includes a file that is not UTF-8", 1)),
    ("a file that is not UTF-8 from its third line on", {"main": b"in deny ipv4 any any\n\nin \xff\n\xff\n"}, ("main:3: is not UTF-8", 1)),
    ("an included file that isn't there", {"main": "set web 10.0.0.1\ninclude a\n", "a": "\ninclude sub/b\n", "sub/a": ""},
     ("a:2: {}/sub/b: No such file or directory (os error 2)", 4)),
]


def want(told):
    """What is wanted of an expansion: plain lines, or what is said."""
    if isinstance(told, str):
        return wanted(b"", f"racl: -:{told}\n", 1)
    return wanted("".join(f"{line} # -:{number}{''.join(f' {it}' for it in comment)}\n" for number, line, *comment in told).encode())


class Expansions(Case):
    @each(RIGHT + WRONG)
    def standard_input(self, written, told):
        self.compare(self.program.run(["expand", "-"], written.encode()), want(told))

    @each(INCLUDED)
    def included(self, files, told):
        for name, text in files.items():
            path = f"{self.folder}/{name}"
            os.makedirs(os.path.dirname(path), exist_ok=True)
            with open(path, "wb") as file:
                file.write(text if isinstance(text, bytes) else text.encode())
        if isinstance(told, tuple):
            said, status = told
            want = wanted(b"", f"racl: {self.folder}/{said.format(self.folder)}\n", status)
        else:
            want = wanted("".join(f"{line} # {self.folder}/{name}:{number}\n" for name, number, line in told).encode())
        self.compare(self.program.run(["expand", f"{self.folder}/main"]), want)

    def test_included_with_roots(self):
        """A name that begins with `/` is a file's wherever it is written, and standard input includes from where it runs."""
        rules = self.hold("rules", b"in deny ipv4 any any\n")
        sub = self.hold("main", f"include {rules}\n".encode())
        want = wanted(f"in deny ipv4 any any # {rules}:1\n".encode())
        self.compare(self.program.run(["expand", sub]), want)
        self.compare(self.program.run(["expand", "-"], f"include {rules}\n".encode()), want)

    @each([("a wrong line", b"in allow ipv4 any any\n", "1: `allow` is no action: deny, permit or permit+reflect", 1),
           ("a line without its name", b"\ninclude\n", "2: ends too early", 1),
           ("no UTF-8", b"\xff", "1: is not UTF-8", 1)])
    def names_with_control_bytes(self, text, said, status):
        """Each byte of a file's name that isn't printable ASCII is told as its number, so that a terminal shows it."""
        path = self.hold("\x1b[31mrules\x7f", text)
        self.compare(self.program.run(["expand", path]), wanted(b"", f"racl: {self.folder}/\\x1b[31mrules\\x7f:{said}\n", status))

    def test_example(self):
        """The expansion of the example is a policy, and that of a plain one."""
        got = self.program.run(["expand", f"{TOP}/examples/office.rules"])
        self.compare(got, wanted(None, "", 0))
        self.compare(self.program.run(["check", "-"], got["stdout"]), wanted(None, "", 0))

    def test_words(self):
        self.compare(self.program.run(["expand"]), {"stdout": b"", "status": 2})
        self.compare(self.program.run(["expand", "/nowhere"]),
                     wanted(b"", "racl: /nowhere: No such file or directory (os error 2)\n", 4))
        self.compare(self.program.run(["expand", "--help"]), {"stderr": b"", "status": 0})
