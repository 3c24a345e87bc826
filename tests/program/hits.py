"""What is told of hits and sessions behind the report, whatever lines it has."""
import re

from support.captures import header
from support.cases import FEWER_LINES, TOP, Case, bytes_of_file, kept, wanted

# What is told of hits on examples/router.racl: its rules by the lines of its policy, and who decided each of its packets.
HITS = b"""interface 0 out rule 1 line 5 packets 1 | out permit+reflect ipv4 192.0.2.0/24 any udp dport 53
interface 0 out rule 2 line 6 packets 1 | out permit+reflect ipv4 192.0.2.0/24 any tcp flags 02/17     # SYN alone opens a connection; with 02/12 SYN and FIN would too
interface 1 in rule 1 line 9 packets 1 | in deny ipv4 any 192.0.2.1                                  # the router itself answers nothing
interface 1 in rule 2 line 10 packets 1 | in permit+reflect ipv4 192.0.2.0/24 any udp dport 53
interface 1 in rule 3 line 11 packets 0 | in permit+reflect ipv4 192.0.2.0/24 any tcp flags 02/17
session packets 3
default packets 4
full packets 0
worn packets 0
no-pages packets 0
not-ip packets 0
malformed packets 0
short packets 0
sessions entered 3
sessions matched 3
sessions expired 0
"""

# And of the sessions that the tables hold then.
SESSIONS = b"""session interface 0 udp 192.0.2.10 port 40000 and 198.51.100.53 port 53 last 10 until 610
session interface 1 udp 192.0.2.10 port 40000 and 198.51.100.53 port 53 last 10 until 610
session interface 0 tcp 192.0.2.10 port 40001 flags 02 and 203.0.113.80 port 443 flags 12 last 11 until 131
"""


class Hits(Case):
    def test_router(self):
        data, report = (bytes_of_file(f"{TOP}/examples/router.{it}") for it in ("racl", "report"))
        for options, word in (([], None), *FEWER_LINES):
            for workers in ("1", "4"):
                lines = kept(report, word) if options else report
                for asked, told in (("--hits",), HITS), (("--sessions",), SESSIONS), (("--sessions", "--hits"), HITS + SESSIONS):
                    got = self.program.run([*asked, *options, "--workers", workers], data)
                    self.compare(got, wanted(lines + told), *asked, *options, f"{workers} workers")

    def test_no_packet(self):
        got = self.program.run(["--hits"], b"in deny ipv4 any any\npcap\n" + header())
        rule = b"interface 0 in rule 1 line 1 packets 0 | in deny ipv4 any any\n"
        others = b"".join(re.sub(rb"\d+$", b"0", it) + b"\n" for it in HITS.splitlines()[5:])
        self.compare(got, wanted(b"packets 0 pass 0 drop 0\n" + rule + others))

    def test_wrong_policy(self):
        got = self.program.run(["--hits"], b"in deny\npcap\n" + header())
        self.compare(got, wanted(stderr="racl: policy line 1 is wrong\n", status=1))
