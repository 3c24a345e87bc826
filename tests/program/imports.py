"""The policies that `racl import` (`racl-import`) writes: the rules that a line stands for, what is told of lines without an equal
form, and statuses; and that each policy is one for `racl check`."""
import json
import os
import subprocess
import sys

from support.cases import SECONDS, TOP, Case, bytes_of_file, each, names_in

IMPORT = f"{TOP}/racl-import"
MAC = "02:00:00:00:00:01"
# The words for a stored sample, by the ending of its name.
FORMS = {".iptables": ["iptables-save", "--device", "h0"], ".nft": ["nft", "--device", "h0"], ".vpp": ["vpp", "--in", "4", "--in", "0", "--out", "1"]}

TCP, UDP, ICMP = ("tcp sport 0 dport 0", "udp sport 0 dport 0", "icmp type 255 code 255")
ESTABLISHED = "-A INPUT -m conntrack --ctstate RELATED,ESTABLISHED -j ACCEPT"
LEFT = "a line that may drop is left out, so the policy may pass more than these rules do"
UNWRITTEN = LEFT + ": nothing is written without --partial"
FAMILIES = [f"note: the rules are those of {one} alone, so no packet of {other} passes" for one, other in (("ipv4", "ipv6"), ("ipv6", "ipv4"))]
FRAGMENTS = "note: later fragments, which have no ports, types or flags, are dropped where a rule with those decides"
SESSIONS = ("sessions stand for it: they are of TCP, UDP and echo alone, begin with any packet of a rule that reflects, and pass what "
            "conntrack calls invalid")
BEGINNINGS = "of TCP and ICMP the rules behind it let in what may begin a flow, and sessions pass what conntrack calls invalid"
INVALID = "what conntrack calls invalid passes, too"
OTHERS = "what conntrack calls invalid, related or untracked passes, too"
RELATED = "an ICMP error of a flow is of no session; a rule lets in those of no flow, too"
UNKNOWN = "the host's addresses aren't given (--address), so each is taken for its own, and of broadcast ones 255.255.255.255 alone is known"
UNTRACKED = "flows that it takes out of tracking are judged as if they were tracked"
TRANSLATED = ("it changes addresses or ports: the policy judges packets as they are captured, which the filter's rules see changed, or not "
              "at all")
LIVE = "it drops no packet of a live session, which passes before any rule"


def iptables(*rules, inward="DROP", outward="DROP", chains=()):
    declared = "".join(f":{it} - [0:0]\n" for it in chains)
    return (f"*filter\n:INPUT {inward} [0:0]\n:FORWARD ACCEPT [0:0]\n:OUTPUT {outward} [0:0]\n{declared}"
            + "".join(f"{it}\n" for it in rules) + "COMMIT\n")


RAW_AND_NAT = """*raw
:PREROUTING ACCEPT [0:0]
:OUTPUT ACCEPT [0:0]
-A PREROUTING -s 10.0.0.0/8 -j DROP
-A OUTPUT -p udp -j CT --notrack
COMMIT
*nat
:PREROUTING ACCEPT [0:0]
:POSTROUTING ACCEPT [0:0]
-A PREROUTING -p tcp -m tcp --dport 80 -j REDIRECT --to-ports 8080
COMMIT
"""

# Lines of iptables-save that stand alone between policies that drop, and the rules that they stand for.
LINES = [
    ("-A INPUT -s 10.0.0.1/32 -j ACCEPT", ["in permit ipv4 10.0.0.1 any"]),
    ("[3:180] -A INPUT -s 10.0.0.0/255.0.0.0 -d 192.0.2.0/24 -j DROP", ["in deny ipv4 10.0.0.0/8 192.0.2.0/24"]),
    ("-A INPUT -s 10.0.0.0/8 -j REJECT --reject-with icmp-port-unreachable", ["in deny ipv4 10.0.0.0/8 any"]),
    ("-A OUTPUT -d 192.0.2.7/32 -p gre -j ACCEPT", ["out permit ipv4 any 192.0.2.7 47"]),
    ("-A INPUT -p tcp -j ACCEPT", ["in permit ipv4 any any tcp"]),
    ("-A INPUT -j ACCEPT", ["in permit ipv4 any any"]),
    ("-A INPUT -p tcp -m tcp --sport 1024:65535 --dport 80 -j ACCEPT",
     [f"in deny ipv4 any any {TCP}", "in permit ipv4 any any tcp sport 1024-65535 dport 80"]),
    ("-A INPUT -p udp -m udp --dport :1023 -j DROP", ["in deny ipv4 any any udp dport 0-1023"]),
    ("-A INPUT -s 10.0.0.0/8 -p udp -m multiport --dports 53,67:68 -j ACCEPT",
     [f"in deny ipv4 10.0.0.0/8 any {UDP}", "in permit ipv4 10.0.0.0/8 any udp dport 53", "in permit ipv4 10.0.0.0/8 any udp dport 67-68"]),
    ("-A INPUT -p tcp -m multiport --ports 7 -j DROP", ["in deny ipv4 any any tcp sport 7", "in deny ipv4 any any tcp dport 7"]),
    ("-A INPUT -p tcp --syn -j DROP", ["in deny ipv4 any any tcp flags 02/17"]),
    ("-A INPUT -p tcp -m tcp ! --tcp-flags FIN,SYN,RST,ACK SYN -j DROP",
     [f"in deny ipv4 any any tcp flags {it}" for it in ("01/01", "00/02", "04/04", "10/10")]),
    ("-A INPUT -p tcp -m tcp --tcp-flags ALL NONE -j DROP", ["in deny ipv4 any any tcp flags 00/3f"]),
    ("-A INPUT -p tcp -m tcp --tcp-flags FIN,SYN,RST,PSH,ACK,URG FIN,PSH,URG -j DROP", ["in deny ipv4 any any tcp flags 29/3f"]),
    ("-A INPUT -p icmp -m icmp --icmp-type 8 -j DROP", ["in deny ipv4 any any icmp type 8"]),
    ("-A INPUT -p icmp -m icmp --icmp-type 3/4 -j ACCEPT", [f"in deny ipv4 any any {ICMP}", "in permit ipv4 any any icmp type 3 code 4"]),
    ("-A INPUT -p icmp --icmp-type echo-request -j DROP", ["in deny ipv4 any any icmp type 8"]),
    ("-A INPUT -p icmp --icmp-type any -j ACCEPT", ["in permit ipv4 any any icmp"]),
    ("-A INPUT -m iprange --src-range 10.0.0.1-10.0.0.6 -j DROP",
     [f"in deny ipv4 {it} any" for it in ("10.0.0.1", "10.0.0.2/31", "10.0.0.4/31", "10.0.0.6")]),
    ("-A INPUT -m iprange --src-range 10.0.0.7 -j DROP", ["in deny ipv4 10.0.0.7 any"]),
    ("-A INPUT -s 127.0.0.0/8 ! -i lo -j DROP", ["in deny ipv4 127.0.0.0/8 any"]),
    ("-A INPUT ! -s 64.0.0.0/2 -j DROP", ["in deny ipv4 0.0.0.0/2 any", "in deny ipv4 128.0.0.0/1 any"]),
    ("-A INPUT ! -s 0.0.0.0/1 -j ACCEPT", ["in permit ipv4 128.0.0.0/1 any"]),
    ("-A INPUT -m iprange ! --dst-range 0.0.0.2-255.255.255.255 -j DROP", ["in deny ipv4 any 0.0.0.0/31"]),
    ("-A INPUT -p tcp -m tcp ! --dport 22 -j DROP", ["in deny ipv4 any any tcp dport 0-21", "in deny ipv4 any any tcp dport 23-65535"]),
    ("-A INPUT -p udp -m multiport ! --dports 0:52,54:65535 -j DROP", ["in deny ipv4 any any udp dport 53"]),
    ("-A INPUT -p udp -m multiport ! --ports 2:65535 -j DROP", ["in deny ipv4 any any udp sport 0-1 dport 0-1"]),
    ("-A INPUT -p icmp -m icmp ! --icmp-type 8 -j DROP", ["in deny ipv4 any any icmp type 0-7", "in deny ipv4 any any icmp type 9-255"]),
    ("-A INPUT -p icmp -m icmp ! --icmp-type 0/0 -j DROP", ["in deny ipv4 any any icmp type 1-255", "in deny ipv4 any any icmp type 0 code 1-255"]),
    ("-A INPUT -p tcp -m tcp ! --tcp-flags SYN SYN,ACK -j DROP", ["in deny ipv4 any any tcp"]),
    ("-A INPUT -m addrtype --dst-type MULTICAST -j DROP", ["in deny ipv4 any 224.0.0.0/4"]),
]

# Lines without an equal form, between policies that drop, and why; those that accept come first.
ACCEPTS = [
    ("-A INPUT -i eth1 -j ACCEPT", "the device eth1 has no form; --device names that of the capture"),
    ("-A INPUT ! -p tcp -j ACCEPT", "`! -p` has no equal form; a rule before it that decides on the others stands for it"),
    ("-A INPUT -m limit --limit 5/min -j ACCEPT", "`-m limit` has no equal form"),
    ("-A INPUT -m recent --update --seconds 60 --name x -j ACCEPT", "`-m recent` has no equal form"),
    ("-A INPUT -m mark --mark 0x1 -j ACCEPT", "`-m mark` has no equal form"),
    ("-A INPUT -m string --string \"-j DROP\" --algo bm -j ACCEPT", "`-m string` has no equal form"),
    ("-A INPUT -p tcp --dport ssh -j ACCEPT", "`ssh` is no number of a port (names of ports have no form) that is known here"),
    ("-A INPUT -p tcp --dport 5:4 -j ACCEPT", "5-4 is no range of numbers up to 65535"),
    ("-A INPUT -p none -j ACCEPT", "`none` is no protocol that is known here"),
    ("-A INPUT -s host.example -j ACCEPT", "`host.example` is no address and no prefix"),
    ("-A INPUT -s 10.0.0.0/255.0.255.0 -j ACCEPT", "`10.0.0.0/255.0.255.0` is no address and no prefix"),
    ("-A INPUT -p icmp --icmp-type soon -j ACCEPT", "`soon` is no type of ICMP that is known here"),
    ("-A INPUT -p sctp --dport 5 -j ACCEPT", "ports are of TCP and UDP alone"),
    ("-A INPUT -f -j ACCEPT", "`-f` has no equal form"),
    ("-A INPUT -m conntrack --ctstate DNAT -j ACCEPT", "`DNAT` has a state without an equal form"),
    ("-A INPUT -m conntrack --ctstate NEW -j ACCEPT", "what follows of its flows isn't accepted"),
    ("-A INPUT -m conntrack --ctstate RELATED -j ACCEPT", "state related has no equal form"),
    ("-A INPUT -m addrtype --dst-type ANYCAST -j ACCEPT", "the type of addresses `anycast` has no equal form"),
    ("-A INPUT -m addrtype --src-type LOCAL -j ACCEPT", "`--src-type` has no equal form"),
    ("-A INPUT -m rpfilter -j ACCEPT", "`-m rpfilter` has no equal form"),
]
DROPS = [
    ("-A INPUT -i eth1 -j DROP", "the device eth1 has no form; --device names that of the capture"),
    ("-A INPUT -m limit --limit 5/min -j REJECT", "`-m limit` has no equal form"),
    ("-A INPUT -p tcp -m conntrack --ctstate INVALID -j DROP", "drops of state invalid alone have no equal form"),
    ("-A INPUT -m conntrack --ctstate ESTABLISHED -j DROP", "drops of state established alone have no equal form"),
    ("-A INPUT -p tcp --dport 80 -j NFQUEUE --queue-num 0", "the target NFQUEUE has no equal form"),
    ("-A INPUT -m mark --mark 0x1 -j RETURN", "`-m mark` has no equal form"),
    ("-A INPUT -m mark --mark 0x1 -j BAD", "`-m mark` has no equal form"),
    ("-A INPUT -m mark --mark 0x1 -g GOOD", "`-m mark` has no equal form"),
    ("-A INPUT -p tcp -j DROP -x", "`-x` has no equal form"),
    ("-A INPUT ! -p tcp -j DROP", "`! -p` has no equal form; a rule before it that decides on the others stands for it"),
    ("-A INPUT -m conntrack --ctstate NEW,DNAT -j DROP", "what came by a changed address has no form; the other states have"),
    ("-A INPUT -m rpfilter --loose --invert -j DROP", "`--loose` has no equal form"),
    ("-A INPUT -p tcp -j REDIRECT --to-ports 80", "the target REDIRECT has no equal form"),
]

# Whole rulesets of iptables-save: name, text, further words, the policy's rules, and what is told, by the words behind the line's text.
RULESETS = [
    ("policies that accept", iptables(inward="ACCEPT", outward="ACCEPT"), [], ["in permit ipv4 any any", "out permit ipv4 any any"], []),
    ("a policy that accepts behind a rule for all", iptables("-A INPUT -j DROP", inward="ACCEPT"), [], ["in deny ipv4 any any"], []),
    ("loopback", iptables("-A INPUT -i lo -j ACCEPT", "-A OUTPUT -o lo -j DROP"), [], [], 2 * ["note: it is of loopback, which isn't captured"]),
    ("what decides nothing", iptables("-A INPUT -j LOG --log-prefix \"-j ACCEPT \"", "-A INPUT -s 10.0.0.1/32"), [], [],
     2 * ["note: it decides nothing"]),
    ("devices", iptables("-A INPUT -i eth1 -s 10.0.0.0/8 -j DROP", "-A INPUT ! -i eth+ -j DROP", "-A INPUT -i eth0 -j ACCEPT"),
     ["--device", "eth0"], ["in permit ipv4 any any"], 2 * ["note: it is of another device than the capture"]),
    ("a chain", iptables("-A INPUT -p tcp -j T", "-A INPUT -j DROP", "-A T -s 10.0.0.0/8 -p udp -j ACCEPT", "-A T -s 10.0.0.0/8 -j U",
                         "-A T -p tcp -m tcp --dport 22 -j DROP", "-A U -s 10.1.0.0/16 -j ACCEPT", chains=("T", "U")), [],
     ["in permit ipv4 10.1.0.0/16 any tcp", "in deny ipv4 any any tcp dport 22", "in deny ipv4 any any"], []),
    ("a return on a condition", iptables("-A INPUT -p tcp -j T", "-A INPUT -s 10.0.0.0/7 -j ACCEPT", "-A T -s 10.0.0.0/8 -j RETURN",
                                         "-A T -j DROP", chains=("T",)), [],
     ["in permit ipv4 10.0.0.0/8 any tcp", "in deny ipv4 any any tcp", "in permit ipv4 10.0.0.0/7 any"], []),
    ("a return at the end", iptables("-A INPUT -j T", "-A INPUT -j ACCEPT", "-A T -s 10.0.0.0/8 -j DROP", "-A T -j RETURN", "-A T -j DROP",
                                     chains=("T",)), [], ["in deny ipv4 10.0.0.0/8 any", "in permit ipv4 any any"], []),
    ("goto", iptables("-A INPUT -s 10.0.0.0/8 -g T", "-A INPUT -j ACCEPT", "-A T -p udp -j ACCEPT", chains=("T",)), [],
     ["in permit ipv4 10.0.0.0/8 any udp", "in deny ipv4 10.0.0.0/8 any", "in permit ipv4 any any"], []),
    ("goto of all packets", iptables("-A INPUT -g T", "-A INPUT -j ACCEPT", "-A T -p udp -j ACCEPT", chains=("T",)), [],
     ["in permit ipv4 any any udp", "in deny ipv4 any any"], []),
    ("a jump without a form, to what accepts", iptables("-A INPUT -m mark --mark 1 -j T", "-A T -s 10.0.0.0/8 -j ACCEPT", chains=("T",)),
     [], [], ["left out: `-m mark` has no equal form"]),
    ("forwarded packets", iptables("-A FORWARD -j DROP"), [], [],
     ["warning: a forwarded packet has no form: it is judged as if it were this host's"]),
    ("established flows and new ones", iptables(
        ESTABLISHED, "-A INPUT -p tcp -m tcp --dport 22 -m conntrack --ctstate NEW -j ACCEPT", "-A INPUT -p udp -m udp --dport 53 -j ACCEPT",
        "-A INPUT -p icmp -m icmp --icmp-type 8 -j ACCEPT", "-A INPUT -p icmp -m icmp --icmp-type 3 -j ACCEPT", outward="ACCEPT"), [],
     [f"in deny ipv4 any any {TCP}", "in permit+reflect ipv4 any any tcp dport 22 flags 02/17",
      "in permit+reflect ipv4 any any tcp dport 22 flags 10/17", f"in deny ipv4 any any {UDP}", "in permit+reflect ipv4 any any udp dport 53",
      f"in deny ipv4 any any {ICMP}", "in permit+reflect ipv4 any any icmp type 8", "in permit ipv4 any any icmp type 3",
      "out permit+reflect ipv4 any any"],
     [f"warning: {SESSIONS}", f"note: {RELATED}"]),
    ("established flows one way", iptables(
        "-A INPUT -p tcp -m tcp --dport 22 -m state --state NEW,ESTABLISHED -j ACCEPT",
        "-A OUTPUT -p tcp -m tcp --sport 22 -m state --state ESTABLISHED -j ACCEPT", "-A OUTPUT -p udp -j ACCEPT"), [],
     [f"in deny ipv4 any any {TCP}", "in permit+reflect ipv4 any any tcp dport 22 flags 02/17",
      "in permit+reflect ipv4 any any tcp dport 22 flags 10/17", "out permit ipv4 any any udp"], [f"warning: {SESSIONS}"]),
    ("established flows of TCP alone", iptables("-A INPUT -p tcp -m state --state ESTABLISHED -j ACCEPT", outward="ACCEPT"), [],
     ["out permit+reflect ipv4 any any tcp", "out permit ipv4 any any"], [f"warning: {SESSIONS}"]),
    ("established flows in, and no answers out", iptables(ESTABLISHED, "-A INPUT -p udp -j ACCEPT"), [], ["in permit ipv4 any any udp"],
     [f"warning: {SESSIONS}", f"note: {RELATED}"]),
    ("no line of established flows", iptables("-A INPUT -p tcp -m state --state NEW,ESTABLISHED -j ACCEPT"), [],
     ["in permit ipv4 any any tcp"], [f"warning: {INVALID}"]),
    ("no line of established flows, and all protocols", iptables("-A INPUT -m state --state NEW,ESTABLISHED -j ACCEPT"), [],
     ["in permit ipv4 any any"], [f"warning: {OTHERS}"]),
    ("drops before established flows", iptables(
        "-A INPUT -s 203.0.113.0/24 -p tcp -m tcp --sport 80 -j DROP", "-A INPUT -p tcp -m tcp --tcp-flags FIN,SYN FIN,SYN -j DROP",
        "-A INPUT -m state --state ESTABLISHED -j ACCEPT", outward="ACCEPT"), [],
     ["in deny ipv4 203.0.113.0/24 any tcp sport 80", "in deny ipv4 any any tcp flags 03/03",
      "out permit ipv4 any 203.0.113.0/24 tcp dport 80", "out permit+reflect ipv4 any any"],
     [f"warning: {SESSIONS}", f"warning: {LIVE}"]),
    ("answers to pings dropped before established flows", iptables(
        "-A INPUT -p icmp -j DROP", "-A INPUT -m state --state ESTABLISHED -j ACCEPT", outward="ACCEPT"), [],
     ["in deny ipv4 any any icmp", "out permit ipv4 any any icmp type 8", "out permit+reflect ipv4 any any"], [f"warning: {SESSIONS}"]),
    ("new connections dropped", iptables(
        "-A INPUT -m state --state ESTABLISHED -j ACCEPT",
        "-A INPUT -p tcp -m tcp ! --tcp-flags FIN,SYN,RST,ACK SYN -m state --state NEW -j DROP", "-A INPUT -p tcp -j ACCEPT", outward="ACCEPT"), [],
     [*(f"in deny ipv4 any any tcp flags {it}" for it in ("01/01", "00/02", "04/04", "10/10")), "in permit+reflect ipv4 any any tcp",
      "out permit+reflect ipv4 any any"], [f"warning: {SESSIONS}", "note: what conntrack calls invalid is dropped, too"]),
    ("all but what is invalid", iptables(
        "-A INPUT -m state --state ESTABLISHED -j ACCEPT", "-A OUTPUT -m conntrack ! --ctstate INVALID -j ACCEPT"), [],
     ["out permit+reflect ipv4 any any"], [f"warning: {SESSIONS}", f"warning: {INVALID}"]),
    ("what is invalid dropped", iptables(
        "-A INPUT -j T", "-A INPUT -m state --state ESTABLISHED -j ACCEPT", "-A INPUT -p tcp -j ACCEPT", "-A INPUT -p udp -j ACCEPT",
        "-A INPUT -p icmp -j ACCEPT", "-A T -m conntrack --ctstate INVALID -j DROP", outward="ACCEPT", chains=("T",)), [],
     [f"in deny ipv4 any any {TCP}", "in permit+reflect ipv4 any any tcp flags 02/17", "in permit+reflect ipv4 any any tcp flags 10/17",
      "in permit+reflect ipv4 any any udp", f"in deny ipv4 any any {ICMP}",
      *(f"in permit+reflect ipv4 any any icmp type {it}" for it in (8, 13, 15, 17)), "out permit+reflect ipv4 any any"],
     [f"warning: {BEGINNINGS}", f"warning: {SESSIONS}", f"note: {RELATED}"]),
    ("what is invalid dropped, and ICMPv6, of which some isn't tracked", iptables(
        "-A INPUT -m conntrack --ctstate INVALID -j DROP", "-A INPUT -m state --state ESTABLISHED -j ACCEPT", "-A INPUT -p ipv6-icmp -j ACCEPT",
        outward="ACCEPT"), [], ["in deny ipv6 any any icmp type 255 code 255",
                                *(f"in permit+reflect ipv6 any any icmp type {it}" for it in ("128", "139", "130-136", "143")),
                                "out permit+reflect ipv6 any any"], [f"warning: {BEGINNINGS}", f"warning: {SESSIONS}", f"note: {RELATED}"]),
    ("new connections that none begins so", iptables(
        "-A INPUT -m state --state ESTABLISHED -j ACCEPT", "-A INPUT -p tcp -m tcp --tcp-flags FIN FIN -m state --state NEW -j ACCEPT"), [], [],
     [f"warning: {SESSIONS}", "note: no such packet begins a flow, so it accepts none but of live ones"]),
    ("no other states, behind a policy that accepts", iptables("-A INPUT -m conntrack ! --ctstate RELATED,ESTABLISHED -j DROP", inward="ACCEPT",
                                                               outward="ACCEPT"), [],
     ["in deny ipv4 any any", "out permit+reflect ipv4 any any"],
     ["note: what conntrack calls related is dropped, too", f"warning: {SESSIONS}", f"note: {RELATED}"]),
    ("new connections dropped, behind a policy that accepts", iptables("-A INPUT -p tcp -m state --state NEW -j DROP", inward="ACCEPT",
                                                                       outward="ACCEPT"), [],
     ["in deny ipv4 any any tcp", "in permit+reflect ipv4 any any", "out permit+reflect ipv4 any any"],
     ["note: what conntrack calls invalid is dropped, too", f"warning: {SESSIONS}"]),
    ("ICMP of flows and errors", iptables(
        "-A INPUT -m state --state ESTABLISHED -j ACCEPT", "-A INPUT -p icmp -m state --state NEW,RELATED,ESTABLISHED -j ACCEPT", outward="ACCEPT"), [],
     ["in deny ipv4 any any icmp type 255 code 255", *(f"in permit+reflect ipv4 any any icmp type {it}" for it in (8, 13, 15, 17)),
      "out permit+reflect ipv4 any any"], [f"warning: {SESSIONS}", f"note: {RELATED}"]),
    ("errors of a zone that is accepted them", iptables(
        "-A INPUT -s 10.0.0.0/8 -j Z", "-A INPUT -p icmp -j DROP", "-A INPUT -p icmp -j ACCEPT", "-A Z -m state --state RELATED,ESTABLISHED -j ACCEPT",
        "-A Z -p udp -m udp --dport 53 -m state --state NEW -j ACCEPT", outward="ACCEPT", chains=("Z",)), [],
     ["in deny ipv4 10.0.0.0/8 any udp sport 0 dport 0", "in permit+reflect ipv4 10.0.0.0/8 any udp dport 53", "in deny ipv4 any any icmp",
      "in permit+reflect ipv4 10.0.0.0/8 any icmp", "in permit ipv4 any any icmp", "out permit+reflect ipv4 any 10.0.0.0/8", "out permit ipv4 any any"],
     [f"warning: {SESSIONS}", f"note: {RELATED}"]),
    ("states by a changed address", iptables("-A INPUT -m conntrack --ctstate RELATED,ESTABLISHED,DNAT -j ACCEPT", outward="ACCEPT"), [],
     ["out permit+reflect ipv4 any any"],
     ["left out: what came by a changed address has no form; the other states have", f"warning: {SESSIONS}", f"note: {RELATED}"]),
    ("ICMP that is new or invalid, and no errors of flows", iptables(
        "-A INPUT -m state --state ESTABLISHED -j ACCEPT", "-A INPUT -p icmp -m state --state NEW,INVALID -j ACCEPT", outward="ACCEPT"), [],
     ["in permit+reflect ipv4 any any icmp", "out permit+reflect ipv4 any any"],
     [f"warning: {SESSIONS}", "warning: what conntrack calls related or untracked passes, too"]),
    ("a word of IPv6 in a comment", iptables("-A INPUT -m comment --comment icmp6-host -j ACCEPT"), [], ["in permit ipv4 any any"], []),
    ("a word of IPv6 under a heading", "# Generated by iptables-save v1.8.9\n" + iptables("-A INPUT -p 58 -m comment --comment -s -j ACCEPT"), [],
     ["in permit ipv4 any any 58"], []),
    ("an answer of IPv6", iptables("-A INPUT -p udp -j REJECT --reject-with icmp6-port-unreachable"), [], ["in deny ipv6 any any udp"], []),
    ("types of addresses of no known host", iptables("-A INPUT -j N", "-A INPUT -p tcp -j ACCEPT", "-A N -m addrtype --dst-type LOCAL -j RETURN",
                                                     "-A N -j DROP", chains=("N",)), [],
     ["in permit ipv4 any any tcp"], [f"warning: {UNKNOWN}"]),
    ("types of addresses", iptables("-A INPUT -m addrtype --dst-type BROADCAST -j DROP", "-A INPUT -m addrtype ! --dst-type LOCAL -j DROP",
                                    "-A INPUT -p tcp -j ACCEPT"), ["--address", "128.0.0.0/31", "--address", "0.0.0.9/24"],
     ["in deny ipv4 any 0.0.0.0", "in deny ipv4 any 255.255.255.255", "in deny ipv4 any 0.0.0.255", *(f"in deny ipv4 any {it}" for it in (
         "0.0.0.0/29", "0.0.0.8", "0.0.0.10/31", "0.0.0.12/30", *(f"0.0.0.{1 << it}/{32 - it}" for it in range(4, 8)),
         *(f"0.0.{1 << it}.0/{24 - it}" for it in range(8)), *(f"0.{1 << it}.0.0/{16 - it}" for it in range(8)),
         *(f"{1 << it}.0.0.0/{8 - it}" for it in range(7)), "128.0.0.1", "128.0.0.2/31", *(f"128.0.0.{1 << it}/{32 - it}" for it in range(2, 8)),
         *(f"128.0.{1 << it}.0/{24 - it}" for it in range(8)), *(f"128.{1 << it}.0.0/{16 - it}" for it in range(8)),
         *(f"{128 + (1 << it)}.0.0.0/{8 - it}" for it in range(7)))), "in permit ipv4 any any tcp"], []),
    ("a goto by a device, before the same for all", iptables("-A INPUT -i eth7 -g Z", "-A INPUT -g Z", "-A Z -p udp -j ACCEPT", chains=("Z",)), [],
     ["in permit ipv4 any any udp", "in deny ipv4 any any"],
     ["note: the device eth7 has no form; --device names that of the capture; the rule behind it does the same to all its packets"]),
    ("a goto by a device, before another", iptables("-A INPUT -i eth7 -g Z", "-A INPUT -p udp -g Z", "-A Z -p udp -j ACCEPT", chains=("Z",)), ["--partial"],
     ["in permit ipv4 any any udp"],
     ["left out, which may drop: the device eth7 has no form; --device names that of the capture", LEFT], 5),
    ("a jump to what decides nothing", iptables("-A INPUT -m limit --limit 3/min -j L", "-A INPUT -j E", "-A L -j LOG", chains=("E", "L")), [], [],
     ["note: it decides nothing"]),
    ("what comes from no route, and by a routing header", iptables(
        "-A INPUT -m rpfilter --validmark --invert -j DROP", "-A INPUT -m rt --rt-type 0 -j DROP", "-A INPUT -p ipv6-icmp -m icmp6 --icmpv6-type 135 -m hl --hl-eq 255 -j ACCEPT"), [],
     ["in deny ipv6 any any icmp type 255 code 255", "in permit ipv6 any any icmp type 135"],
     ["warning: what comes from where no route leads back passes, too",
      "warning: what has a routing header of type 0 passes as without one, where a host is to drop it itself (RFC 5095)",
      "warning: its hop limit has no form, so what has another one passes, too, where a host is to drop it itself (RFC 4861)"]),
    ("a hop limit of other packets", iptables("-A INPUT -p tcp -m hl --hl-eq 255 -j ACCEPT"), [], [],
     ["left out: a condition has no equal form but of what is accepted of ICMPv6, or dropped"]),
    ("tables before the filter", RAW_AND_NAT + iptables("-A INPUT -p tcp -j ACCEPT"), [],
     ["in deny ipv4 10.0.0.0/8 any", "in permit ipv4 any any tcp", "in deny ipv4 any any"],
     [f"warning: {UNTRACKED}", "note: it drops no packet", f"warning: {TRANSLATED}", "note: it drops no packet"]),
    ("states before conntrack", "*raw\n:PREROUTING ACCEPT [0:0]\n-A PREROUTING -m state --state NEW -j DROP\nCOMMIT\n" + iptables(), ["--partial"],
     ["in deny ipv4 any any"], ["left out, which may drop: conntrack comes behind the table raw", LEFT], 5),
    ("another table", "*mangle\n:PREROUTING ACCEPT [0:0]\n-A PREROUTING -j ACCEPT\nCOMMIT\n" + iptables(), [], [],
     ["note: it drops no packet"]),
]

# What iptables-save doesn't write, and what is said.
WRONG = [
    ("nothing", ["iptables-save"], "", "there is no table *filter"),
    ("rules of nft", ["iptables-save"], "table inet f {\n", "line 1 is no line of iptables-save: table inet f {"),
    ("a chain that isn't there", ["iptables-save"], iptables("-A NONE -j DROP"), "line 5 is of a chain that isn't declared"),
    ("a quotation", ["iptables-save"], iptables('-A INPUT -m comment --comment "a -j DROP'), "line 5 has a quotation that doesn't end"),
    ("half a table", ["iptables-save"], iptables("-A INPUT -j DROP").replace("COMMIT\n", ""),
     "the table filter has no line COMMIT: it isn't whole"),
    ("a table twice", ["iptables-save"], iptables("-A INPUT -j ACCEPT") + iptables(),
     "line 7 begins the table filter once more, of which line 1 is the first: iptables-restore keeps the last alone"),
    ("another family than is given", ["iptables-save", "--ipv6"], "# Generated by iptables-save v1\n" + iptables(),
     "these are rules of iptables-save, and --ipv6 is given"),
    ("an ACL twice", ["vpp", "--in", "0"], "acl-index 0 count 0 tag {}\nacl-index 0 count 0 tag {}\n", "line 2 begins acl-index 0 once more"),
    ("half an ACL", ["vpp", "--in", "0"], "acl-index 0 count 2 tag {}\n", "acl-index 0 has 0 rules, and not the 2 that it counts"),
    ("both families", ["iptables-save"], iptables("-A INPUT -s fe80::/10 -j DROP", "-A INPUT -s 10.0.0.1/32 -j DROP"),
     "line 6: `10.0.0.1/32` is of the other family"),
    ("two families' files", ["iptables-save"], "# Generated by iptables-save v1\n# Generated by ip6tables-save v1\n" + iptables(),
     "these are rules of both families; each has a policy of its own"),
    ("a chain that calls itself", ["iptables-save"], iptables("-A INPUT -j T", "-A T -j T", chains=("T",)), "line 7: the chain T calls itself"),
    ("bytes", ["iptables-save"], "\x1b[31mü", "line 1 is no line of iptables-save: \\x1b[31m\\xc3\\xbc"),
    ("text of nft", ["nft"], "table inet f {\n}\n", "this isn't what `nft -j list ruleset` writes, which is wanted, as JSON"),
    ("other JSON", ["nft"], "[]", "this isn't what `nft -j list ruleset` writes, which is wanted, as JSON"),
    ("half a listing", ["nft"], '{"nftables": [{"rule": {"family": "ip", "table": "t"}}]}',
     "the listing isn't whole: it has an object of no known form"),
    ("no ACL", ["vpp", "--in", "0"], "", "there is no line `acl-index N count N tag {..}`"),
    ("another ACL", ["vpp", "--in", "2"], "acl-index 0 count 0 tag {}\nacl-index 3 count 0 tag {a}\n", "there is no acl-index 2; there are 0, 3"),
    ("another command of VPP", ["vpp", "--in", "0"], "acl-index 0 count 0 tag {}\nno such command\n",
     "line 2 is no line of `show acl-plugin acl`: no such command"),
]


def listing(*rules, family="inet", policy="drop", hook="input", more=()):
    """What `nft -j list ruleset` writes of a chain with these rules, each the list of its expressions."""
    own = {"family": family, "table": "t"}
    chain = {**own, "name": "c", "handle": 1, "type": "filter", "hook": hook, "prio": 0, "policy": policy}
    told = [{"metainfo": {"version": "1.0.6"}}, {"table": {"family": family, "name": "t"}}, {"chain": chain},
            *({kind: {**own, **it}} for kind, it in more if kind != "rule"),
            *({"rule": {**own, "chain": "c", "handle": at, "expr": it}} for at, it in enumerate(rules, 2)),
            *({kind: {**own, **it}} for kind, it in more if kind == "rule")]
    return json.dumps({"nftables": told})


def match(left, right, op="=="):
    """A match of a field, as `tcp dport`, or of `ct state` and the like."""
    first, second = left.split()
    one = {first: {"key": second}} if first in ("ct", "meta") else {"payload": {"protocol": first, "field": second}}
    return {"match": {"op": op, "left": one, "right": right}}


def masked(mask, right, op="=="):
    return {"match": {"op": op, "left": {"&": [{"payload": {"protocol": "tcp", "field": "flags"}}, mask]}, "right": right}}


ACCEPT, DROP = {"accept": None}, {"drop": None}
PAIR = {"concat": [{"payload": {"protocol": "ip", "field": "saddr"}}, {"payload": {"protocol": "tcp", "field": "dport"}}]}
BLOCKED = ("set", {"name": "s", "type": "ipv4_addr", "flags": ["interval"],
                   "elem": [{"range": ["10.0.0.1", "10.0.0.2"]}, {"prefix": {"addr": "10.1.0.0", "len": 16}}]})
VERDICTS = ("map", {"name": "m", "type": "inet_service", "map": "verdict", "elem": [[23, DROP], [80, {"jump": {"target": "u"}}]]})
CHAIN = ("chain", {"name": "u", "handle": 9})
IN_CHAIN = ("rule", {"chain": "u", "handle": 20, "expr": [match("ip saddr", "10.0.0.1"), DROP]})


def both(rule):
    return [rule.replace("ipv4", it) for it in ("ipv4", "ipv6")]


# Rules of nft's JSON in a chain of hook input and family inet, and the `in` rules that they stand for.
EXPRESSIONS = [
    ("a prefix and a port", [match("ip saddr", {"prefix": {"addr": "10.0.0.0", "len": 8}}), match("tcp dport", 22), DROP],
     ["in deny ipv4 10.0.0.0/8 any tcp dport 22"]),
    ("both families", [match("tcp dport", {"set": [22, {"range": [80, 90]}]}), DROP],
     [*both("in deny ipv4 any any tcp dport 22"), *both("in deny ipv4 any any tcp dport 80-90")]),
    ("a set by name", [match("ip daddr", "@s"), {"counter": {"packets": 1, "bytes": 9}}, {"log": {"prefix": "x"}}, DROP],
     ["in deny ipv4 any 10.0.0.1", "in deny ipv4 any 10.0.0.2", "in deny ipv4 any 10.1.0.0/16"]),
    ("a pair", [{"match": {"op": "==", "left": PAIR, "right": {"set": [{"concat": ["10.0.0.2", 23]}]}}}, DROP],
     ["in deny ipv4 10.0.0.2 any tcp dport 23"]),
    ("a map by name", [{"vmap": {"key": {"payload": {"protocol": "tcp", "field": "dport"}}, "data": "@m"}}],
     [*both("in deny ipv4 any any tcp dport 23"), "in deny ipv4 10.0.0.1 any tcp dport 80"]),
    ("masked flags", [masked(["fin", "syn", "rst", "ack"], "syn"), DROP], both("in deny ipv4 any any tcp flags 02/17")),
    ("one of two flags", [match("tcp flags", ["fin", "syn"], "in"), DROP],
     [*both("in deny ipv4 any any tcp flags 01/01"), *both("in deny ipv4 any any tcp flags 02/02")]),
    ("these flags alone", [match("tcp flags", {"|": ["syn", "ack"]}), DROP], both("in deny ipv4 any any tcp flags 12/ff")),
    ("other flags", [masked(["fin", "syn"], "syn", "!="), DROP],
     [*both("in deny ipv4 any any tcp flags 01/01"), *both("in deny ipv4 any any tcp flags 00/02")]),
    ("ports from one on", [match("udp sport", 1024, ">="), DROP], both("in deny ipv4 any any udp sport 1024-65535")),
    ("ports below one", [match("udp sport", 1024, "<"), DROP], both("in deny ipv4 any any udp sport 0-1023")),
    ("ports of two protocols", [match("meta l4proto", {"set": ["tcp", "udp"]}), match("th dport", 53), DROP],
     [*both("in deny ipv4 any any tcp dport 53"), *both("in deny ipv4 any any udp dport 53")]),
    ("types of ICMP", [match("icmp type", {"set": ["echo-request", "destination-unreachable"]}), DROP],
     ["in deny ipv4 any any icmp type 8", "in deny ipv4 any any icmp type 3"]),
    ("types of ICMPv6", [match("icmpv6 type", {"set": ["nd-neighbor-solicit", 143]}), DROP],
     ["in deny ipv6 any any icmp type 135", "in deny ipv6 any any icmp type 143"]),
    ("a type and a code", [match("icmp type", "destination-unreachable"), match("icmp code", "frag-needed"), DROP],
     ["in deny ipv4 any any icmp type 3 code 4"]),
    ("a family", [match("meta nfproto", "ipv6"), {"reject": {"type": "icmpv6", "expr": "port-unreachable"}}], ["in deny ipv6 any any"]),
    ("a protocol", [match("meta l4proto", "gre"), DROP], both("in deny ipv4 any any 47")),
    ("a jump", [match("tcp dport", 22), {"jump": {"target": "u"}}], ["in deny ipv4 10.0.0.1 any tcp dport 22"]),
    ("neither of two flags", [match("tcp flags", ["fin", "syn"], "!"), DROP], both("in deny ipv4 any any tcp flags 00/03")),
    ("neither of two flags, by a mask", [masked(["fin", "syn"], 0), DROP], both("in deny ipv4 any any tcp flags 00/03")),
    ("other addresses", [match("ip saddr", {"set": [{"prefix": {"addr": "0.0.0.0", "len": 1}}, {"range": ["192.0.0.0", "255.255.255.255"]}]}, "!="), DROP],
     ["in deny ipv4 128.0.0.0/2 any"]),
    ("other ports", [match("tcp dport", {"set": [22, {"range": [80, 90]}]}, "!="), DROP],
     [rule for part in ("0-21", "23-79", "91-65535") for rule in both(f"in deny ipv4 any any tcp dport {part}")]),
    ("another family", [match("meta nfproto", "ipv6", "!="), DROP], ["in deny ipv4 any any"]),
    ("an answer of one family", [match("tcp dport", 22), {"reject": {"type": "icmp", "expr": "host-prohibited"}}], ["in deny ipv4 any any tcp dport 22"]),
    ("an answer of the other", [{"reject": {"type": "icmpv6", "expr": "no-route"}}], ["in deny ipv6 any any"]),
    ("an answer of each family", [{"reject": {"type": "icmpx", "expr": "port-unreachable"}}], both("in deny ipv4 any any")),
    ("elements with counts and times", [match("ip saddr", {"set": [{"elem": {"val": "10.0.0.1", "timeout": 9, "expires": 5, "counter": {"packets": 0, "bytes": 0}}}]}), DROP],
     ["in deny ipv4 10.0.0.1 any"]),
    ("not loopback", [match("meta iifname", "lo", "!="), match("ip saddr", {"prefix": {"addr": "127.0.0.0", "len": 8}}), DROP],
     ["in deny ipv4 127.0.0.0/8 any"]),
]

# Those without an equal form, and why.
EXPRESSIONS_LEFT = [
    ("not a protocol", [match("meta l4proto", "tcp", "!="), DROP],
     "`!=` has no equal form; a rule before it that decides on the others stands for it"),
    ("not a protocol of IPv4", [match("ip protocol", "tcp", "!="), DROP],
     "`!=` has no equal form; a rule before it that decides on the others stands for it"),
    ("elements with a limit", [match("ip saddr", {"set": [{"elem": {"val": "10.0.0.1", "limit": {"rate": 5, "per": "second"}}}]}), DROP],
     "an element has `limit` of its own, which has no equal form"),
    ("several states at once", [match("ct state", {"|": ["established", "related"]}, "!="), DROP],
     "several states at once are never so; nft writes `ct state a,b` or `ct state ! a,b` for one of them"),
    ("several devices", [match("meta iifname", {"set": ["eth0", "eth1"]}), DROP],
     "the device eth0, eth1 has no form; --device names that of the capture"),
    ("the first header", [match("ip6 nexthdr", "tcp"), DROP], "`ip6 nexthdr` looks at the first header alone; `meta l4proto` has a form"),
    ("ports of no protocol", [match("th dport", 53), DROP], "`th` without `meta l4proto` has no equal form"),
    ("a limit", [{"limit": {"rate": 5, "per": "second"}}, DROP], "`limit` has no equal form"),
    ("a mark", [match("meta mark", 5), DROP], '`{"meta":{"key":"mark"}}` has no equal form'),
    ("what is invalid of a protocol", [match("meta l4proto", "tcp"), match("ct state", "invalid", "in"), DROP],
     "drops of state invalid alone have no equal form"),
    ("no set of that name", [match("ip saddr", "@none"), DROP], "there is no set @none"),
    ("a name of a port", [match("tcp dport", "ssh"), DROP], "`ssh` is no number that is known here"),
    ("NAT", [match("tcp dport", 80), {"redirect": {"port": 8080}}], "`redirect` has no equal form"),
    ("an expression of iptables", [{"xt": None}, DROP], "`xt` has no equal form"),
    ("no chain of that name", [{"jump": {"target": "none"}}], '`{"jump":{"target":"none"}}` has no equal form'),
    ("a match of no form", [{"match": {"op": "==", "left": 5}}, DROP], '`{"match":{"op":"==","left":5}}` is of no known form'),
]


def of_flows(*states, op="in"):
    return match("ct state", list(states), op)


def table_with(flags, text):
    return text.replace('"name": "t"}', f'"name": "t", "flags": {json.dumps(flags)}' + "}", 1)


# Whole listings of nft: name, text, further words, the policy's rules, what is told, and the status.
NFT_RULESETS = [
    ("ICMP dropped, and flows accepted", listing([match("meta l4proto", "icmp"), DROP], [of_flows("established"), ACCEPT]), [],
     ["in deny ipv4 any any icmp", "in deny ipv6 any any 1", "out permit ipv4 any any icmp type 8", "out permit+reflect ipv4 any any",
      "out permit ipv6 any any 1", "out permit+reflect ipv6 any any"], [f"warning: {SESSIONS}"]),
    ("no other states, behind a policy that accepts", listing([match("ct state", "established", "!="), DROP], policy="accept", family="ip"), [],
     ["in deny ipv4 any any", "in permit ipv6 any any", "out permit+reflect ipv4 any any", "out permit ipv6 any any"],
     [f"warning: {SESSIONS}"]),
    ("a dormant table", table_with("dormant", listing([match("tcp dport", 22), DROP], family="ip")), [],
     [*both("in permit ipv4 any any"), *both("out permit ipv4 any any")],
     ["note: it is dormant: its chains see no packets", "note: what is captured doesn't come to it"]),
    ("a table with a flag of no name", table_with("t", listing([DROP], family="ip")), [], [],
     ["left out, which may drop: it has a flag whose name isn't written; where that is dormant, its chains see no packets",
      "note: what is captured doesn't come to it", UNWRITTEN], 5),
    ("a table with an owner", table_with(["owner", "persist"], listing([match("tcp dport", 22), DROP], family="ip", policy="accept")), [],
     ["in deny ipv4 any any tcp dport 22", "in permit ipv4 any any", "in permit ipv6 any any", *both("out permit ipv4 any any")], []),
    ("one of several devices", listing([match("meta iifname", {"set": ["eth0", "eth*"]}), DROP], policy="accept", family="ip"), ["--device", "eth7"],
     ["in deny ipv4 any any", "in permit ipv6 any any", *both("out permit ipv4 any any")], []),
    ("none of several devices", listing([match("meta iifname", {"set": ["lo", "eth0"]}, "!="), DROP], family="ip", policy="accept"), ["--device", "eth0"],
     ["in permit ipv4 any any", "in permit ipv6 any any", *both("out permit ipv4 any any")], ["note: it is of another device than the capture"]),
    ("a hook before", listing([match("ip saddr", "10.0.0.1"), DROP], family="ip", hook="prerouting", policy="accept"), [],
     ["in deny ipv4 10.0.0.1 any", "in permit ipv4 any any", "in permit ipv6 any any", *both("out permit ipv4 any any")], []),
    ("states before conntrack", listing([of_flows("invalid"), DROP], family="ip", hook="prerouting", policy="accept").replace('"prio": 0', '"prio": -300'),
     ["--partial"], [*both("in permit ipv4 any any"), *both("out permit ipv4 any any")],
     ["left out, which may drop: conntrack comes behind chains of this priority", LEFT], 5),
    ("a hook that drops nothing", listing([match("ip saddr", "10.0.0.1"), ACCEPT], family="ip", hook="postrouting", policy="accept"), [],
     [*both("in permit ipv4 any any"), *both("out permit ipv4 any any")], ["note: it drops no packet"]),
    ("changed addresses", listing([match("tcp dport", 80), {"redirect": {"port": 8080}}], family="ip", hook="prerouting", policy="accept").replace('"filter"', '"nat"'),
     [], [*both("in permit ipv4 any any"), *both("out permit ipv4 any any")], [f"warning: {TRANSLATED}", "note: it drops no packet"]),
    ("what comes from no route", listing(
        [{"match": {"op": "==", "left": {"fib": {"result": "oif", "flags": ["saddr", "mark", "iif"]}}, "right": False}}, DROP], family="ip", policy="accept"), [],
     ["in permit ipv4 any any", "in permit ipv6 any any", *both("out permit ipv4 any any")],
     ["warning: what comes from where no route leads back passes, too"]),
    ("types of addresses", listing(
        [{"match": {"op": "==", "left": {"fib": {"result": "type", "flags": ["daddr"]}}, "right": {"set": ["local", "multicast"]}}}, ACCEPT]),
     ["--address", "192.0.2.10/24", "--address", "2001:db8::10/64"],
     ["in permit ipv4 any 192.0.2.10", "in permit ipv4 any 224.0.0.0/4", "in permit ipv6 any 2001:db8::10", "in permit ipv6 any ff00::/8",
      *both("out permit ipv4 any any")], []),
]


def imported(words, data=b""):
    ran = subprocess.run([sys.executable, IMPORT, *words], input=data if isinstance(data, bytes) else data.encode(), stdout=subprocess.PIPE,
                         stderr=subprocess.PIPE, timeout=SECONDS)
    return {"stdout": ran.stdout.decode(), "stderr": ran.stderr.decode(), "status": ran.returncode}


def rules_of(policy):
    """The rules of a policy, without comments."""
    lines = (it.partition("#")[0].strip() for it in policy.splitlines())
    return [it for it in lines if it and not it.startswith("mac ")]


def told_of(got):
    """What is told of lines: the kind and the reason, and nothing of what each ruleset has."""
    lines = [it.partition("racl-import: -: ")[2] for it in got["stderr"].splitlines()]
    kinds = ("left out, which may drop: ", "left out: ", "warning: ", "note: ")
    cut = [next((kind + it.split(kind, 1)[1] for kind in kinds if kind in it), it) for it in lines]
    return [it for it in cut if it not in (*FAMILIES, FRAGMENTS)]


class Imports(Case):
    def is_policy(self, policy):
        got = self.program.run(["check", "-"], policy.encode())
        self.compare(got, {"stderr": b"", "status": 0}, "check")

    def imports(self, words, text, rules, told, status=0):
        got = imported([*words, "--mac", MAC], text)
        self.compare({"rules": rules_of(got["stdout"]), "told": told_of(got), "status": got["status"]},
                     {"rules": rules, "told": told, "status": status})
        if got["stdout"]:
            self.is_policy(got["stdout"])

    @each((f"line {line}", line, rules) for line, rules in LINES)
    def lines(self, line, rules):
        self.imports(["iptables-save"], iptables(line), rules, [])

    @each((f"left out {line}", line, why) for line, why in ACCEPTS)
    def accepts_without_a_form(self, line, why):
        self.imports(["iptables-save"], iptables(line), [], [f"left out: {why}"])

    @each((f"left out {line}", line, why) for line, why in DROPS)
    def drops_without_a_form(self, line, why):
        """Nothing is written, unless that is asked for; then the rules behind are there, and a comment in place of the line."""
        chains = [f"-A {chain} -s 10.0.0.9/32 -j {target}" for chain, target in (("BAD", "DROP"), ("GOOD", "ACCEPT"))]
        text = iptables(line, "-A INPUT -p udp -j ACCEPT", *chains, chains=("BAD", "GOOD"))
        unreached = (1 if "BAD" in line or "GOOD" in line else 2) * ["note: what is captured doesn't come to it"]
        told = [*unreached, f"left out, which may drop: {why}"]
        self.imports(["iptables-save"], text, [], [*told, UNWRITTEN], 5)
        self.imports(["iptables-save", "--partial"], text, ["in permit ipv4 any any udp"], [*told, LEFT], 5)
        got = imported(["iptables-save", "--partial"], text)["stdout"]
        self.compare({"comment": f"# line 7: {line}: left out, which may drop: {why}" in got.splitlines()}, {"comment": True})

    @each(RULESETS)
    def rulesets(self, text, words, rules, told, status=0):
        self.imports(["iptables-save", *words], text, rules, told, status)

    @each(EXPRESSIONS)
    def expressions(self, expression, rules):
        text = listing(expression, more=(CHAIN, IN_CHAIN, BLOCKED, VERDICTS))
        is_called = any(it in json.dumps(expression) for it in ("jump", "@m"))
        unreached = [] if is_called else ["note: what is captured doesn't come to it"]
        self.imports(["nft"], text, [*rules, *both("out permit ipv4 any any")], unreached)

    @each(EXPRESSIONS_LEFT)
    def expressions_without_a_form(self, expression, why):
        self.imports(["nft"], listing(expression), [], [f"left out, which may drop: {why}", UNWRITTEN], 5)

    @each((f"{hook} {kind}", hook, kind, told, status) for hook, kind, told, status in (
        ("forward", "filter", "warning: a forwarded packet has no form: it is judged as if it were this host's", 0),
        ("prerouting", "nat", "left out, which may drop: a drop has no form in a chain of type nat at the hook prerouting", 5)))
    def other_hooks(self, hook, kind, told, status):
        text = listing([match("tcp dport", 80), DROP], family="ip", hook=hook, policy="accept").replace('"filter"', f'"{kind}"')
        got = imported(["nft", "--partial"], text)
        self.compare({"told": told_of(got)[:1], "rules": rules_of(got["stdout"]), "status": got["status"]},
                     {"told": [told], "rules": [*both("in permit ipv4 any any"), *both("out permit ipv4 any any")], "status": status})

    @each(NFT_RULESETS)
    def nft_rulesets(self, text, words, rules, told, status=0):
        self.imports(["nft", *words], text, rules, told, status)

    def test_flags_outside_their_mask(self):
        """Such a rule of VPP matches later fragments alone, as the policy's does."""
        text = "acl-index 0 count 2 tag {}\n" + "".join(
            f"  {at}: ipv4 {action} src 0.0.0.0/0 dst 0.0.0.0/0 proto 6 sport 0-65535 dport 0-65535 tcpflags 3 mask {mask}\n"
            for at, (action, mask) in enumerate((("deny", 2), ("permit", 0))))
        self.imports(["vpp", "--in", "0"], text, ["in deny ipv4 any any tcp flags 03/02", "in permit ipv4 any any tcp flags 03/00",
                                                  *both("out permit ipv4 any any")], [])

    def test_two_chains(self):
        """A packet passes both chains of a hook: what the first accepts is judged by the second."""
        first = json.loads(listing([match("tcp dport", 22), ACCEPT]))["nftables"]
        second = listing([match("ip saddr", "10.0.0.1"), DROP], family="ip", policy="accept").replace('"prio": 0', '"prio": 5')
        text = json.dumps({"nftables": first + json.loads(second)["nftables"][1:]})
        guards = [f"in deny {it} any any {TCP}" for it in ("ipv4", "ipv6")]
        self.imports(["nft"], text, ["in deny ipv4 10.0.0.1 any tcp dport 22", guards[0], "in permit ipv4 any any tcp dport 22", guards[1],
                                     "in permit ipv6 any any tcp dport 22", *both("out permit ipv4 any any")], [])

    @each(WRONG)
    def wrong(self, words, text, told):
        self.compare(imported(words, text), {"stdout": "", "stderr": f"racl-import: -: {told}\n", "status": 1})

    @each((" ".join(it) or "none", it) for it in (
        [], ["pf"], ["vpp"], ["nft", "--in", "0"], ["vpp", "--in", "x"], ["nft", "--mac", "02"], ["nft", "--interface", "256"], ["nft", "a", "b"]))
    def wrong_words(self, words):
        self.compare(imported(words), {"stdout": "", "status": 2})

    def test_files(self):
        name = os.path.join(self.folder, "none")
        self.compare(imported(["nft", name]), {"stdout": "", "stderr": f"racl-import: {name}: No such file or directory\n", "status": 4}, "no file")
        with open("/dev/full", "wb") as full:
            ran = subprocess.run([sys.executable, IMPORT, "iptables-save"], input=iptables().encode(), stdout=full, stderr=subprocess.PIPE)
        self.compare({"told": ran.stderr.decode().splitlines()[-1], "status": ran.returncode},
                     {"told": "racl-import: standard output: No space left on device", "status": 4}, "a full device")

    def test_section(self):
        got = imported(["iptables-save", "--interface", "7", "--mac", MAC], iptables("-A INPUT -j ACCEPT"))
        lines = [it for it in got["stdout"].splitlines() if not it.startswith("#")]
        self.compare({"lines": lines}, {"lines": ["interface 7", f"mac {MAC}", "in permit ipv4 any any # line 5"]})

    def test_hostile_text(self):
        """A comment of others stays a comment."""
        text = iptables('-A INPUT -s 10.0.0.1/32 -m comment --comment "\x1b[31m \r in permit ipv4 any any # ü" -j ACCEPT')
        got = imported(["iptables-save"], text)
        self.compare({"lines": [it for it in got["stdout"].splitlines() if not it.startswith("#")]},
                     {"lines": ["in permit ipv4 10.0.0.1 any # line 5: \\x1b[31m \\x0d in permit ipv4 any any # \\xc3\\xbc"]})

    @each((f"{name}{ending}", f"{TOP}/{folder}/{name}{ending}", f"{TOP}/tests/imports/{name}.policy", FORMS[ending])
          for folder in ("examples", "tests/imports") for ending in FORMS for name in names_in(folder, ending))
    def stored(self, path, policy, words):
        """A sample, whose policy in tests/imports/ was written, or read rule by rule, from what its lines mean; tests/import_kernel compares
        it with the kernel."""
        got = imported([*words, "--mac", MAC, path])
        want = [it for it in bytes_of_file(policy).decode().splitlines() if it and not it.startswith("#")]
        lines = [it.partition(" # ")[0].rstrip() for it in got["stdout"].splitlines() if not it.startswith("#")]
        self.compare({"lines": lines, "status": got["status"]}, {"lines": [it.partition("#")[0].rstrip() for it in want], "status": 0})
        self.is_policy(got["stdout"])
