"""The command line of racl-import."""
import argparse
import re
import sys

from . import iptables_save, nft, vpp
from .address_types import own_networks
from .policy import policy_of
from .rules import Wrong

FORMS = ("iptables-save", "nft", "vpp")


def words(description):
    parser = argparse.ArgumentParser(prog="racl-import", description=description, add_help=True,
                                     formatter_class=argparse.RawDescriptionHelpFormatter)
    parser.add_argument("form", metavar="FORM", choices=FORMS, help="iptables-save (and ip6tables-save), nft or vpp")
    parser.add_argument("file", metavar="FILE", nargs="?", default="-", help="the rules; - is standard input")
    parser.add_argument("--mac", metavar="ADDRESS", help="the own address of the interface where captures are taken")
    parser.add_argument("--interface", metavar="N", type=int, default=0, help="the section of this interface, 1 to 255")
    parser.add_argument("--device", metavar="NAME", help="the device that captures are of, where rules name devices")
    parser.add_argument("--address", metavar="ADDRESS/BITS", action="append", default=[],
                        help="an address of the host and its network, where rules ask for types of addresses")
    parser.add_argument("--ipv6", action="store_true", help="the rules are of ip6tables-save [default: as their addresses]")
    parser.add_argument("--in", metavar="INDEX", type=int, action="append", default=[], dest="inward", help="an ACL of VPP, bound as input")
    parser.add_argument("--out", metavar="INDEX", type=int, action="append", default=[], dest="outward", help="an ACL of VPP, bound as output")
    parser.add_argument("--partial", action="store_true", help="write the policy, though lines that may drop are left out")
    given = parser.parse_intermixed_args()
    if given.mac and not re.fullmatch(r"[0-9a-fA-F]{2}(:[0-9a-fA-F]{2}){5}", given.mac):
        parser.error("--mac takes an Ethernet address, as 02:00:00:00:00:01")
    if not 0 <= given.interface <= 255:
        parser.error("--interface takes 0 to 255")
    if (given.form == "vpp") != bool(given.inward or given.outward):
        parser.error("--in INDEX and --out INDEX name the ACLs of vpp, of which one is wanted, and of no other form")
    try:
        given.address = own_networks(given.address)
    except ValueError as why:
        parser.error(f"--address takes an address, as 192.0.2.10/24: {why}")
    return given


def rules_of(text, given):
    if given.form == "iptables-save":
        return iptables_save.read(text, given.ipv6, given.address)
    if given.form == "nft":
        return nft.read(text, given.address)
    return vpp.read(text, {"in": given.inward, "out": given.outward})


def run(given):
    """The policy's text and what is told, and the status."""
    with open(0 if given.file == "-" else given.file, "rb", closefd=given.file != "-") as file:
        text = file.read().decode("utf-8", "surrogateescape")
    writing = policy_of(rules_of(text, given), given.file, given.mac, given.interface, given.device)
    is_written = given.partial or not writing.is_lost
    told = list(writing.told)
    if writing.is_lost:
        told.append("a line that may drop is left out, so the policy may pass more than these rules do" +
                    ("" if is_written else ": nothing is written without --partial"))
    return "\n".join(writing.lines) + "\n" if is_written else "", told, 5 if writing.is_lost else 0


def main(description):
    given = words(description)
    name, shown_name = given.file, ascii(given.file)[1:-1]
    try:
        policy, told, status = run(given)
        for it in told:
            print(f"racl-import: {shown_name}: {it}", file=sys.stderr)
        name = "standard output"
        sys.stdout.write(policy)
        sys.stdout.flush()
    except (Wrong, RecursionError) as fault:
        print(f"racl-import: {shown_name}: {fault if isinstance(fault, Wrong) else 'chains call chains too deep'}", file=sys.stderr)
        status = 1
    except OSError as fault:
        print(f"racl-import: {ascii(name)[1:-1]}: {fault.strerror}", file=sys.stderr)
        sys.stderr.flush()
        status = 4
    sys.exit(status)
