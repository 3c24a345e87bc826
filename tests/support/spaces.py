"""Three network namespaces with a bridge's place between two hosts, and what is run and captured in them; this needs root.

    inside [i0] ---- [b0] between [b1] ---- [o0] outside
"""
import ctypes
import os
import shutil
import signal
import socket
import struct
import subprocess
import time

SPACES = ("inside", "between", "outside")
# Each device's namespace, the device at the wire's other end, and its address.
WIRES = (("inside", "i0", "b0"), ("outside", "o0", "b1"))
HARDWARE = {"i0": "02:00:00:00:00:01", "o0": "02:00:00:00:00:02"}
ADDRESSES = {"i0": ("10.9.0.1", "fd09::1"), "o0": ("10.9.0.2", "fd09::2")}
OFFLOADS = ("tx", "sg", "tso", "gso", "gro")
NEW_NET = 0x40000000
SECONDS = 10
LIBC = ctypes.CDLL(None, use_errno=True)


def needed(*commands):
    """Why there can be no namespaces here, or nothing."""
    missing = [it for it in ("ip", "ethtool", *commands) if not shutil.which(it)]
    if missing:
        return f"this needs the commands {', '.join(missing)}"
    return "" if os.geteuid() == 0 else "this needs root, for namespaces and raw sockets"


def call(*words, **more):
    subprocess.run(words, check=True, **more)


def until(holds, what):
    """Waits until something holds."""
    end = time.monotonic() + SECONDS
    while not holds():
        if time.monotonic() > end:
            raise TimeoutError(what)
        time.sleep(0.02)


class Spaces:
    """The namespaces, which are there within `with`, with names of their own."""

    def __init__(self):
        self.names = {it: f"racl-{it}-{os.getpid()}" for it in SPACES}
        self.started = []

    def __enter__(self):
        try:
            self.make()
        except BaseException:
            self.__exit__()
            raise
        return self

    def make(self):
        for name in self.names.values():
            call("ip", "netns", "add", name)
        self.call("between", "sysctl", "-qw", "net.ipv6.conf.all.disable_ipv6=1", "net.ipv6.conf.default.disable_ipv6=1")
        for wire in WIRES:
            self.wire(*wire)

    def wire(self, space, device, other):
        """Makes a wire and its devices, which are up then."""
        between = self.names["between"]
        self.call(space, "sysctl", "-qw", "net.ipv6.conf.default.accept_ra=0", "net.ipv6.conf.default.router_solicitations=0",
                  "net.ipv4.ping_group_range=0 0")
        call("ip", "link", "add", device, "netns", self.names[space], "type", "veth", "peer", "name", other, "netns", between)
        call("ip", "-n", self.names[space], "link", "set", device, "address", HARDWARE[device])
        for it in ADDRESSES[device]:
            bits = ["64", "nodad"] if ":" in it else ["24"]
            call("ip", "-n", self.names[space], "addr", "add", f"{it}/{bits[0]}", "dev", device, *bits[1:])
        for at, it in ((space, device), (space, "lo"), ("between", other)):
            call("ip", "-n", self.names[at], "link", "set", it, "up")

    def __exit__(self, *_):
        for it in self.started:
            if it.poll() is None:
                it.kill()
                it.wait()
        for name in self.names.values():
            subprocess.run(["ip", "netns", "del", name])

    def words(self, space, words):
        return ["ip", "netns", "exec", self.names[space], *words]

    def call(self, space, *words, **more):
        call(*self.words(space, words), **more)

    def start(self, space, words, **more):
        """A process there. (`ip` becomes the command, so that signals come to it.)"""
        it = subprocess.Popen(self.words(space, words), **more)
        self.started.append(it)
        return it

    def offload(self, is_on):
        """Whether devices leave checksums and cuts to be made later."""
        for space, device, other in WIRES:
            for at, it in ((space, device), ("between", other)):
                words = [word for name in OFFLOADS for word in (name, "on" if is_on else "off")]
                self.call(at, "ethtool", "-K", it, *words, stdout=subprocess.DEVNULL)

    def socket(self, space, *kind):
        """A socket that is of a namespace, whoever uses it."""
        with open("/proc/self/ns/net") as own, open(f"/run/netns/{self.names[space]}") as there:
            if LIBC.setns(there.fileno(), NEW_NET):
                raise OSError(ctypes.get_errno(), "setns")
            try:
                return socket.socket(*kind)
            finally:
                LIBC.setns(own.fileno(), NEW_NET)

    def raw(self, space, device):
        """A socket that sends frames as they are."""
        it = self.socket(space, socket.AF_PACKET, socket.SOCK_RAW)
        it.bind((device, 0))
        return it

    def received(self, space, device, what="packets"):
        """How many packets came in at a device, or bytes."""
        path = f"/sys/class/net/{device}/statistics/rx_{what}"
        return int(subprocess.run(self.words(space, ["cat", path]), check=True, capture_output=True, text=True).stdout)

    def is_quiet(self):
        """Whether nothing came at the bridge's devices for a second."""
        before = [self.received("between", it) for it in ("b0", "b1")]
        time.sleep(1)
        return before == [self.received("between", it) for it in ("b0", "b1")]


class Capture:
    """What comes in at a device, as tcpdump captures it until it is asked for."""

    def __init__(self, spaces, space, device, folder):
        self.path = f"{folder}/{device}.pcap"
        words = ["tcpdump", "-i", device, "-Q", "in", "-Z", "root", "-B", "65536", "-s", "0", "-w", self.path, "--time-stamp-precision=nano"]
        self.process = spaces.start(space, words, stderr=subprocess.PIPE, text=True)
        while "listening" not in (line := self.process.stderr.readline()):
            if not line:
                raise RuntimeError("tcpdump doesn't capture")

    def frames(self):
        """Moments and frames. What tcpdump had no room for is told as a fault."""
        self.process.send_signal(signal.SIGINT)
        said = self.process.stderr.read()
        self.process.wait()
        if "\n0 packets dropped by kernel" not in said:
            raise RuntimeError(f"tcpdump lost frames: {said}")
        with open(self.path, "rb") as file:
            return list(records(file.read()))


def records(content):
    """The moments, in nanoseconds, and the frames of a capture of nanoseconds."""
    at = 24
    while at < len(content):
        second, part, kept, _ = struct.unpack_from("<IIII", content, at)
        yield second * 1_000_000_000 + part, content[at + 16:at + 16 + kept]
        at += 16 + kept


def capture_of(records):
    """A capture with these moments and frames."""
    parts = [struct.pack("<IHHIIII", 0xA1B23C4D, 2, 4, 0, 0, 262144, 1)]
    for moment, frame in records:
        parts += [struct.pack("<IIII", *divmod(moment, 1_000_000_000), len(frame), len(frame)), frame]
    return b"".join(parts)
