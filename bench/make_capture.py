#!/usr/bin/env python3
"""Writes a capture of one million equal frames: `make_capture.py udp|ipv6 > capture.pcap`."""
import struct
import sys

HEADER = bytes.fromhex("d4c3b2a1 02000400 00000000 00000000 00000400 01000000")
FRAMES = {
    "udp": bytes.fromhex(
        "020000000002 020000000001 0800"
        "4500001c 00000000 40110000 0a000001 0a000002"
        "03e8 0035 0008 0000"
    ),
    "ipv6": bytes.fromhex(
        "020000000002 020000000001 86dd"
        "60000000 0020 00 40"
        "20010db8000000000000000000000001 20010db8000000000000000000000002"
        "2c00010400000000 1100000100000001"
        "03e8003500180000 0000000000000000"
    ),
}

frame = FRAMES[sys.argv[1]]
record = struct.pack("<IIII", 100, 0, len(frame), len(frame)) + frame
sys.stdout.buffer.write(HEADER + record * 1_000_000)
