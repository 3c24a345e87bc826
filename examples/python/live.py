"""A test bench beside `racl --live`: it hands over one frame at a time and reads the verdict on it, by two pipes."""
import struct
import subprocess


def judged(policy, packets, program="racl"):
    """The verdict on each of these packets, a second and a frame, before the next one is asked for."""
    pipes = {"stdin": subprocess.PIPE, "stdout": subprocess.PIPE}
    with subprocess.Popen([program, "--live", policy, "-"], **pipes) as racl:
        racl.stdin.write(struct.pack("<IHHIIII", 0xA1B2C3D4, 2, 4, 0, 0, 65535, 1))
        for second, frame in packets:
            racl.stdin.write(struct.pack("<IIII", second, 0, len(frame), len(frame)) + frame)
            racl.stdin.flush()
            yield racl.stdout.readline().decode().split(" ", 1)[1].rstrip()
        racl.stdin.close()
