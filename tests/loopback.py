"""Gives tests a loopback interface, over which their programs talk to each other. In a sandbox without a network there
is none that is up: there such a test continues in a new network.

    tests/loopback.py TEST [WORD..] sets up the interface of the network that it runs in, and then runs that test."""

import fcntl
import os
import shutil
import socket
import struct
import subprocess
import sys

# Ways to run a command in a new network: as root, and as any user.
ALONE = ["unshare", "--net"], ["unshare", "--map-root-user", "--net"]
# From Linux's <net/if.h> and <linux/sockios.h>: the flag of an interface that is up, and the request that sets flags.
IFF_UP, SIOCSIFFLAGS = 1, 0x8914


def is_up():
    """Returns whether a listener on 127.0.0.1 can be reached."""
    try:
        with socket.create_server(("127.0.0.1", 0)) as server, socket.create_connection(server.getsockname(), 5):
            return True
    except OSError:
        return False


def is_had():
    """Returns whether there is a loopback interface. If there is none, and a new network is possible, this test starts
    again in one."""
    if is_up():
        return True
    for alone in ALONE if shutil.which("unshare") else []:
        words = [*alone, sys.executable, os.path.abspath(__file__)]
        if subprocess.run([*words, __file__], capture_output=True, check=False).returncode == 0:
            os.execvp(words[0], [*words, *sys.argv])
    return False


def main(words):
    with socket.socket(socket.AF_INET, socket.SOCK_DGRAM) as any_socket:
        fcntl.ioctl(any_socket, SIOCSIFFLAGS, struct.pack("16sh14x", b"lo", IFF_UP))
    # Called on itself, it reports whether that sets up the interface.
    if os.path.samefile(words[0], __file__):
        return int(not is_up())
    os.execv(sys.executable, [sys.executable, *words])


if __name__ == "__main__":
    sys.exit(main(sys.argv[1:]))
