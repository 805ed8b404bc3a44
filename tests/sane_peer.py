"""SANE's own programs, for what runs beside them: where they are, and a network in which port 6566 is free for their client."""
import fcntl
import os
import shutil
import socket
import struct
import subprocess
import sys

# Where SANE's programs are, beside the PATH.
PLACES = ("/usr/bin", "/usr/sbin", "/usr/local/bin", "/usr/local/sbin")
# The port that SANE's client asks at, and what says that a network of its own is there.
PORT, INSIDE, LIMIT = 6566, "JUFTEARD_OWN_NETWORK", 60
IS_UP = 0x1 | 0x40


def theirs(name, word, sign):
    """SANE's program of that name, which says of itself what ours does not; none where it is not installed."""
    for place in [*os.environ.get("PATH", "").split(":"), *PLACES]:
        path = f"{place}/{name}"
        if os.access(path, os.X_OK):
            told = subprocess.run([path, word], capture_output=True, text=True, errors="replace", timeout=LIMIT, check=False)
            if sign in told.stdout + told.stderr:
                return path
    return None


def sane_programs():
    """SANE's scanimage and saned; none where one of them is not installed."""
    scanimage, saned = theirs("scanimage", "--version", "sane-backends"), theirs("saned", "--help", "--alone")
    return (scanimage, saned) if scanimage and saned else None


def can_be_others():
    """Whether this process can run programs as another user: it is root, and not by a map of its own user alone."""
    with open("/proc/self/uid_map", encoding="ascii") as file:
        return os.geteuid() == 0 and sum(int(line.split()[2]) for line in file) > 65534


def enter_own_network():
    """Begins again in a network of its own, so that the port is free in it; where the system grants none it stays here."""
    if os.environ.get(INSIDE):
        with socket.socket(socket.AF_INET, socket.SOCK_DGRAM) as one:
            fcntl.ioctl(one, 0x8914, struct.pack("16sh22x", b"lo", IS_UP))
        return
    words = ["unshare", "--net", *([] if os.geteuid() == 0 else ["--map-root-user"])]
    if shutil.which("unshare") and not subprocess.run([*words, "true"], capture_output=True, check=False).returncode:
        os.execvpe("unshare", [*words, sys.executable, os.path.abspath(sys.argv[0]), *sys.argv[1:]], {**os.environ, INSIDE: "yes"})
