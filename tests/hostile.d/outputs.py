"""Outputs that fail after each byte, that are full, or whose reader goes; page files that change as they are used."""
import os
import resource
import signal
import subprocess
import tempfile

from world import OUTPUT, Daemon, ending, is_whole, netpbm, page, scan, start
from worked import DOT, WINDOW

FLATBED = f"flatbed 0 26 {page('P5 1 1 255', bytes([10]))}\n"
LOCAL = ["--config", "-", *WINDOW]

# A picture of many rows, larger than what is gathered before it is written.
LARGE = ["--config", "-", "--resolution", "300", "--br-x", "60", "--br-y", "60"]


def limited(size):
    """Before a program starts: files end after so many bytes, and it is told so by its writes."""
    signal.signal(signal.SIGXFSZ, signal.SIG_IGN)
    resource.setrlimit(resource.RLIMIT_FSIZE, (size, size))


def kept(path):
    if not os.path.exists(path):
        return None
    with open(path, "rb") as file:
        return file.read()


def judge(tally, fault, ended, got, whole):
    """Done with the whole file, or an output that failed with a front that is none."""
    if ended.status == 0:
        tally.saw(fault, "Done, the file whole", got == whole and ended.err == b"")
    else:
        is_right = (ended.status, ended.err) == (9, OUTPUT) and (got is None or (whole.startswith(got) and got != whole))
        tally.saw(fault, "IO_ERROR (output), 9, a front of the file at most" if is_right else ended.what(), is_right)


def after_bytes(tally, scale):
    """A file that takes so many bytes and no more, here and over the net."""
    whole = scan(LARGE, FLATBED.encode()).out
    sizes = range(0, len(DOT) + 2), sorted({*range(0, len(whole) + 1, scale["bytes"]), len(whole) - 1, len(whole)})
    with tempfile.TemporaryDirectory() as folder, Daemon(FLATBED) as daemon:
        net = ["-d", "net:localhost:flatbed:0", "--port", str(daemon.port)]
        for words, picture, some in ((LOCAL, DOT, sizes[0]), (LARGE, whole, sizes[1])):
            for size in some:
                for place in (words, [*net, *words[2:]]):
                    path = f"{folder}/picture"
                    ended = scan([*place, "-o", path], FLATBED.encode(), preexec_fn=lambda size=size: limited(size))
                    judge(tally, "a file that takes so many bytes and no more", ended, kept(path), picture)
                    if os.path.exists(path):
                        os.remove(path)


def full_disk(tally, scale):
    """A disk of 64 KiB, where one can be mounted, and the device that is always full."""
    for words, whole in ((LOCAL, DOT), (LARGE, None)):
        for more in (["-o", "/dev/full"], []):
            with open("/dev/full", "wb") as full:
                ended = scan([*words, *more], FLATBED.encode(), stdout=full)
            tally.saw("a full disk", ended.what(), (ended.status, ended.err) == (9, OUTPUT), str(words))
    with tempfile.TemporaryDirectory() as folder:
        try:
            subprocess.run(["mount", "-t", "tmpfs", "-o", "size=64k", "none", folder], check=True, capture_output=True)
        except (OSError, subprocess.CalledProcessError):
            print("hostile: no disk can be mounted here, so the device that is always full is the only full one")
            return
        try:
            whole = scan(LARGE, FLATBED.encode()).out
            ended = scan([*LARGE, "-o", f"{folder}/picture"], FLATBED.encode())
            judge(tally, "a full disk", ended, kept(f"{folder}/picture"), whole)
            ended = scan([*LOCAL[:2], "-b", "--batch-count", "9", *LARGE[2:]], FLATBED.encode(), cwd=folder)
            files = [kept(f"{folder}/{it}") for it in sorted(os.listdir(folder)) if it.startswith("out")]
            is_right = (ended.status, ended.err) == (9, OUTPUT) and all(it == whole for it in files[:-1]) and not is_whole(files[-1])
            tally.saw("a full disk", "a batch: IO_ERROR (output), 9, the last file no whole one" if is_right else ended.what(), is_right)
        finally:
            subprocess.run(["umount", folder], check=True)


def readers_gone(tally, scale):
    """A pipe whose reader goes away after so many bytes."""
    fault = "a pipe whose reader goes away"
    whole = scan(LARGE, FLATBED.encode()).out
    for size in range(0, 400_000, scale["bytes"] * 2):
        process = start(LARGE, stdin=subprocess.PIPE)
        process.stdin.write(FLATBED.encode())
        process.stdin.close()
        process.stdin = None
        got = process.stdout.read(size) if size else b""
        process.stdout.close()
        process.stdout = None
        ended = ending(process)
        is_right = (ended.status, ended.err) == (9, OUTPUT) and whole.startswith(got)
        tally.saw(fault, ended.what(), is_right, str(size))


def slow_reader(tally, scale):
    """A pipe whose reader takes a byte at a time."""
    process = start(LOCAL, stdin=subprocess.PIPE, bufsize=0)
    process.stdin.write(FLATBED.encode())
    process.stdin.close()
    process.stdin = None
    got = b""
    while True:
        piece = process.stdout.read(1)
        if not piece:
            break
        got += piece
    tally.saw("a reader that takes a byte at a time", "its picture", ending(process).status == 0 and got == DOT)


def outputs(tally, scale):
    for each in (after_bytes, full_disk, readers_gone, slow_reader):
        each(tally, scale)
