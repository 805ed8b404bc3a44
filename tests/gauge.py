"""The most memory that a program has, looked at while it runs. What the system tells of a program that has ended counts the
copy of the Python that began it as well, which is some 14 MiB."""
import contextlib
import re
import threading


def most_memory(pid, name):
    """The most memory that a process which runs has had, in KiB; 0 while it is not yet the program of that name."""
    with contextlib.suppress(OSError):
        with open(f"/proc/{pid}/status", encoding="ascii", errors="replace") as file:
            told = file.read()
        found = re.search(r"^Name:\s+(\S+)[\s\S]*^VmHWM:\s+(\d+)", told, re.MULTILINE)
        return int(found[2]) if found and found[1] == name else 0
    return 0


class Gauge:
    """Looks at a process every two milliseconds until the block is left; `most` is in KiB."""

    def __init__(self, process, name):
        self.pid, self.name, self.most, self.over = process.pid, name, 0, threading.Event()
        self.thread = threading.Thread(target=self.look)

    def look(self):
        while not self.over.wait(0.002):
            self.most = max(self.most, most_memory(self.pid, self.name))

    def __enter__(self):
        self.thread.start()
        return self

    def __exit__(self, *_):
        self.over.set()
        self.thread.join()
