"""Our scanimage on SANE's own saned, with its backends `test` and `pnm`, for tests/sane-check: each trial tells what came, and
whether it came as docs/INTERWORKING.md has it. A file is compared byte for byte with that of SANE's own scanimage, which asks the
same backend on this machine without any daemon; what that one writes otherwise is told in the trial. Nothing may hang."""
import contextlib
import os
import re
import select
import signal
import socket
import struct
import subprocess
import threading

THEIR_PORT, PATIENCE, IN_TIME = 16566, 5, 30
PICTURES = ("Solid white", "Color pattern", "Grid")
SHAPES = [("Gray", "1"), ("Gray", "8"), ("Gray", "16"), ("Color", "8"), ("Color", "16")]
ORDERS = ("RGB", "RBG", "GBR", "GRB", "BRG", "BGR")
STATUSES = {
    "UNSUPPORTED": 1, "CANCELLED": 2, "DEVICE_BUSY": 3, "INVAL": 4, "JAMMED": 6, "NO_DOCS": 7, "COVER_OPEN": 8, "IO_ERROR": 9,
    "NO_MEM": 10, "ACCESS_DENIED": 11,
}  # fmt: skip
WINDOW = {"--tl-x": "-l", "--tl-y": "-t", "--br-x": "-x", "--br-y": "-y"}


class Theirs:
    """SANE's daemon with one backend, beside SANE's own scanimage and ours."""

    def __init__(self, place, ours, backend="test", users=""):
        self.place, self.ours, self.backend = place, ours, backend
        self.side = f"theirs-{backend}{'-users' if users else ''}"
        place.write(f"{self.side}/dll.conf", f"{backend}\n")
        place.write(f"{self.side}/saned.conf", "localhost\n127.0.0.1\n")
        with contextlib.suppress(FileNotFoundError), open(f"/etc/sane.d/{backend}.conf", encoding="utf-8") as file:
            place.write(f"{self.side}/{backend}.conf", file.read())
        if users:
            place.write(f"{self.side}/saned.users", users)

    def serving(self):
        words = [self.place.saned, "-l", "-e", "-b", "127.0.0.1", "-p", str(THEIR_PORT)]
        return self.place.serving(words, THEIR_PORT, side=self.side)

    def words(self, *words, port=THEIR_PORT):
        """The command line of ours that scans."""
        return [self.ours, "--port", str(port), "-d", f"net:localhost:{self.backend}:0", "--dial-first", *words]

    def scanned(self, *words):
        """Our scan: its status, the file, and what it says."""
        return self.place.ran(self.words(*words), limit=IN_TIME)

    def listed(self, *words):
        """Our table of options behind these settings: its status, the table, and what it says."""
        status, told, wrong = self.place.ran([*self.words(*words), "-A"], limit=IN_TIME)
        return status, told.decode(errors="replace"), wrong

    def listed_aloud(self, *words):
        """The same, with what ours and the daemon said to each other."""
        with Ear() as ear:
            status, told, wrong = self.place.ran([*self.words(*words, port=ear.port), "-A"], limit=IN_TIME)
        return status, told.decode(errors="replace"), wrong, ear.said

    def direct(self, *words):
        """SANE's own scan or list of the same backend, with no daemon. Its window is a corner and a size."""
        pairs, given = [], dict(zip(words[::2], words[1::2]))
        for name, value in given.items():
            if name in ("--br-x", "--br-y"):
                value = str(int(value) - int(given.get(name.replace("br", "tl"), "0")))
            pairs += [WINDOW[name], value] if name in WINDOW else [f"{name}={value}"]
        return self.place.ran([self.place.scanimage, "-d", f"{self.backend}:0", "--format=pnm", *pairs], side=self.side)


class Ear:
    """Stands between one client and SANE's daemon, and keeps what each of them says."""

    def __init__(self):
        self.listener, self.said = socket.create_server(("127.0.0.1", 0)), [b"", b""]
        self.port = self.listener.getsockname()[1]
        self.listening = threading.Thread(target=self.carry, daemon=True)

    def __enter__(self):
        self.listening.start()
        return self

    def __exit__(self, *_):
        self.listening.join(IN_TIME)
        self.listener.close()

    def carry(self):
        with contextlib.suppress(OSError), self.listener.accept()[0] as client, socket.create_connection(("127.0.0.1", THEIR_PORT)) as daemon:
            ends = [client, daemon]
            while True:
                for one in select.select(ends, [], [])[0]:
                    piece = one.recv(65536)
                    if not piece:
                        return
                    self.said[one is daemon] += piece
                    ends[one is client].sendall(piece)


def blank(file):
    """A picture in black and white with the bits that fill its rows up as 0, which are whatever the backend has there, and 0 in
    ours; any other as it is."""
    lines = file.split(b"\n", 3)
    if lines[0] != b"P4":
        return file
    width, height = map(int, lines[2].split())
    row, raster = (width + 7) // 8, bytearray(lines[3])
    for y in range(height):
        raster[(y + 1) * row - 1] &= 0xFF << (-width % 8) & 0xFF
    return b"\n".join([*lines[:3], bytes(raster)])


def without_lost(file, wanted):
    """SANE's own file as wide as ours: it writes the bytes of lost pixels at each row's end as picture."""
    ours, theirs = [it.split(b"\n", 4) for it in (wanted, file)]
    height = int(ours[2].split()[1])
    row, long = len(ours[4]) // height, len(theirs[4]) // height
    rows = b"".join(theirs[4][y * long : y * long + row] for y in range(height))
    return b"\n".join([*ours[:4], rows])


def last_line(told):
    return (told.splitlines() or ["nothing"])[-1].rsplit("scanimage: ", 1)[-1]


def word_of(words):
    return " ".join(it.removeprefix("--") for it in words)


def same(ours, all_of):
    """Scans with each of these settings, whose files must be those of SANE's own scanimage."""

    def trial(place):
        theirs, wrong, count = Theirs(place, ours), [], 0
        with theirs.serving():
            for words in all_of:
                status, file, told = theirs.scanned(*words)
                wanted = theirs.direct(*words)[1]
                count += len(file)
                if status != 0 or len(file) < 12 or blank(file) != blank(wanted):
                    wrong.append(f"{word_of(words)}: {len(file):,} bytes, SANE's own {len(wanted):,}, status {status} {last_line(told)}")
        right = len(all_of) - len(wrong)
        return f"{right} of {len(all_of)} files the same as SANE's own, {count:,} bytes" + "".join(f"; {it}" for it in wrong[:2]), not wrong

    return trial


def pictures(mode_depths):
    return [("--mode", mode, "--depth", depth, "--test-picture", it) for mode, depth in mode_depths for it in PICTURES]


def loses(ours):
    """SANE's own frontend writes the bytes of lost pixels as picture: they are cut off its rows."""

    def trial(place):
        theirs, wrong = Theirs(place, ours), []
        many = [(mode, depth, loss) for mode, depth in SHAPES[1:] for loss in ("1", "3", "128")]
        with theirs.serving():
            for mode, depth, loss in many:
                words = ("--mode", mode, "--depth", depth, "--test-picture", "Grid", "--ppl-loss", loss)
                status, file, _ = theirs.scanned(*words)
                if status != 0 or file != without_lost(theirs.direct(*words)[1], file):
                    wrong.append(word_of(words))
        return f"{len(many) - len(wrong)} of {len(many)} files as SANE's own once the lost bytes are cut off its rows", not wrong

    return trial


def in_three_passes_of_16(ours):
    """SANE's own scanimage ends by its assertion there; the picture is that of one pass."""

    def trial(place):
        theirs, words = Theirs(place, ours), ("--mode", "Color", "--depth", "16", "--resolution", "100", "--test-picture", "Color pattern")
        with theirs.serving():
            status, file, _ = theirs.scanned(*words, "--three-pass", "yes")
        is_so = status == 0 and file == theirs.direct(*words)[1] and len(file) > 12
        return f"{len(file):,} bytes, {'the same as of one pass' if is_so else f'status {status}'}", is_so

    return trial


def feeds(ours):
    """The test backend's feeder has ten pages."""

    def trial(place):
        theirs = Theirs(place, ours)
        words = ["--source", "Automatic Document Feeder", "--mode", "Color", "--test-picture", "Grid"]
        size = ["--br-x", "60", "--br-y", "60"]
        folders = [f"{place.folder}/{name}" for name in ("fed-ours", "fed-theirs")]
        for folder in folders:
            os.mkdir(folder)
        with theirs.serving():
            ran = subprocess.run(theirs.words("-b", *words, *size), cwd=folders[0], capture_output=True, timeout=IN_TIME, check=False)
        theirs.direct("--batch", f"{folders[1]}/out%d.pnm", *words, *size)
        files = [read(f"{folders[0]}/out{number}.pnm") for number in range(1, 12)]
        wanted = [read(f"{folders[1]}/out{number}.pnm") for number in range(1, 12)]
        is_so = ran.returncode == 0 and files == wanted and all(files[:10]) and files[10] == b"" and len(os.listdir(folders[0])) == 10
        return f"status {ran.returncode}, {len(os.listdir(folders[0]))} files{', the same as of SANE' if is_so else ''}", is_so

    return trial


def read(path):
    with contextlib.suppress(FileNotFoundError), open(path, "rb") as file:
        return file.read()
    return b""


def answers(ours):
    """Each status that a read may end with is ours too, by its name."""

    def trial(place):
        theirs, wrong = Theirs(place, ours), []
        with theirs.serving():
            for name, number in STATUSES.items():
                words = ("--read-return-value", f"SANE_STATUS_{name}")
                status, _, told = theirs.scanned(*words)
                if (status, last_line(told)) != (number, f"SANE_STATUS_{name} (answer)") or theirs.direct(*words)[0] != number:
                    wrong.append(f"{name}: {status} {last_line(told)}")
        return f"{len(STATUSES) - len(wrong)} of {len(STATUSES)} told by name, with SANE's own exit status" + "".join(wrong[:2]), not wrong

    return trial


def asks(ours, password, is_right):
    """A backend that is for users alone: SANE's daemon asks for a digest."""

    def trial(place):
        theirs = Theirs(place, ours, users="ann:apple:test\n")
        place.write("pages/there.password", f"{password}\n")
        with theirs.serving():
            status, file, told = theirs.scanned("--user", "ann", "--password-file", "there.password", "--test-picture", "Grid")
        if is_right:
            is_so = status == 0 and file == theirs.direct("--test-picture", "Grid")[1] and len(file) > 12
            return f"status {status}, {'the same file' if is_so else last_line(told)}", is_so
        return f"status {status}; {last_line(told)}", (status, last_line(told)) == (11, "SANE_STATUS_ACCESS_DENIED (answer)") and not file

    return trial


def cancels(ours):
    """An interrupt in the midst of a frame, and a scan behind it."""

    def trial(place):
        theirs = Theirs(place, ours)
        slow = ("--read-limit", "yes", "--read-limit-size", "100", "--read-delay", "yes", "--read-delay-duration", "20000")
        with theirs.serving():
            words = theirs.words("--mode", "Color", "--test-picture", "Grid", *slow)
            one = subprocess.Popen(words, cwd=f"{place.folder}/pages", stdout=subprocess.PIPE, stderr=subprocess.DEVNULL)
            first = os.read(one.stdout.fileno(), 100)
            one.send_signal(signal.SIGINT)
            rest = one.communicate(timeout=IN_TIME)[0]
            status, file, _ = theirs.scanned("--test-picture", "Grid")
        is_so = one.returncode == -signal.SIGINT and file == theirs.direct("--test-picture", "Grid")[1] and status == 0
        part = len(first) + len(rest)
        return f"{part} bytes of the first, {'and the next is whole' if is_so else f'then {status}'}", is_so and 0 < part < 92_000

    return trial


def stays_out(ours):
    """What does not work there ends by its name and in time."""
    color, hand = ("--mode", "Color"), ("--hand-scanner", "yes")
    small = ("--br-x", "20", "--br-y", "20")
    table = ",".join(["7"] * 4096)
    rows = [
        ((*color, "--depth", "1"), 9, "SANE_STATUS_IO_ERROR (malformed)"),
        ((*color, "--three-pass", "yes", *hand), 9, "SANE_STATUS_IO_ERROR (malformed)"),
        ((*color, "--three-pass", "yes", *small), 9, "SANE_STATUS_IO_ERROR (malformed)"),
        (("--mode", "gr"), 9, "SANE_STATUS_IO_ERROR (malformed)"),
        (("--read-return-value", "SANE_STATUS_EOF"), 9, "SANE_STATUS_IO_ERROR (short)"),
        (("--enable-test-options", "yes", "--button", "yes"), 4, "SANE_STATUS_INVAL (setting)"),
        (("--gamma-table", table), 4, "SANE_STATUS_INVAL (setting)"),
        (("--invert-endianess", "yes"), 4, "SANE_STATUS_INVAL (answer)"),
        (("--no-such-option", "1"), 4, "SANE_STATUS_INVAL (setting)"),
    ]

    def trial(place):
        theirs, wrong = Theirs(place, ours), []
        with theirs.serving():
            for words, number, name in rows:
                status, _, told = theirs.scanned(*words)
                if (status, last_line(told)) != (number, name):
                    wrong.append(f"{word_of(words)[:40]}: {status} {last_line(told)}")
            # reads that wait for nothing: a record without a byte is none, and whether one comes is a matter of time
            status, file, told = theirs.scanned("--non-blocking", "yes", "--test-picture", "Grid")
            if (status, last_line(told)) != (9, "SANE_STATUS_IO_ERROR (malformed)") and (status, len(file)) != (0, 30_807):
                wrong.append(f"reads that wait for nothing: {status} {last_line(told)}")
            lost = place.ran([ours, "-L", "--net", "somewhere.else", "--port", str(THEIR_PORT)], limit=IN_TIME)
            if (lost[0], last_line(lost[2])) != (9, "SANE_STATUS_IO_ERROR (lost)"):
                wrong.append(f"a host by name: {lost[0]} {last_line(lost[2])}")
            status, file, _ = theirs.scanned("--test-picture", "Grid")
        if status or file != theirs.direct("--test-picture", "Grid")[1]:
            wrong.append("and no scan behind them")
        count = len(rows) + 2
        return f"{count - len(wrong)} of {count} end by name, and a scan behind them is whole" + "".join(f"; {it}" for it in wrong[:3]), not wrong

    return trial


def waits(ours):
    """Without the flag each waits for the other."""

    def trial(place):
        theirs = Theirs(place, ours)
        with theirs.serving():
            words = [it for it in theirs.words() if it != "--dial-first"]
            waiting = subprocess.Popen(words, stdout=subprocess.PIPE, stderr=subprocess.DEVNULL)
            with contextlib.suppress(subprocess.TimeoutExpired):
                waiting.wait(PATIENCE)
                return f"it ended with status {waiting.returncode}, {len(waiting.stdout.read())} bytes", False
            waiting.send_signal(signal.SIGINT)
            file, _ = waiting.communicate(timeout=IN_TIME)
        is_so = waiting.returncode == -signal.SIGINT and not file
        return f"it waits: {PATIENCE} s, {len(file)} bytes; an interrupt ends it", is_so

    return trial


# The tables of options


OPTION = re.compile(r"^ +(--?[a-z][a-z0-9-]*)(.*)$")


def table(told):
    """Of a table the groups and the options, each with what stands behind its name."""
    groups = re.findall(r"^  ([A-Z].*):$", told, re.MULTILINE)
    found = [OPTION.match(line) for line in told.splitlines()]
    return groups, {WINDOW.get(it[1], it[1]): it[2] for it in found if it}


def kept(rest):
    """What both frontends tell of an option alike: whether it is inactive, or may only be read."""
    return [it for it in ("[inactive]", "[read-only]") if it in rest]


def shows(ours, backend, *words):
    """Our -A lists each group and option that SANE's own lists, in that order; inactive ones, buttons and texts too."""

    def trial(place):
        theirs = Theirs(place, ours, backend)
        with theirs.serving():
            status, told, wrong = theirs.listed(*words)
        known = place.ran([place.scanimage, "-d", f"{backend}:0", *[f"{a}={b}" for a, b in zip(words[::2], words[1::2])], "-A"], side=theirs.side)
        (groups, have), (their_groups, want) = table(told), table(known[1].decode(errors="replace"))
        is_so = status == 0 and groups == their_groups and [*have] == [*{n.split("[")[0]: 0 for n in want}]
        odd = [name for name in want if name in have and have[name] and "[inactive]" in kept(want[name]) and "[inactive]" not in kept(have[name])]
        how = f"; {last_line(wrong)}" if wrong else ""
        return f"status {status}, {len(groups)} groups and {len(have)} options, as SANE's own -A{how}{'; ' + ' '.join(odd) if odd else ''}", is_so and not odd

    return trial


def values_of(rest):
    """Values to set an option to, by what its table tells of it."""
    told = rest.split(" [")[0].strip()
    if told.startswith("yes|no"):
        return ["yes", "no"]
    span = re.match(r"(-?[0-9.]+)\.\.(-?[0-9.]+)", told)
    count = re.search(r"\[(\d+) values\]", rest)
    if count and int(count[1]) > 1024:
        return []
    many = int(count[1]) if count else 1
    if span:
        return [",".join([it] * many) for it in span.groups()]
    if told.startswith(("<int>", "<fixed>")):
        return [",".join([it] * many) for it in ("0", "1", "-3", "42")]
    if told.startswith("<string>"):
        return ["a", "some text with blanks"]
    words = re.sub(r"(dpi|pel|bit|mm|us|%)(,\.\.\.)?$", "", told).split("|")
    return [",".join([it] * many) for it in words[:50]] if told else []


def sets(ours, backend, *first):
    """Each option's values, one job for each: the table behind it shows the value, or it is told as rounded, or the job ends by
    name."""

    def trial(place):
        theirs, wrong, counts = Theirs(place, ours, backend), [], dict.fromkeys(("back", "rounded", "refused"), 0)
        with theirs.serving():
            have = table(theirs.listed(*first)[1])[1]
            for name, rest in have.items():
                name = next((it for it, short in WINDOW.items() if short == name), name)
                for value in [] if name == "--enable-test-options" else values_of(rest):
                    came = reads_back(theirs, first, name, value)
                    counts[came] = counts.get(came, 0) + 1
                    if came not in ("back", "rounded", "refused"):
                        wrong.append(f"{name} {value[:20]}: {came}")
        told = f"{counts['back']} read back, {counts['rounded']} told as rounded, {counts['refused']} refused by name"
        return f"{len(have)} options: {told}" + "".join(f"; {it}" for it in wrong[:3]), not wrong and counts["back"] > 20

    return trial


def reads_back(theirs, first, name, value):
    """What became of one setting."""
    status, told, wrong = theirs.listed(*first, name, value)
    if status:
        return "refused" if re.fullmatch(r"SANE_STATUS_\w+ \((answer|setting)\)", last_line(wrong)) else f"{status} {last_line(wrong)}"
    if f"rounded value of {name.removeprefix('--')}" in wrong:
        return "rounded"
    shown = table(told)[1].get(WINDOW.get(name, name), "")
    if re.search(r"\[\d+ values\]", shown):
        return "back" if is_kept_whole(theirs, first, name, value) else f"not told back: {value[:40]}"
    return "back" if "[read-only]" in shown or f"[{value}]" in shown else f"shown as {shown[-40:]}"


def is_kept_whole(theirs, first, name, value):
    """Whether the words of a vector, which a table does not show, were asked for and told back, each in its place: whole numbers, or
    fixed ones."""
    status, _, _, (asked, answered) = theirs.listed_aloud(*first, name, value)
    words = [float(it) for it in value.split(",")]
    ways = [[int(it * scale) for it in words] for scale in (1, 65536) if all(it * scale == int(it * scale) and abs(it * scale) < 1 << 31 for it in words)]
    spelled = [struct.pack(f">II{len(it)}i", 4 * len(it), len(it), *it) for it in ways]
    return status == 0 and any(it in asked and it in answered for it in spelled)


def trials(ours):
    """Each row of the table, with its trial."""
    grid = ("--test-picture", "Grid")
    windows = [
        ("--br-x", "1", "--br-y", "1", "--resolution", "26"),
        ("--br-x", "1", "--br-y", "200", "--resolution", "300", "--test-picture", "Color pattern"),
        ("--tl-x", "37", "--tl-y", "21", "--br-x", "91", "--br-y", "97", "--resolution", "77", "--test-picture", "Color pattern"),
        ("--br-x", "200", "--br-y", "200", "--resolution", "300", "--mode", "Color", "--test-picture", "Color pattern"),
    ]
    limits = [("--read-limit", "yes", "--read-limit-size", size, "--mode", "Color", *grid) for size in ("1", "7", "1000", "8188", "65536")]
    others = [("--read-delay", "yes", "--read-delay-duration", "1000", *grid), ("--select-fd", "yes", *grid), ("--fuzzy-parameters", "yes", *grid)]
    swapped = [("--mode", mode, "--depth", "16", "--invert-endianess", "yes", *grid) for mode in ("Gray", "Color")]
    passes = [("--mode", "Color", "--three-pass", "yes", "--three-pass-order", it, "--resolution", "100", "--test-picture", "Color pattern") for it in ORDERS]
    by_hand = [("--mode", mode, "--depth", depth, "--hand-scanner", "yes", *grid) for mode, depth in SHAPES]
    return [
        ("our scan there without `--dial-first`", waits(ours)),
        ("with it: gray 1, 8, 16 and color 8, 16, three pictures", same(ours, pictures(SHAPES))),
        ("windows from 1 x 1 mm at 26 dpi to 200 x 200 mm at 300 dpi", same(ours, windows)),
        ("by hand, the same modes and depths", same(ours, by_hand)),
        ("three passes, color 8, in each order", same(ours, passes)),
        ("three passes, color 16", in_three_passes_of_16(ours)),
        ("lost pixels, 1, 3 and 128 of a line", loses(ours)),
        ("reads of 1 to 65,536 bytes, delays, other byte order", same(ours, [*limits, *others, *swapped])),
        ("its feeder's ten pages, `-b`", feeds(ours)),
        ("each status of `--read-return-value`", answers(ours)),
        ("a user with the right password (MD5)", asks(ours, "apple", True)),
        ("a user with a wrong password", asks(ours, "pear", False)),
        ("an interrupt in mid-frame, and a scan behind it", cancels(ours)),
        ("what stays out", stays_out(ours)),
        ("our `-A` there, backend `test`", shows(ours, "test")),
        ("with all its options active", shows(ours, "test", "--enable-test-options", "yes")),
        ("backend `pnm`", shows(ours, "pnm")),
        ("each option of `test` set, one at a time", sets(ours, "test", "--enable-test-options", "yes")),
        ("each option of `pnm`", sets(ours, "pnm")),
    ]
