"""Small pictures of each width and greatest value, against what a sample means, since what takes many dots at once goes wrong
at their ends: the model here takes one dot after the other, as the manual page's PICTURE says it."""
import random

from world import Daemon, netpbm, page, scan

WIDTHS = [*range(1, 26), 31, 32, 33]
MAXVALS = [1, 2, 3, 100, 127, 128, 254, 255, 256, 257, 1000, 1023, 4095, 32768, 65534, 65535]
ROWS = 3
MODES = [("Gray", 1), ("Gray", 8), ("Gray", 16), ("Color", 8), ("Color", 16)]
PLAIN = list(range(256))
TURNED = [255 - it for it in range(256)]


def random_page(chance, magic, maxval, columns):
    """A page of noise, now and then with all dots gray: its text, and its samples of 16 bits."""
    is_even, rows, raster = chance.random() < 0.5, [], bytearray()
    for _ in range(ROWS):
        dots = []
        for _ in range(columns):
            dot = [chance.randrange(maxval + 1) for _ in range(3)]
            dot = [dot[0]] * 3 if magic == "P5" or is_even else dot
            for sample in dot[: 1 if magic == "P5" else 3]:
                raster += sample.to_bytes(1 if maxval < 256 else 2, "big")
            dots.append([it * 65535 // maxval for it in dot])
        rows.append(dots)
    return f"{magic} {columns} {ROWS} {maxval}", bytes(raster), rows


def meant(rows, setting):
    """The file of the picture that the setting means on the page."""
    mode, depth, dpi, resolution, left, table = setting
    first, across = (10 * it * resolution // 254 for it in (left, 1))
    raster = bytearray()
    for y in range(across):
        bits = []
        for x in range(across):
            row, column = y * dpi // resolution, (first + x) * dpi // resolution
            dot = rows[row][column] if row < len(rows) and column < len(rows[0]) else [65535] * 3
            seen = dot if mode == "Color" else [(299 * dot[0] + 587 * dot[1] + 114 * dot[2]) // 1000]
            if depth == 16:
                raster += b"".join(it.to_bytes(2, "big") for it in seen)
            elif depth == 8:
                raster += bytes(table[it // 256] for it in seen)
            else:
                bits.append(int(table[seen[0] // 256] < 128))
        bits += [0] * (-len(bits) % 8)
        raster += bytes(int("".join(map(str, bits[at : at + 8])), 2) for at in range(0, len(bits), 8))
    most = {1: "", 8: " 255", 16: " 65535"}[depth]
    return netpbm(f"{'P4' if depth == 1 else 'P6' if mode == 'Color' else 'P5'} {across} {across}{most}", bytes(raster))


def scanned(tally, daemon, config, rows, words, setting):
    """A scan of each device of the config, here and over the net."""
    mode, depth, *_, table = setting
    words = ["--mode", mode, "--depth", str(depth), *words]
    words += ["--gamma-table", ",".join(map(str, table))] if table == TURNED else []
    for kind in ("flatbed", "threepass")[: 1 if depth == 1 else 2]:
        here, there = ["--config", "-", "-d", f"{kind}:0"], ["-d", f"net:localhost:{kind}:0", "--port", str(daemon.port)]
        for place, given in ((here, config.encode()), (there, b"")):
            ended = scan([*place, *words], given)
            is_right = ended.status == 0 and ended.out == meant(rows, setting)
            told = "the picture that is meant" if is_right else ended.what()
            tally.saw(f"a small picture, {mode.lower()} of depth {depth}", told, is_right, f"{config[:60]} {place} {words}")


def ends(tally, scale):
    """Of each width and greatest value a page, and of it a scan in each mode."""
    chance, each = random.Random(45), 0
    for width in WIDTHS:
        for maxval in MAXVALS:
            each += 1
            if each % scale["ends"]:
                continue
            # as many dots to a mm as the picture is wide; of the page as many, or some other share
            resolution, left = -(-254 * width // 10), chance.choice([0, 1])
            dpi = chance.choice([resolution, resolution, resolution, 100, 600])
            columns = max(1, (left + 1) * width * dpi // resolution + chance.choice([0, 0, -1, 5]))
            header, raster, rows = random_page(chance, chance.choice(["P5", "P6"]), maxval, columns)
            config = "".join(f"{kind} 0 {dpi} {page(header, raster)}\n" for kind in ("flatbed", "threepass"))
            words = ["--resolution", str(resolution), "--tl-x", str(left), "--br-x", str(left + 1), "--br-y", "1"]
            with Daemon(config) as daemon:
                for mode, depth in MODES:
                    table = chance.choice([PLAIN, TURNED]) if depth < 16 else PLAIN
                    scanned(tally, daemon, config, rows, words, (mode, depth, dpi, resolution, left, table))
