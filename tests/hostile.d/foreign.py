"""Tables of options as SANE's backends for real scanners have them, at a daemon that keeps what it is told: scanimage lists each
option whole, and each setting reads back, or is refused by name. Names, kinds, units, sizes, capabilities and constraints are
those of the backends epson2, fujitsu, genesys, pixma, plustek, hp, avision and gphoto2, and of the standard's well-known options."""
import contextlib
import struct
import threading

import wire
from world import LIMIT, listening, read, scan

BOOL, INT, FIXED, STRING, BUTTON, GROUP = range(6)
NONE, PIXEL, BIT, MM, DPI, PERCENT, MICROSECOND = range(7)
SELECT, HARD, DETECT, EMULATED, AUTOMATIC, INACTIVE, ADVANCED, ALWAYS = (1 << it for it in range(8))
KEPT, SENSOR = SELECT | DETECT, HARD | DETECT | ADVANCED


def fixed(number):
    return round(number * 65536)


# Each option: name, title, kind, unit, size, capabilities, constraint; its value at first; and its line in the table.
OPTIONS = [
    ("", "Number of options", INT, NONE, 4, DETECT, None, 39, None),
    ("", "Scan Mode", GROUP, NONE, 0, 0, None, None, "  Scan Mode:"),
    ("mode", "Scan mode", STRING, NONE, 8, KEPT, ["Lineart", "Gray", "Color"], "Lineart", "    --mode Lineart|Gray|Color [Lineart]"),
    ("source", "Scan source", STRING, NONE, 32, KEPT, ["Flatbed", "Automatic Document Feeder", "Transparency Unit"], "Flatbed",
     "    --source Flatbed|Automatic Document Feeder|Transparency Unit [Flatbed]"),
    ("depth", "Bit depth", INT, BIT, 4, KEPT, [8, 16], 8, "    --depth 8|16bit [8]"),
    ("halftoning", "Halftone", STRING, NONE, 32, KEPT | ADVANCED, ["None", "Halftone A (Hard Tone)", "Dither A (4x4 Bayer)"], "Halftone A (Hard Tone)",
     "    --halftoning None|Halftone A (Hard Tone)|Dither A (4x4 Bayer) [Halftone A (Hard Tone)]"),
    ("dropout", "Dropout", STRING, NONE, 6, KEPT | ADVANCED | INACTIVE, ["None", "Red", "Green", "Blue"], "None",
     "    --dropout None|Red|Green|Blue [inactive]"),
    ("brightness", "Brightness", INT, NONE, 4, KEPT, (-4, 3, 1), 0, "    --brightness -4..3 (in steps of 1) [0]"),
    ("contrast", "Contrast", FIXED, PERCENT, 4, KEPT, (fixed(-100), fixed(100), fixed(1)), 0, "    --contrast -100..100% (in steps of 1) [0]"),
    ("threshold", "Threshold", FIXED, PERCENT, 4, KEPT | AUTOMATIC, (0, fixed(100), 0), fixed(50.5), "    --threshold 0..100% [50.5]"),
    ("sharpness", "Sharpness", INT, NONE, 4, KEPT | EMULATED, (-2, 2, 0), 0, "    --sharpness -2..2 [0]"),
    ("resolution", "Scan resolution", INT, DPI, 4, KEPT, [50, 60, 72, 75, 80, 90, 100, 1200, 2400, 4800, 9600], 50,
     "    --resolution 50|60|72|75|80|90|100|1200|2400|4800|9600dpi [50]"),
    ("y-resolution", "Y-resolution", FIXED, DPI, 4, KEPT, [fixed(75), fixed(99.5), fixed(150)], fixed(75), "    --y-resolution 75|99.5|150dpi [75]"),
    ("", "Geometry", GROUP, NONE, 0, ADVANCED, None, None, "  Geometry:"),
    ("tl-x", "Top-left x", FIXED, MM, 4, KEPT, (0, fixed(215.8999), 0), 0, "    --tl-x 0..215.89990234375mm [0]"),
    ("tl-y", "Top-left y", FIXED, MM, 4, KEPT, (0, fixed(297.18), 0), 0, "    --tl-y 0..297.17999267578125mm [0]"),
    ("br-x", "Bottom-right x", FIXED, MM, 4, KEPT, (0, fixed(215.8999), 0), fixed(215.8999), "    --br-x 0..215.89990234375mm [215.89990234375]"),
    ("br-y", "Bottom-right y", INT, PIXEL, 4, KEPT, (0, 14032, 16), 14032, "    --br-y 0..14032pel (in steps of 16) [14032]"),
    ("", "Enhancement", GROUP, NONE, 0, 0, None, None, "  Enhancement:"),
    ("gamma-table", "Image intensity", INT, NONE, 1024, KEPT, (0, 255, 1), [*range(256)], "    --gamma-table 0..255 (in steps of 1),... [256 values]"),
    ("red-gamma-table", "Red intensity", INT, NONE, 16384, KEPT, (0, 255, 0), None, "    --red-gamma-table 0..255,... [4096 values]"),
    ("cct-1", "CCT 1", FIXED, NONE, 12, KEPT | ADVANCED, (fixed(-2), fixed(2), 0), [fixed(1), 0, fixed(-0.5)], "    --cct-1 -2..2,... [3 values]"),
    ("mirror", "Mirror image", BOOL, NONE, 4, KEPT, None, 0, "    --mirror yes|no [no]"),
    ("preview", "Preview", BOOL, NONE, 4, SELECT | DETECT | ALWAYS, None, 1, "    --preview yes|no [yes]"),
    ("lamp-off-time", "Lamp off time", INT, NONE, 4, KEPT | ADVANCED, (0, 60, 0), 15, "    --lamp-off-time 0..60 [15]"),
    ("exposure", "Exposure", INT, MICROSECOND, 4, KEPT | INACTIVE, None, 0, "    --exposure <int> [inactive]"),
    ("calibration-file", "Calibration file", STRING, NONE, 1024, KEPT | ADVANCED, None, "/var/tmp/a b.cal", "    --calibration-file <string> [/var/tmp/a b.cal]"),
    ("clear-calibration", "Clear calibration", BUTTON, NONE, 0, SELECT | ADVANCED, None, None, "    --clear-calibration"),
    ("eject", "Eject", BUTTON, NONE, 0, SELECT | INACTIVE, None, None, "    --eject"),
    ("", "Sensors", GROUP, NONE, 0, ADVANCED, None, None, "  Sensors:"),
    ("scan", "Scan button", BOOL, NONE, 4, SENSOR, None, 1, "    --scan yes|no [yes] [read-only]"),
    ("page-loaded", "Page loaded", BOOL, NONE, 4, SENSOR | INACTIVE, None, 0, "    --page-loaded yes|no [inactive] [read-only]"),
    ("function", "Function number", INT, NONE, 4, SENSOR, None, -1, "    --function <int> [-1] [read-only]"),
    ("skew-angle", "Skew angle", FIXED, NONE, 4, SENSOR, None, fixed(-0.25), "    --skew-angle <fixed> [-0.25] [read-only]"),
    ("firmware", "Firmware", STRING, NONE, 7, DETECT, None, "1.0 b", "    --firmware <string> [1.0 b] [read-only]"),
    ("serial", "Serial number", STRING, NONE, 40, DETECT | INACTIVE, None, "", "    --serial <string> [inactive] [read-only]"),
    ("secret", "Password", STRING, NONE, 16, SELECT, None, "", "    --secret <string> [unknown]"),
    ("lamp", "Lamp", INT, NONE, 4, SELECT, [0, 1, 2], 0, "    --lamp 0|1|2 [unknown]"),
    ("shutter-speed", "Shutter", STRING, NONE, 9, KEPT, ["1/30", "1/60", "bulb", ""], "bulb", "    --shutter-speed 1/30|1/60|bulb| [bulb]"),
]
TABLE = "All options specific to device `real:0':\n" + "".join(f"{it[8]}\n" for it in OPTIONS[1:])

# Words of a setting, and what is then shown of that option; or how it is refused.
SHOWN = [
    ("mode", "Color", "Color"), ("source", "Automatic Document Feeder", "Automatic Document Feeder"), ("source", "Transparency Unit", "Transparency Unit"),
    ("depth", "16", "16"), ("halftoning", "Dither A (4x4 Bayer)", "Dither A (4x4 Bayer)"), ("brightness", "-4", "-4"), ("contrast", "-33", "-33"),
    ("threshold", "0.125", "0.125"), ("sharpness", "2", "2"), ("resolution", "9600", "9600"), ("y-resolution", "99.5", "99.5"), ("tl-x", "12.5", "12.5"),
    ("br-y", "16", "16"), ("mirror", "yes", "yes"), ("preview", "no", "no"), ("lamp-off-time", "60", "60"), ("calibration-file", "x", "x"),
    ("calibration-file", "y" * 1023, "y" * 1023), ("shutter-speed", "1/30", "1/30"), ("shutter-speed", "", ""),
    ("gamma-table", ",".join(map(str, range(255, -1, -1))), "256 values"), ("cct-1", "-2,0.5,1.25", "3 values"), ("secret", "pass", "unknown"),
    ("lamp", "2", "unknown"),
]
ANSWER, SETTING = "SANE_STATUS_INVAL (answer)", "SANE_STATUS_INVAL (setting)"
REFUSED = [
    ("mode", "Infrared", ANSWER), ("depth", "x", SETTING), ("brightness", "1.5", SETTING), ("contrast", "much", SETTING), ("mirror", "true", SETTING),
    ("gamma-table", "1,2", ANSWER), ("cct-1", "1,2,3,4", ANSWER), ("cct-1", "1,b,3", SETTING), ("red-gamma-table", ",".join(["7"] * 4096), SETTING),
    ("scan", "no", ANSWER), ("firmware", "2.0", ANSWER), ("exposure", "5", ANSWER), ("dropout", "Red", ANSWER), ("eject", "yes", SETTING),
    ("clear-calibration", "yes", SETTING), ("Geometry", "1", SETTING), ("firmware", "a text that is longer", ANSWER), ("no-such-option", "1", SETTING),
]


def spelled(option, value):
    """A value on the wire, as SANE's daemon fills texts up."""
    kind, size = option[2], option[4]
    if kind == STRING:
        return wire.words(STRING, size, size) + value.encode().ljust(size, b"\0")
    numbers = value if isinstance(value, list) else [value]
    return wire.words(kind, 4 * len(numbers), len(numbers), *numbers)


class Scanner:
    """One session of a scanner that keeps what it is told, by these rules: a value that fits is kept; all else is refused."""

    def __init__(self, control):
        self.control, self.values, self.told = control, [it[7] for it in OPTIONS], []

    def words(self, count):
        return struct.unpack(f">{count}i", read(self.control, 4 * count))

    def text(self):
        return read(self.control, self.words(1)[0])

    def serve(self):
        self.control.settimeout(LIMIT)
        with contextlib.suppress(struct.error, OSError):
            while (request := self.words(1)[0]) != 10:
                self.control.sendall(self.answer(request))

    def answer(self, request):
        if request == 0:
            self.words(1)
            self.text()
            return wire.INIT_REPLY
        if request == 2:
            self.text()
            return wire.OPEN_REPLY
        self.words(1)
        return {3: lambda: wire.NULL, 4: lambda: wire.descriptors([it[:7] for it in OPTIONS]), 5: self.controlled}[request]()

    def controlled(self):
        number, action, kind, size, count = self.words(5)
        given = read(self.control, count) if kind == STRING else self.words(count)
        option, is_text = OPTIONS[number], kind == STRING
        if action == 1:
            self.told.append((option[0], given.rstrip(b"\0").decode() if is_text else given))
        if self.values[number] is None or not option[5] & (SELECT if action else DETECT) or option[5] & INACTIVE or (action and not fits(option, kind, given)):
            echo = wire.words(kind, size, count) + (given if is_text else wire.words(*given))
            return wire.words(4, 0) + echo + wire.NULL
        if action:
            self.values[number] = given.rstrip(b"\0").decode() if is_text else [*given] if len(given) > 1 else given[0]
        return wire.words(0, 0) + spelled(option, self.values[number]) + wire.NULL


def fits(option, kind, given):
    """Whether a value is of the option's kind and size, and admitted."""
    _, _, wanted, _, size, _, bound = option[:7]
    if kind != wanted:
        return False
    if kind == STRING:
        return given.rstrip(b"\0").decode() in bound if bound else len(given) <= size
    is_in = (lambda it: bound[0] <= it <= bound[1]) if isinstance(bound, tuple) else (lambda it: it in bound) if bound else (lambda it: True)
    return len(given) == size // 4 and all(map(is_in, given))


def played(*words):
    """Our scanimage with these words on such a scanner: how it ended, and what the scanner was told."""
    with listening() as one:
        told = []

        def serve():
            with contextlib.suppress(OSError), one.accept()[0] as control:
                scanner = Scanner(control)
                scanner.serve()
                told.extend(scanner.told)

        serving = threading.Thread(target=serve, daemon=True)
        serving.start()
        ended = scan(["-d", "net:localhost:real:0", "--port", str(one.getsockname()[1]), *words])
        serving.join(LIMIT)
        return ended, told


def sent(option, value):
    """What the scanner must be told of a setting, by the words of it."""
    if option[2] == STRING:
        return value
    if option[2] == BOOL:
        return (int(value == "yes"),)
    return tuple(fixed(float(it)) if option[2] == FIXED else int(it) for it in value.split(","))


def foreign(tally, _scale):
    """The table whole; each setting told as it was asked and shown; and each that is none refused by name."""
    ended, told = played("-A")
    tally.saw("a real scanner's table of options", "each line as it must be" if ended.out.decode() == TABLE else ended.what(), (ended.status, ended.out.decode(), told) == (0, TABLE, []))
    by_name = {it[0]: it for it in OPTIONS}
    for name, value, shown in SHOWN:
        ended, told = played(f"--{name}={value}", "-A")
        line = next((it for it in ended.out.decode().splitlines() if it.startswith(f"    --{name} ")), "")
        is_so = ended.status == 0 and line.endswith(f"[{shown}]") and told == [(name, sent(by_name[name], value))]
        tally.saw("a real scanner's setting", "told as it was asked, and shown" if is_so else f"{line} {ended.what()}", is_so, f"{name} {value[:40]}")
    for name, value, wanted in REFUSED:
        ended, _ = played(f"--{name}={value}", "-A")
        is_so = (ended.status, ended.out, ended.err.decode()) == (4, b"", f"scanimage: {wanted}\n")
        tally.saw("what is no setting of a real scanner", wanted if is_so else ended.what(), is_so, f"{name} {value[:40]}")
