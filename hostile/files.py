"""The files that the script `run` tries: those that are good, and bad ones with the end that each has to have."""
import collections
import struct

# A last line that a run must not have.
Not = collections.namedtuple("Not", "line")

CODEC = """
[[codec]]
address = 0
vendor = 0x10EC0889
[[codec.node]]
nid = 0x02
caps = 0x00000001
[[codec.node]]
nid = 0x0C
caps = 0x0020010B
amp_in = 0x80000000
list = [0x02, 0x0B]
[[codec.node]]
nid = 0x14
caps = 0x0040010D
amp_out = 0x80000000
pin_caps = 0x10
default = 0x01014010
list = [0x0C]
"""
SET_UP = "run 0\nlink 25\nrun 0\nrepeat 44\nrun 0\ncorb\nanswer 0\nrirb\nend\nrun 0\n"
PLAYED = SET_UP + "run 8\nfetch 1 16\nlink 4\nrun 0\n"
EXTREMES = [
    0, 1, 2, 14, 15, 16, 64, 65, 127, 128, 255, 256, 1_000, 65_535, 65_536, 1_000_000, 1_000_001, 2**31 - 1, 2**31,
    2**32 - 1, 2**32, 2**63 - 1, 2**63, 2**64, -1,
]


def sound(frames, channels=2, rate=48_000, tag=1, bits=16, size=None, riff=None, block=None):
    """A WAV file with these frames, whose sizes may be lies."""
    block = channels * bits // 8 if block is None else block
    head = struct.pack("<4sI4s", b"RIFF", 36 + len(frames) if riff is None else riff, b"WAVE")
    form = struct.pack("<4sIHHIIHH", b"fmt ", 16, tag, channels, rate, rate * block, block, bits)
    return head + form + struct.pack("<4sI", b"data", len(frames) if size is None else size) + frames


TWO_FRAMES = struct.pack("<hhhh", 1, 2, 3, -1)


def walked(lines, status, last=None):
    """A walk by this schedule ends with this status, and this last line."""
    return ("walk", lines, status, last)


# Bad inputs, and numbers at every limit and past it: what is called with which files, the status, and the last line.


def schedule_limits():
    """Schedules at limits and past them."""
    none_sent = "schedule ended: commands 0 of 44"
    refused = "schedule refused: Line 1"
    return [
        walked("run 4294967295\n", 11, none_sent), walked("run 4294967296\n", 7, refused),
        walked("irq 4294967295\n", 11, none_sent), walked("irq 4294967296\n", 7, refused),
        walked("run 0000000001\n", 11, none_sent), walked("run 00000000001\n", 7, refused),
        walked("link 1000000\n", 11, none_sent), walked("link 1000001\n", 7, refused), walked("link 0\n", 7, refused),
        walked("fetch 1 65535\n", 11, none_sent), walked("fetch 1 65536\n", 7, refused),
        walked("fetch 1 0\n", 7, refused), walked("fetch 0 1\n", 11, none_sent), walked("fetch 2 1\n", 7, refused),
        walked("answer 14\n", 11, none_sent), walked("answer 15\n", 7, refused), walked("lose 15\n", 7, refused),
        walked("plug 0 7f\n", 11, none_sent), walked("plug 0 80\n", 7, refused), walked("plug 0 00\n", 7, refused),
        walked("plug 15 14\n", 7, refused), walked("unplug 0 7f\n", 11, none_sent), walked("unplug 0 80\n", 7, refused),
        walked("unplug 15 14\n", 7, refused), walked("repeat 0\nend\n", 7, refused),
        walked("repeat 1000000\nrirb\nend\n", 11, none_sent), walked("repeat 1000001\nrirb\nend\n", 7, refused),
        walked("repeat 1000000\nrirb\nend\nrirb\n", 7, "schedule refused: TooManySteps"),
        walked("link 1000000\nlink 1000000\n", 11, none_sent),
        walked("link 1000000\nlink 1000000\nlink 1\n", 7, "schedule refused: TooManyFrames"),
        walked("repeat 2\ncorb\n", 7, "schedule refused: Unclosed"),
        walked("repeat 2\ncorb\nrepeat 2\n", 7, "schedule refused: Nested 3"), walked("end\n", 7, refused),
        walked("run 0" + " | -" * 100_000 + "\n", 11, none_sent),
        walked("run 0 |" + " corb," * 100_000 + " corb\n", 11, none_sent),
        walked("\n" * 4_194_304, 11, none_sent), walked("\n" * 4_194_305, 7, "schedule refused: TooLong"),
        walked(b"\xff\xfe\n", 7, refused), walked(b"run 0\0\n", 7, refused), walked(b"\r\r\n", 7, refused),
    ]


def codec_limits():
    """Codec files at limits and past them."""
    lines = []

    def routed(text, status, last=None):
        lines.append(("route", text, status, last))

    route = "route 0 14 pair 0 via 14.0 0c.0 02"

    def top(line, status, last=None):
        routed(line + "\n" + CODEC, status, last)

    top("fifo = 8", 0, route)
    top("fifo = 4096", 0, route)
    top("fifo = 7", 5, "codec refused: OutOfRange fifo at top")
    top("fifo = 4097", 5, "codec refused: OutOfRange fifo at top")
    top("fifo = 9223372036854775807", 5, "codec refused: OutOfRange fifo at top")
    top("fifo = 9223372036854775808", 5, "codec refused: Toml")
    top("fifo = 1e3", 5, "codec refused: WrongType fifo at top")
    for key in ("corb", "rirb"):
        for entries in (2, 16, 256):
            top(f"{key} = {entries}", 0, route)
        for entries in (-1, 0, 1, 3, 15, 17, 255, 257):
            top(f"{key} = {entries}", 5, f"codec refused: OutOfRange {key} at top")
    for old, new, status, last in [
        ("address = 0", "address = 14", 0, "route 14 14 pair 0 via 14.0 0c.0 02"),
        ("address = 0", "address = 15", 5, "codec refused: OutOfRange address at codec 0"),
        ("address = 0", "address = -1", 5, "codec refused: OutOfRange address at codec 0"),
        ("0x10EC0889", "4294967295", 0, route),
        ("0x10EC0889", "4294967296", 5, "codec refused: OutOfRange vendor at codec 0"),
        ("0x10EC0889", "-1", 5, "codec refused: OutOfRange vendor at codec 0"),
        ("0x00000001", "4294967295", None, Not("codec refused: OutOfRange caps at codec 0 node 0")),
        ("0x00000001", "4294967296", 5, "codec refused: OutOfRange caps at codec 0 node 0"),
        ("0x00000001", "-1", 5, "codec refused: OutOfRange caps at codec 0 node 0"),
        ("[0x02, 0x0B]", "[-1]", 5, "codec refused: OutOfRange list at codec 0 node 1"),
        ("nid = 0x02", "nid = 0", 5, "codec refused: OutOfRange nid at codec 0 node 0"),
        ("nid = 0x02", "nid = 128", 5, "codec refused: OutOfRange nid at codec 0 node 0"),
        ("nid = 0x02", "nid = 0x0C", 5, "codec refused: Doubled nid at codec 0 node 1"),
        ("[0x02, 0x0B]", "[256]", 5, "codec refused: OutOfRange list at codec 0 node 1"),
        ("[0x02, 0x0B]", "[" + "2," * 127 + "]", 5, "codec refused: ListTooLong at 0/0c"),
        ("[0x02, 0x0B]", "[" + "2," * 128 + "]", 5, "codec refused: OutOfRange list at codec 0 node 1"),
    ]:
        routed(CODEC.replace(old, new, 1), status, last)
    routed("", 5, "codec refused: MissingKey codec at top")
    routed(CODEC * 2, 5, "codec refused: Doubled address at codec 1")
    routed(CODEC + "#" * (262_144 - len(CODEC)), 0, route)
    routed(CODEC + "#" * (262_145 - len(CODEC)), 5, "codec refused: TooLong")
    routed("[[codec]]\n" * 20_000, 5, "codec refused: OutOfRange codec at top")
    # tables in one another, as headers, inline tables and dotted names, and arrays: as deep as the TOML reader takes
    # them, deeper, and as deep as a file can have them
    for depth, fault in ((80, "MissingKey codec at top"), (81, "Toml"), (1_000, "Toml"), (43_689, "Toml")):
        refused = f"codec refused: {fault}"
        routed("[" + ".".join(["a"] * depth) + "]\n", 5, refused)
        routed("x = " + "{a = " * depth + "1" + "}" * depth + "\n", 5, refused)
        routed("x = " + "[" * depth + "]" * depth + "\n", 5, refused)
        routed("a." * (depth - 1) + "a = 1\n", 5, refused)
    for headers, fault in ((81, "MissingKey codec at top"), (82, "Toml"), (500, "Toml")):
        routed("".join("[" + ".".join(["a"] * n) + "]\n" for n in range(1, headers)), 5, f"codec refused: {fault}")
    lines += key_limits(route)
    routed(b"\xff", 5, "codec refused: Toml")
    routed(b"codec = \0", 5, "codec refused: Toml")
    return lines


def sound_limits():
    """WAV files cut at each place, with sizes that lie, and with each fault of the form."""
    lines = []

    def played(data, status, last=None):
        lines.append(("play", data, status, last))

    whole = sound(TWO_FRAMES)
    for n in range(len(whole)):
        last = "NotRiff" if n < 12 else "NoData" if n in (12, 36) else f"Truncated {n}"
        played(whole[:n], 6, f"wav refused: {last}")
    played(whole, 0, "played 2")
    played(sound(TWO_FRAMES, riff=4_294_967_295), 0, "played 2")
    played(sound(TWO_FRAMES, size=4_294_967_295), 0, "played 2")
    played(sound(TWO_FRAMES, size=4_294_967_294), 6, "wav refused: Truncated 52")
    played(sound(b"", size=0), 0, "played 0")
    played(sound(TWO_FRAMES, tag=3), 6, "wav refused: Tag 3")
    played(sound(TWO_FRAMES, tag=65_534), 6, "wav refused: NoFormat")
    played(sound(TWO_FRAMES, channels=3), 6, "wav refused: Channels 3")
    played(sound(TWO_FRAMES, rate=22_050), 6, "wav refused: Rate 22050")
    for channels in (3, 5, 7, 9, 0, 65_535):
        played(sound(TWO_FRAMES, channels=channels, block=6), 6, f"wav refused: Channels {channels}")
    for bits in (8, 12, 20, 64):
        played(sound(TWO_FRAMES, bits=bits, block=4), 6, f"wav refused: Bits {bits}")
    played(sound(TWO_FRAMES, bits=24, block=4), 6, "wav refused: BlockAlign")
    played(sound(bytes(6), channels=1, bits=24, block=6), 6, "wav refused: BlockAlign")
    return lines


# A key of a codec or of a node of CODEC, the greatest number that it takes, and the least where that is not 0.
CODEC_KEYS = [
    ("revision", 2**32 - 1, 0), ("amp_in", 2**32 - 1, 0), ("amp_out", 2**32 - 1, 0), ("power", 2**32 - 1, 0),
    ("group", 127, 1), ("group_type", 2**32 - 1, 0), ("formats", 2**32 - 1, 0), ("pcm", 2**32 - 1, 0),
    ("group_power", 3, 0), ("first", 127, 0), ("count", 127, 0),
]
NODE_KEYS = [
    ("pcm", 2**32 - 1, 0), ("formats", 2**32 - 1, 0), ("pin_caps", 2**32 - 1, 0), ("amp_in", 2**32 - 1, 0),
    ("amp_out", 2**32 - 1, 0), ("power", 2**32 - 1, 0), ("default", 2**32 - 1, 0), ("select", 255, 0),
    ("power_state", 255, 0), ("stream", 255, 0), ("control", 255, 0), ("unsol", 255, 0), ("eapd", 255, 0),
    ("digital", 255, 0), ("gain_out", 255, 0), ("format", 65_535, 0),
]


def key_limits(route):
    """Each key of a codec and of its first node at its limits and past them, and arrays as long as they can be and
    longer."""
    cases = []

    def routed(text, status, last):
        cases.append(("route", text, status, last))

    def tried(text, key, place, most, least):
        refused = f"OutOfRange {key} at {place}"
        for number in (most, least):
            routed(text(f"{key} = {number}\n"), None, Not(f"codec refused: {refused}"))
        for number in (most + 1, least - 1):
            routed(text(f"{key} = {number}\n"), 5, f"codec refused: {refused}")

    for key, most, least in CODEC_KEYS:
        tried(lambda line: CODEC.replace("address = 0\n", "address = 0\n" + line), key, "codec 0", most, least)
    for key, most, least in NODE_KEYS:
        tried(lambda line: CODEC.replace("nid = 0x02\n", "nid = 0x02\n" + line), key, "codec 0 node 0", most, least)
    four = "".join(CODEC.replace("address = 0", f"address = {address}") for address in (0, 1, 2, 3))
    routed(four, 0, route.replace("route 0", "route 3"))
    routed(four + CODEC.replace("address = 0", "address = 4"), 5, "codec refused: OutOfRange codec at top")
    nodes = "".join(f"[[codec.node]]\nnid = {nid}\ncaps = 0x00F00000\n" for nid in range(2, 128))
    head = "[[codec]]\naddress = 0\nvendor = 1\n"
    routed(head + nodes, 8, "nothing routed")
    routed(head + nodes + "[[codec.node]]\nnid = 1\ncaps = 0\n", 5, "codec refused: OutOfRange node at codec 0")
    pin = "[[codec.node]]\nnid = {}\ncaps = 0x0040010D\npin_caps = 0x10\ndefault = 0x01014010\nlist = [2]\n"
    pins = [pin.format(nid) for nid in range(3, 20)]
    converter = "[[codec.node]]\nnid = 2\ncaps = 1\n"
    routed(head + converter + "".join(pins[:16]), 0, "route 0 12 pair 0 via 12.0 02")
    routed(head + converter + "".join(pins), 5, "codec refused: TooManyPins")
    long_list = CODEC.replace("list = [0x0C]", "long = true\nlist = [{}]")
    routed(long_list.format(0x0C), 0, route)
    routed(long_list.format(0x7FFF), 5, "codec refused: Beyond at 0/14")
    routed(long_list.format(65_536), 5, "codec refused: OutOfRange list at codec 0 node 2")
    gains = CODEC.replace("list = [0x02, 0x0B]", "list = [0x02, 0x0B]\ngain_in = [{}]")
    routed(gains.format("0," * 16), 0, route)
    routed(gains.format("0," * 17), 5, "codec refused: OutOfRange gain_in at codec 0 node 1")
    routed(gains.format("256"), 5, "codec refused: OutOfRange gain_in at codec 0 node 1")
    return cases
