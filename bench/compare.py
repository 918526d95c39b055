#!/usr/bin/env python3
"""Measures hda_play beside the plain program of this folder.

    bench/compare.py PROGRAM [CASE ..]

PROGRAM is the built program, as `./prove` leaves it. The script builds the plain program with rustc, makes the inputs
in a folder of its own, looks that both write the same text, and then runs both in turns with the text to /dev/null. It
prints the least processor time and the greatest memory of the runs of each, and the ratios beside the goals. Python 3.8
or later, Linux.
"""
import hashlib
import os
import pathlib
import random
import struct
import subprocess
import sys
import tempfile

RUNS = 5
HERE = pathlib.Path(__file__).resolve().parent
RESET = "run 0\nlink 25\nrun 0\n"
PIN = "caps = 0x40010D, amp_out = 0x80000000, pin_caps = 0x10"


def codec(address, nodes, more=""):
    """A codec's tables, with a line for each widget."""
    lines = "".join(f"    {{{node}}},\n" for node in nodes)
    return f"[[codec]]\naddress = {address}\nvendor = 0x10EC0889\n{more}node = [\n{lines}]\n"


def pins(first, count, targets):
    """Pins of one association, each with a list of all targets."""
    listed = ", ".join(f"0x{nid:02X}" for nid in targets)
    return [
        f"nid = 0x{first + n:02X}, {PIN}, default = 0x{0x01014010 + n:08X}, list = [{listed}]"
        for n in range(count)
    ]


def direct(count, pcm):
    """A converter that so many pins list."""
    return codec(0, ["nid = 0x02, caps = 0x1"] + pins(0x10, count, [2]), f"pcm = 0x{pcm:08X}\n")


def microphone(pcm):
    """A converter that lists one input pin. Its set-up takes 37 commands."""
    converter = f"nid = 0x08, caps = 0x100111, formats = 1, pcm = 0x{pcm:08X}, list = [0x18]"
    return codec(0, [converter, "nid = 0x18, caps = 0x400001, pin_caps = 0x20, default = 0x01A19030"])


def by_pairs(count, pcm):
    """Four converters that so many pins list, which take the pairs of eight channels in turn."""
    nodes = [f"nid = 0x{nid:02X}, caps = 0x1" for nid in (2, 3, 4, 5)]
    return codec(0, nodes + pins(0x10, count, (2, 3, 4, 5)), f"pcm = 0x{pcm:08X}\n")


def layers(address, width, depth, count, length, long):
    """Selectors in layers: each lists those of the next layer again and again, the last ones the converter."""
    nodes = ["nid = 0x02, caps = 0x1"]
    at = [[3 + layer * width + n for n in range(width)] for layer in range(depth)] + [[2]]
    for layer in range(depth):
        for nid in at[layer]:
            entries = ", ".join(f"0x{at[layer + 1][n % len(at[layer + 1])]:02X}" for n in range(length))
            form = "true" if long else "false"
            nodes.append(f"nid = 0x{nid:02X}, caps = 0x300101, long = {form}, list = [{entries}]")
    return codec(address, nodes + pins(3 + width * depth, count, at[0]))


def sound(rate, frames, channels=2, bits=16):
    """A WAV file."""
    frame = channels * bits // 8
    data = random.Random(frames).getrandbits(8 * frame * frames).to_bytes(frame * frames, "little")
    head = struct.pack("<4sI4s", b"RIFF", 36 + len(data), b"WAVE")
    form = struct.pack("<4sIHHIIHH", b"fmt ", 16, 1, channels, rate, frame * rate, frame, bits)
    return head + form + struct.pack("<4sI", b"data", len(data)) + data


def set_up(commands, addresses=(0,)):
    """Turns that send so many commands and have them answered."""
    answers = "".join(f"answer {address}\n" for address in addresses)
    return RESET + f"repeat {commands + 1}\nrun 0\ncorb\n{answers}rirb\nend\n"


def playing(commands, turns, turn):
    return set_up(commands) + f"repeat {turns}\nrun 4294967295\n{turn}end\nrun 0\n"


def make(folder):
    """The cases: a name, the words, and the goals for time and memory."""
    def put(name, data):
        path = folder / name
        path.write_bytes(data if isinstance(data, bytes) else data.encode())
        return str(path)

    wide_48 = put("sixteen_48.toml", direct(16, 0x00020040))
    wide_192 = put("sixteen_192.toml", direct(16, 0x00020440))
    one = put("one.toml", direct(1, 0x00020040))
    cases = {}

    def add(name, words, time, memory):
        cases[name] = (words, time, memory)

    add("start", [], 1.0, None)
    add("make", ["make", "65535"], 3.0, None)
    many = plain_commands(wide_48, folder)
    few = plain_commands(one, folder)
    frames = 1_990_000
    add("play_48", ["play", wide_48, put("48.wav", sound(48_000, frames - 25)),
        put("48.txt", playing(many, frames // 48, "fetch 1 192\nlink 48\n"))], 2.0, 4.0)
    add("play_192", ["play", wide_192, put("192.wav", sound(192_000, 4 * frames - 100)),
        put("192.txt", playing(many, frames // 12, "fetch 1 192\nlink 12\n"))], 2.0, 4.0)
    two_32 = put("two_32.toml", "fifo = 384\n" + direct(16, 0x00120440))
    eight_32 = put("eight_32.toml", "fifo = 1536\n" + by_pairs(16, 0x00120440))
    add("play_32", ["play", two_32, put("two_32.wav", sound(192_000, frames - 100, 2, 32)),
        put("two_32.txt", playing(plain_commands(two_32, folder), frames // 48, "fetch 1 384\nlink 12\n"))], 2.0, 4.0)
    # for eight channels three converters more are on routes, and get a word more each
    turns = playing(plain_commands(eight_32, folder) + 3, frames // 48, "fetch 1 1536\nlink 12\n")
    add("play_wide", ["play", eight_32, put("eight_32.wav", sound(192_000, frames - 100, 8, 32)),
        put("eight_32.txt", turns)], 2.0, 4.0)
    heard = put("microphone.toml", microphone(0x00020040))
    add("capture", ["capture", heard, put("given.wav", sound(48_000, frames - 100)),
        put("capture.txt", set_up(37) + f"repeat {frames // 48}\nrun 0\nlink 48\nfetch 0 192\nend\nrun 0\n")], 1.5, 1.25)
    add("steps", ["play", one, put("steps.wav", sound(48_000, 490_000)),
        put("steps.txt", playing(few, 10_290, "fetch 1 4\nlink 1\n" * 48))], 1.3, None)
    add("runs", ["play", one, put("runs.wav", sound(48_000, 665_000)),
        put("runs.txt", set_up(few) + "repeat 332900\nrun 8\nfetch 1 8\nlink 2\nend\n"
            + "repeat 60\nrun 8\nfetch 1 192\nlink 48\nend\nrun 0\n")], 1.3, None)
    four = put("four.toml", "".join(layers(address, 20, 3, 4, 64, True) for address in (0, 1, 2, 3)))
    wanted = plain_commands(four, folder, (0, 1, 2, 3))
    add("walk", ["walk", four, put("walk.txt", set_up(wanted, (0, 1, 2, 3)))], 1.5, None)
    for width, depth in ((2, 54), (27, 4)):
        name = f"route_{width}x{depth}"
        add(name, ["route", put(name + ".toml", layers(0, width, depth, 14, 64 if width > 2 else 2, False))], 1.5, None)
    text = "".join(layers(address, 20, 5, 4, 64, True) for address in (0, 1, 2, 3))
    add("route_large", ["route", put("large.toml", text + "#" * (262_144 - len(text)))], 1.5, None)
    return cases


def plain_commands(machine, folder, addresses=(0,)):
    """How many commands a machine wants, as the plain program's walk says."""
    schedule = folder / "count.txt"
    schedule.write_text(set_up(20_000, addresses))
    told = subprocess.run([str(folder / "plain"), "walk", machine, str(schedule)], capture_output=True, check=True)
    last = told.stdout.decode().splitlines()[-1].split()
    assert last[:2] == ["set", "up"], last
    return int(last[2])


def run(measure, words):
    """Runs a program: its processor time in seconds, and its memory in megabytes."""
    told = subprocess.run([measure, *words], capture_output=True, check=True).stdout.split()
    return float(told[1]), int(told[2]) / 1024


def text_of(words):
    """The status of a program, and a checksum and the length of its text."""
    sums = hashlib.sha256()
    length = 0
    with subprocess.Popen(words, stdout=subprocess.PIPE) as child:
        for piece in iter(lambda: child.stdout.read(1 << 20), b""):
            sums.update(piece)
            length += len(piece)
    return child.returncode, sums.hexdigest(), length


def compare(name, case, measure, here, plain):
    words, time_goal, memory_goal = case
    if words:
        ours, theirs = text_of([here, *words]), text_of([plain, *words])
        if ours != theirs:
            print(f"{name}: the texts differ: {ours} and {theirs}")
            return False
        length = f"text of {ours[2] / 1e6:.1f} MB"
    else:
        length = "no text"
    least = {here: [float("inf"), 0.0], plain: [float("inf"), 0.0]}
    for _ in range(RUNS):
        for program, figures in least.items():
            time, memory = run(measure, [program, *words])
            figures[0] = min(figures[0], time)
            figures[1] = max(figures[1], memory)
    (time, memory), (plain_time, plain_memory) = least[here], least[plain]
    ratio = time / max(plain_time, 0.0001)
    more = memory / plain_memory
    goals = f"goal {time_goal}" + (f", memory {memory_goal}" if memory_goal else "")
    print(f"{name}: {time:.3f} s and {memory:.0f} MB, plain {plain_time:.3f} s and {plain_memory:.0f} MB, "
          f"ratios {ratio:.2f} and {more:.1f} ({goals}), {length}", flush=True)
    return True


def main():
    if len(sys.argv) < 2:
        print(__doc__)
        return 2
    here = str(pathlib.Path(sys.argv[1]).resolve())
    with tempfile.TemporaryDirectory() as name:
        folder = pathlib.Path(name)
        plain, measure = str(folder / "plain"), str(folder / "measure")
        for built, source in ((plain, "plain/main.rs"), (measure, "measure.rs")):
            words = ["rustc", "--edition", "2021", "-C", "opt-level=3", "-o", built, str(HERE / source)]
            subprocess.run(words, check=True)
        cases = make(folder)
        wanted = sys.argv[2:] or list(cases)
        same = [compare(case, cases[case], measure, here, plain) for case in wanted]
    return 0 if all(same) else 1


if __name__ == "__main__":
    sys.exit(main())
