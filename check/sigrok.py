#!/usr/bin/env python3
"""Frames as another decoder reads them: runs plans of random frames, and has sigrok's decoder `can` read the line.

usage: sigrok.py PROGRAM [--count N] [--seed S]     10 plans of seed 1 by default; needs sigrok-cli with its decoders; sigrok.sh installs it

The line is drawn from `records`, one sample a quantum, and each frame that the decoder finds is compared with the report: format, identifier,
kind, data length code, bytes, CRC sequence, acknowledgement. Left out is what the decoder doesn't know: remote frames of a DLC above 0, and a DLC
above 8. It asks no CRC sequence whether it is right, so it is compared with that of plain.py.
"""
import random
import re
import subprocess
import sys
import tempfile

sys.dont_write_bytecode = True
import plain
from tally import options_of

FRAMES, BITS = 30, 6_000
QUANTUM, QUANTA_OF_A_BIT = 100, 10
NODE = "offset = 0\nnum = 100\nden = 1\nprop = 3\nps1 = 3\nps2 = 3\nsjw = 2\nx = 0\nout = 0\nin = 1\n"


def random_plan(rng):
    lines = [f'version = 1\nend = {BITS * QUANTA_OF_A_BIT * QUANTUM}\nper = 1\n[[node]]\nname = "a"\n{NODE}']
    for _ in range(FRAMES):
        extended, remote = rng.random() < 0.5, rng.random() < 0.2
        number = rng.choice([0, 2**29 - 1, rng.randrange(2**29)]) >> (0 if extended else 18)
        size = 0 if remote else rng.randint(0, 8)
        data = rng.choice([[0] * size, [255] * size, [rng.randrange(256) for _ in range(size)]])
        lines.append(f"[[node.frame]]\nid = {number}\ndlc = {size}\nbytes = {data}\nremote = {str(remote).lower()}\nextended = {str(extended).lower()}\n")
    return "".join(lines) + f'[[node]]\nname = "b"\n{NODE}'


def asked(program, command, plan):
    return subprocess.run([program, command], input=plan, text=True, capture_output=True, check=True).stdout


def line_of(records):
    """One byte a quantum: 1 recessive, 0 where some node drives dominant. Both nodes stand at one place."""
    changes = [[], []]
    for words in map(str.split, records.splitlines()):
        if words[0] == "E": changes[int(words[1])].append(int(words[3]) // QUANTUM)
    line = bytearray(b"\1" * (BITS * QUANTA_OF_A_BIT))
    for ticks in changes:
        for start, end in zip(ticks[0::2], ticks[1::2] + [len(line)]): line[start:end] = bytes(end - start)
    return bytes(line)


def sent_frames(report):
    for words in map(str.split, report.splitlines()):
        if words[:3] != ["frame", "0", "sent"]: continue
        frame = plain.Frame(int(words[4], 16), words[5] == "remote", int(words[6]), bytes.fromhex(words[7].strip("-")), len(words[4]) == 8)
        yield frame, plain.number_of(frame.bits()[-15:])


def read_frames(line):
    """The frames in what the decoder says of a line, with their CRC sequences."""
    with tempfile.NamedTemporaryFile(suffix=".bin") as file:
        file.write(line), file.flush()
        done = subprocess.run(["sigrok-cli", "-i", file.name, "-I", f"binary:numchannels=1:samplerate={10**6 * QUANTA_OF_A_BIT}", "-P",
                               "can:can_rx=0:nominal_bitrate=1000000:sample_point=70"], capture_output=True, text=True, check=True)
    yield from said_frames(done.stdout)


def said_frames(annotations):
    """The acknowledged frames in the decoder's annotations, each with its CRC sequence."""
    said = {}
    for text in re.findall("can-1: (.*)", annotations):
        word, _, value = text.strip('"').partition(": ")
        if word == "Start of frame": said = {"data": b""}
        if word.startswith("Data byte"): said["data"] += bytes([int(value, 16)])
        if word == "End of frame" and said.get("ACK slot") == "ACK":
            extended = "Full Identifier" in said
            number = said["Full Identifier" if extended else "Identifier"].split()[0]
            remote = said["Remote transmission request"] == "remote frame"
            yield plain.Frame(int(number), remote, int(said["Data length code"]), said["data"], extended), int(said["CRC-15 sequence"], 16)
        said[word] = value


def main():
    program, *words = sys.argv[1:]
    options = options_of(__doc__, words, {"count": "10", "seed": "1"})
    seed, plans = int(options["seed"]), int(options["count"])
    base = extended = 0
    for number in range(plans):
        plan = random_plan(random.Random(f"{seed} {number}"))
        sent, read = list(sent_frames(asked(program, "run", plan))), list(read_frames(line_of(asked(program, "records", plan))))
        if sent != read or len(sent) < FRAMES:
            wrong = next((pair for pair in zip(sent, read) if pair[0] != pair[1]), (len(sent), len(read)))
            sys.exit(f"plan {number} of seed {seed} differs: {wrong}")
        extended += sum(frame.extended for frame, _ in sent)
        base += sum(not frame.extended for frame, _ in sent)
    print(f"{plans} plans: sigrok reads {base} base and {extended} extended frames as the report says")


if __name__ == "__main__":
    main()
