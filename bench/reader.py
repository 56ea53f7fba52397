#!/usr/bin/env python3
"""How many bytes the reader takes in a second of processor time, by the size of frames and of pieces.

First prove and build the program: `rt run` in crates/reader_bench. Then `bench/reader.py [MIB]`
makes 256 MiB (or MIB) of frames of 64 and of 60,000 bytes, feeds them in pieces of 1, 64, 4,096 and
65,536 bytes, and prints a line for each, and for each size of frames the ratio of the fastest to the
slowest for pieces from 64 up. What making the frames takes is left out: it is the time of feeding
them several times less that of feeding them once. Each of the two is the least of five runs, as other
work on the machine only adds to it; pieces of 1, which take long, are run once. It ends with status
1 where a ratio is over 4.
"""
import pathlib
import resource
import subprocess
import sys

PROGRAM = pathlib.Path(__file__).resolve().parent.parent / "crates/reader_bench/out/reader_bench"
FRAMES = (64, 60_000)
PIECES = (1, 64, 4_096, 65_536)
MOST_RATIO = 4


def processor_seconds():
    used = resource.getrusage(resource.RUSAGE_CHILDREN)
    return used.ru_utime + used.ru_stime


def run(words):
    """The bytes that one run fed, and its processor time."""
    began = processor_seconds()
    done = subprocess.run([PROGRAM, *map(str, words)], check=True, capture_output=True, text=True)
    return int(done.stdout.split()[0]), processor_seconds() - began


def least(runs, *words):
    """The bytes that each of the runs fed, and the least of their processor times."""
    found = [run(words) for _ in range(runs)]
    return found[0][0], min(seconds for _, seconds in found)


def rate(frame, piece, kib):
    """The bytes that are fed for each second of processor time."""
    runs, times = (1, 2) if piece == 1 else (5, 5)
    once, seconds_once = least(runs, frame, piece, kib, 1)
    often, seconds_often = least(runs, frame, piece, kib, times)
    return (often - once) / (seconds_often - seconds_once)


def main():
    kib = int(sys.argv[1]) * 1024 if len(sys.argv) > 1 else 256 * 1024
    too_slow = False
    for frame in FRAMES:
        rates = {}
        for piece in PIECES:
            rates[piece] = rate(frame, piece, kib)
            print(f"frames of {frame} bytes, pieces of {piece}: {rates[piece] / 1e6:.0f} MB/s", flush=True)
        large = [found for piece, found in rates.items() if piece >= 64]
        ratio = max(large) / min(large)
        too_slow = too_slow or ratio > MOST_RATIO
        print(f"frames of {frame} bytes: fastest to slowest {ratio:.2f}, for pieces from 64 up", flush=True)
    sys.exit(1 if too_slow else 0)


if __name__ == "__main__":
    main()
