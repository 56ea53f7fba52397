#!/usr/bin/env python3
"""Times chreplay: lines and messages a second, peak memory, and the time of each against the smallest journal.

    bench/run.py [PROGRAM]                default: crates/chreplay/out/chreplay
    bench/run.py --journal KIND COUNT     prints a journal: KIND is lines (of one node, so many), size (of one node,
                                          at most so many bytes), or pieces, bytes or all (so many messages)

Build the program first, as the README says. Three kinds of journals:

- one node: 100 processes that send to each other; each message is taken soon after it was sent, so that no mailbox
  holds more than 100;
- two nodes on one socket: a process of one sends to a process of the other, and what was written is fed in pieces of
  4,096 bytes (`pieces`) or of one byte (`bytes`); nothing is taken;
- all to all: 20 nodes on 10 hosts, a process on each, and random pairs of them; each message is fed once it was sent
  (`all`).

What is measured as peak memory is never less than what this script itself has, which is printed first.
"""
import itertools
import os
import random
import subprocess
import sys
import tempfile
import time

LONGEST = 16_777_216
PROCESSES = 100
NODES = 20
# What an item of one byte of mark and an empty body takes on a socket.
MESSAGE = 10


def text_of(lines):
    return "".join(line + "\n" for line in lines).encode()


def one_node(lines=None, size=None):
    """A journal of so many lines, or of at most so many bytes."""
    rng = random.Random(1)
    texts = ["chjournal 1", "node a 10.0.0.1:9000:0 1"] + ["proc a"] * PROCESSES
    total = sum(len(text) + 1 for text in texts)
    while lines is None or len(texts) < lines:
        sender, receiver = rng.randrange(PROCESSES), rng.randrange(PROCESSES)
        pair = [f"send a.{sender} a.{receiver} t {rng.randrange(65536):04x}", f"recv a.{receiver} t"]
        total += sum(len(text) + 1 for text in pair)
        if size is not None and total > size:
            break
        texts += pair
    return text_of(texts)


def brought_up(opener, target):
    """The lines after which a link is up at both ends, from the first message on, which is read too."""
    sock = f"{opener}>{target}.0"
    return [f"send {opener}.0 {target}.0 t -", f"join {sock}", f"come {sock}"] + [
        f"feed {sock} {end} 4096" for end in "tot"]


def two_nodes(messages, piece):
    """A journal of two nodes and so many messages, fed in pieces of so many bytes."""
    texts = ["chjournal 1", "node a h:1:0 1", "node b i:1:0 2", "proc a", "proc b"] + brought_up("a", "b")
    written = fed = 0
    for _ in range(messages - 1):
        texts.append("send a.0 b.0 t -")
        written += MESSAGE
        while written - fed >= piece:
            texts.append(f"feed a>b.0 t {piece}")
            fed += piece
    if fed < written:
        texts.append(f"feed a>b.0 t {piece}")
    return text_of(texts)


def all_to_all(messages):
    """A journal of nodes that all talk to all."""
    rng = random.Random(1)
    names = [chr(ord("a") + number) for number in range(NODES)]
    texts = ["chjournal 1"]
    texts += [f"node {name} h{number // 2}:9000:{number % 2} {number}" for number, name in enumerate(names)]
    texts += [f"proc {name}" for name in names]
    pairs = list(itertools.combinations(names, 2))
    for opener, target in pairs:
        texts += brought_up(opener, target)
    for _ in range(messages - len(pairs)):
        opener, target = rng.choice(pairs)
        sender, receiver, end = rng.choice([(opener, target, "t"), (target, opener, "o")])
        texts += [f"send {sender}.0 {receiver}.0 t -", f"feed {opener}>{target}.0 {end} 4096"]
    return text_of(texts)


KINDS = {
    "lines": lambda count: one_node(lines=count),
    "size": lambda count: one_node(size=count),
    "pieces": lambda count: two_nodes(count, 4096),
    "bytes": lambda count: two_nodes(count, 1),
    "all": all_to_all,
}


def made(folder, kind, count):
    """The path of such a journal. A process of its own makes it, so that this one stays small."""
    path = os.path.join(folder, f"{kind}-{count}.journal")
    with open(path, "wb") as file:
        subprocess.run([sys.executable, os.path.abspath(__file__), "--journal", kind, str(count)], stdout=file, check=True)
    return path


def run(program, path):
    """Seconds, and the peak memory in bytes."""
    with open(path, "rb") as journal:
        start = time.monotonic()
        child = subprocess.Popen([program, "run"], stdin=journal, stdout=subprocess.DEVNULL)
        _, status, usage = os.wait4(child.pid, 0)
        seconds = time.monotonic() - start
    assert os.waitstatus_to_exitcode(status) == 0
    return seconds, usage.ru_maxrss * 1024


def count_lines(path):
    """How many lines a journal has."""
    with open(path, "rb") as journal:
        return sum(1 for _ in journal)


def count_got(program, path):
    """How many messages the log tells as got."""
    with open(path, "rb") as journal, subprocess.Popen([program, "run"], stdin=journal, stdout=subprocess.PIPE) as child:
        return sum(line.startswith(b"got ") for line in child.stdout)


def table(program, title, unit, rows):
    """A table of journals, each with its count of what is measured by."""
    print(f"\n| {title} | bytes | seconds | {unit}s a second | time a {unit} against the smallest | peak memory | against the journal |")
    print("|---|---|---|---|---|---|---|")
    first = None
    for count, path in rows:
        size = os.path.getsize(path)
        assert size <= LONGEST
        seconds, peak = min(run(program, path) for _ in range(3))
        each = seconds / count
        first = first or each
        print(f"| {count:,} | {size:,} | {seconds:.2f} | {count / seconds:,.0f} | {each / first:.2f} | {peak / 2**20:.0f} MiB | {peak / size:.1f} |", flush=True)


def main():
    if sys.argv[1:2] == ["--journal"]:
        sys.stdout.buffer.write(KINDS[sys.argv[2]](int(sys.argv[3])))
        return
    program = sys.argv[1] if len(sys.argv) > 1 else "crates/chreplay/out/chreplay"
    with tempfile.TemporaryDirectory() as folder:
        least = os.path.join(folder, "least.journal")
        with open(least, "wb") as file:
            file.write(b"chjournal 1\n")
        _, floor = run(program, least)
        print(f"least that is measured as peak memory: {floor / 2**20:.0f} MiB")
        journals = [made(folder, kind, count) for kind, count in (("lines", 10_000), ("lines", 100_000), ("size", LONGEST))]
        table(program, "lines of one node", "line", [(count_lines(path), path) for path in journals])
        for kind, title in (("pieces", "messages of two nodes in pieces of 4,096 bytes"),
                            ("bytes", "messages of two nodes in pieces of one byte"),
                            ("all", "messages of 20 nodes")):
            rows = [(messages, made(folder, kind, messages)) for messages in (10_000, 100_000)]
            for messages, path in rows:
                assert count_got(program, path) == messages
            table(program, title, "message", rows)


if __name__ == "__main__":
    main()
