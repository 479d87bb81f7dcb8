#!/usr/bin/env python3
"""Times `encode` and `feed` of ppp_frame against a plain loop in C with one table, and prints the table of ratios.

Run by hand at the top of the repository; it needs gcc, and proves and builds main.rt.in as a program over copies of the crates:

    bench/frame/run.py [ROOM [ROUNDS]]

ROOM is a folder that keeps the built program; without one it is made anew. What a run takes that only prepares is taken off.
The numbers are processor time, the least of the rounds, the two programs by turns. The rounds are many and short, so that some
fall into moments when a machine that is shared is quiet."""
import os
import resource
import shutil
import subprocess
import sys
import tempfile

HERE = os.path.dirname(os.path.abspath(__file__))
TOP = os.path.dirname(os.path.dirname(HERE))
KINDS = [("random", 1500), ("random", 64), ("zeros", 1500)]
MAPS = [0, 0xFFFFFFFF]
FRAMES = 64
OCTETS = 25_000_000
CRATES = "ppp_memory: thiserror\nppp_frame: ppp_memory memchr thiserror\nframe_bench: ppp_frame anyhow\n"


def built(room):
    plain = os.path.join(room, "plain")
    subprocess.run(["gcc", "-O2", "-o", plain, os.path.join(HERE, "plain.c")], check=True)
    crates = os.path.join(room, "crates")
    os.makedirs(os.path.join(crates, "frame_bench", "src"), exist_ok=True)
    for name in ["ppp_memory", "ppp_frame"]:
        for part in ["src", "specs", "proofs"]:
            source, copy = os.path.join(TOP, "crates", name, part), os.path.join(crates, name, part)
            shutil.rmtree(copy, ignore_errors=True)
            if os.path.exists(source):
                shutil.copytree(source, copy)
    shutil.copy(os.path.join(HERE, "main.rt.in"), os.path.join(crates, "frame_bench", "src", "main.rt"))
    with open(os.path.join(room, "crates.txt"), "w", encoding="utf-8") as file:
        file.write(CRATES)
    if not os.path.exists(os.path.join(room, ".git")):
        subprocess.run(["git", "init", "-q", room], check=True)
    folder = os.path.join(crates, "frame_bench")
    subprocess.run(["rt", "run", "--", "none", "0", "zeros", "64", "1"], cwd=folder, check=True, stdout=subprocess.DEVNULL)
    return [os.path.join(folder, "out", "frame_bench"), plain]


def seconds(program, words):
    before = resource.getrusage(resource.RUSAGE_CHILDREN).ru_utime
    done = subprocess.run([program, *map(str, words)], check=True, stdout=subprocess.PIPE)
    return resource.getrusage(resource.RUSAGE_CHILDREN).ru_utime - before, done.stdout


def main():
    room = sys.argv[1] if len(sys.argv) > 1 else tempfile.mkdtemp()
    rounds = int(sys.argv[2]) if len(sys.argv) > 2 else 20
    pair = built(room)
    print("| Information | Map | Work | Program, MB/s | Plain, MB/s | Ratio |\n|---|---|---|---|---|---|")
    for kind, size in KINDS:
        times = OCTETS // (size * FRAMES)
        for octet_map in MAPS:
            for work in ["encode", "feed"]:
                least = [None, None]
                for _ in range(rounds):
                    took = []
                    for each in pair:
                        idle, _ = seconds(each, ["none", octet_map, kind, size, times])
                        busy, seen = seconds(each, [work, octet_map, kind, size, times])
                        took.append((busy - idle, seen))
                    assert took[0][1] == took[1][1], (kind, size, octet_map, work)
                    least = [now if old is None else min(old, now) for old, (now, _) in zip(least, took)]
                ours, plain = (size * FRAMES * times / 1e6 / max(each, 1e-9) for each in least)
                print(f"| {kind}, {size} | {octet_map:08x} | {work} | {ours:,.0f} | {plain:,.0f} | {ours / plain:.2f} |", flush=True)


if __name__ == "__main__":
    main()
