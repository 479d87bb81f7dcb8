#!/usr/bin/env python3
"""Times `pppd replay` on scripts of 1,000, 10,000 and 100,000 steps on one link.

Run by hand at the top of the repository, after the program was built (`rt run` in crates/pppd):

    bench/replay.py [PROGRAM]

A script opens LCP at both ends and then takes end a's line down and up again and negotiates anew, over and over."""
import os
import subprocess
import sys
import time

OPENING = ["up a 1", "open a 1 lcp", "up b 1", "open b 1 lcp", "deliver b 1", "deliver a 1", "deliver a 1", "deliver b 1"]
ROUND = ["down a 1", "up a 1", "settle 4"]
ROUND_STEPS = 6
SIZES = [1_000, 10_000, 100_000]
RUNS = 5


def script(steps):
    rounds = (steps - len(OPENING) - 1) // ROUND_STEPS
    shows = steps - len(OPENING) - rounds * ROUND_STEPS
    lines = OPENING + ROUND * rounds + ["show"] * shows
    return ("version = 1\n---\n" + "\n".join(lines) + "\n").encode()


def main():
    program = sys.argv[1] if len(sys.argv) > 1 else "crates/pppd/out/pppd"
    print(f"{os.cpu_count()} cores")
    for steps in SIZES:
        text = script(steps)
        seconds = []
        for _ in range(RUNS):
            begun = time.perf_counter()
            done = subprocess.run([program, "replay"], input=text, stdout=subprocess.PIPE, check=True)
            seconds.append(time.perf_counter() - begun)
            assert done.stdout.endswith(b"agree yes\n"), done.stdout[-200:]
        best = min(seconds)
        print(f"{steps:>7} steps  {best:8.4f} s  {steps / best:12,.0f} steps a second")


if __name__ == "__main__":
    main()
