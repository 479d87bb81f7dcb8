#!/usr/bin/env python3
"""Counts instructions a step of `pppd replay` and of the plain Rust model in bench/model, by callgrind.

Run by hand at the top of the repository, after the program was built; it needs rustc and valgrind:

    bench/ratio.py [PROGRAM [LOAD..]]

What an empty script takes is taken off. With a load's name (in quotes) it measures that one alone."""
import os
import subprocess
import sys
import tempfile

sys.dont_write_bytecode = True
import scripts

HERE = os.path.dirname(os.path.abspath(__file__))


def built_model(room):
    model = os.path.join(room, "model")
    source = os.path.join(HERE, "model", "main.rs")
    subprocess.run(["rustc", "-O", "--edition", "2024", "-o", model, source], check=True)
    return model


def instructions(program, octets, room):
    counts = os.path.join(room, "callgrind.out")
    words = ["valgrind", "--tool=callgrind", f"--callgrind-out-file={counts}", program, "replay"]
    done = subprocess.run(words, input=octets, stdout=subprocess.PIPE, stderr=subprocess.PIPE)
    with open(counts, encoding="utf-8") as lines:
        total = next(int(line.split()[1]) for line in lines if line.startswith(("summary:", "totals:")))
    return total, done.returncode, done.stdout


def main():
    program = sys.argv[1] if len(sys.argv) > 1 else "crates/pppd/out/pppd"
    wanted = sys.argv[2:] or list(scripts.LOADS)
    with tempfile.TemporaryDirectory() as room:
        pair = [program, built_model(room)]
        bare = [instructions(each, scripts.HEAD.encode(), room)[0] for each in pair]
        print("| Load | Steps | Program | Model | Ratio |\n|---|---|---|---|---|")
        for name in wanted:
            lines = scripts.LOADS[name]() + ["show"]
            steps = scripts.steps_of(lines)
            told = [instructions(each, scripts.text(lines), room) for each in pair]
            assert told[0][1:] == told[1][1:] and told[0][1] == 0, (name, told[0][1:], told[1][1:])
            ours, model = ((one[0] - start) / steps for one, start in zip(told, bare))
            print(f"| {name} | {steps:,} | {ours:,.0f} | {model:,.0f} | {ours / model:.2f} |", flush=True)
        print(f"\nAn empty script: {bare[0]:,} and {bare[1]:,} instructions.")


if __name__ == "__main__":
    main()
