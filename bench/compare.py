#!/usr/bin/env python3
"""Runs `pppd replay` and the plain Rust model in bench/model on random scripts, and compares output and status.

Run by hand at the top of the repository, after the program was built:

    bench/compare.py [PROGRAM [CASES [FIRST_SEED]]]
"""
import subprocess
import sys
import tempfile

sys.dont_write_bytecode = True
import ratio
import scripts


def run(program, octets):
    done = subprocess.run([program, "replay"], input=octets, stdout=subprocess.PIPE)
    return done.returncode, done.stdout


def main():
    program = sys.argv[1] if len(sys.argv) > 1 else "crates/pppd/out/pppd"
    cases = int(sys.argv[2]) if len(sys.argv) > 2 else 2_000
    first = int(sys.argv[3]) if len(sys.argv) > 3 else 0
    statuses, opened, wrong = {}, 0, []
    with tempfile.TemporaryDirectory() as room:
        model = ratio.built_model(room)
        for seed in range(first, first + cases):
            octets = scripts.random_script(seed)
            ours, theirs = run(program, octets), run(model, octets)
            statuses[ours[0]] = statuses.get(ours[0], 0) + 1
            opened += b"agree yes" in ours[1]
            if ours != theirs:
                wrong.append(seed)
    print(f"{cases} cases, statuses {dict(sorted(statuses.items()))}, {opened} with both ends Opened at a show")
    print(f"{len(wrong)} differ" + (f", the first with seed {wrong[0]}" if wrong else ""))
    return 1 if wrong else 0


if __name__ == "__main__":
    sys.exit(main())
