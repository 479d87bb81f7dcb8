#!/usr/bin/env python3
"""Tries the wrong bodies in wrong-bodies/NAME/*.edit: each has to be refused by the proof of its crate.

Run by hand at the top of the repository, for the crates that are named, or for all:

    tools/wrong_bodies.py [NAME..]

They are edits as those in crates/NAME/must-fail, which the gate tries; the gate doesn't try these. They are tried in a
copy of the repository, so its own proofs stay as they are. Ends with 1 where one isn't refused or is bad."""
import collections
import pathlib
import re
import shutil
import subprocess
import sys
import tempfile

TOLD = re.compile(r"^(?:rt: )?(?:must-fail )?(?P<edit>\w+/\w+\.edit): (?P<what>.*)$")
OUTCOMES = {"refused, as it must be": "refused", "NOT REFUSED": "not refused", "BAD EDIT": "bad", "NOT TRIED": "not tried"}


def copied(top, room):
    """A copy of the repository without what rt made, with the wrong bodies in the place of the gate's edits."""
    shutil.copytree(top, room, ignore=shutil.ignore_patterns("out", ".git"), dirs_exist_ok=True)
    for gate_edits in room.glob("crates/*/must-fail"):
        shutil.rmtree(gate_edits)
    for bodies in (room / "wrong-bodies").iterdir():
        shutil.move(bodies, room / "crates" / bodies.name / "must-fail")


def outcome(what):
    return next((name for start, name in OUTCOMES.items() if what.startswith(start)), None)


def main():
    top = pathlib.Path(__file__).resolve().parent.parent
    there = {bodies.name: {f"{bodies.name}/{edit.name}" for edit in bodies.glob("*.edit")}
             for bodies in (top / "wrong-bodies").iterdir()}
    names = sys.argv[1:] or sorted(there)
    if unknown := [name for name in names if name not in there]:
        sys.exit(f"no wrong bodies of {', '.join(unknown)}")
    tried = {}
    with tempfile.TemporaryDirectory() as folder:
        room = pathlib.Path(folder)
        copied(top, room)
        with subprocess.Popen(["rt", "must-fail", *names], cwd=room, text=True,
                              stdout=subprocess.PIPE, stderr=subprocess.STDOUT) as run:
            for line in run.stdout:
                if (told := TOLD.match(line)) and (name := outcome(told["what"])):
                    tried[told["edit"]] = name
                    print(f"{told['edit']}: {name}", flush=True)
    for edit in sorted(set().union(*(there[name] for name in names)) - set(tried)):
        tried[edit] = "not tried"
        print(f"{edit}: not tried")
    counts = collections.Counter(tried.values())
    print(", ".join(f"{counts[name]} {name}" for name in OUTCOMES.values()))
    sys.exit(counts["refused"] != len(tried))


if __name__ == "__main__":
    main()
