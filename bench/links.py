#!/usr/bin/env python3
"""Times `pppd replay` on one link and on 16, with every network protocol, and measures the memory that it takes.

Run by hand at the top of the repository, after the program was built (`rt run` in crates/pppd); it needs /usr/bin/time:

    bench/links.py [PROGRAM]

Each load opens LCP and the network protocols on its links and then does its rounds over and over, for 10,000 and for 100,000
steps; after each round all are Opened again. What the opening alone takes is taken off, so that linear growth shows as two equal
times of a step. The times are the best of five runs, the memory is the largest resident set.

    bench/links.py --write FOLDER STEPS

writes the scripts of about so many steps, for `rt try --cases FOLDER -- replay` in crates/pppd. BACP is missing, since its
settings want multilink, which isn't built."""
import os
import subprocess
import sys
import tempfile
import time

sys.dont_write_bytecode = True
import scripts

PROTOCOLS = ["ip", "ipv6", "osi", "mpls"]
SIZES = [10_000, 100_000]
RUNS = 5
# Deliveries until a link is Opened again: LCP's four frames, and four of each network protocol.
LCP, ALL = 4, 4 + 4 * len(PROTOCOLS)
END = """protocols = ["ip", "ipv6", "osi", "mpls"]
ip = "10.0.0.{0}"
ifid = "000000000000000{0}"
align = 4
"""


def head(links):
    return f"version = 1\nlinks = {links}\n[a]\n{END.format(1)}[b]\n{END.format(2)}---\n"


def opening(links):
    """LCP is opened at both ends of each link, and all settles."""
    lines = [f"{what} {end} {link}{name}" for link in range(1, links + 1) for end in "ab"
             for what, name in [("up", ""), ("open", " lcp")]]
    return lines + [f"settle {ALL * links}"]


def restart(link):
    """End a's line goes down and up, and everything is negotiated anew."""
    return [f"down a {link}", f"up a {link}", f"settle {ALL}"]


def losses(link):
    """The same, and each request of end a is lost once and sent again."""
    again = [line for proto in PROTOCOLS for line in (f"lose b {link} 1", f"timeout a {link} {proto}")]
    return [f"down a {link}", f"up a {link}", f"lose b {link} 1", f"timeout a {link} lcp", f"settle {LCP}", *again,
            f"settle {ALL - LCP}"]


def together(links):
    """End a's lines all go down and up, LCP's requests are lost and sent again, and everything is negotiated anew."""
    lines = []
    for link in range(1, links + 1):
        lines += [f"down a {link}", f"up a {link}", f"lose b {link} 1", f"timeout a {link} lcp"]
    return lines + [f"settle {ALL * links}"]


# The number of links, and the lines of a round by its number from 0.
LOADS = {
    "1 link, restarts": (1, lambda i: restart(1)),
    "1 link, losses": (1, lambda i: losses(1)),
    "16 links, restarts of one": (16, lambda i: restart(1)),
    "16 links, losses on one": (16, lambda i: losses(1)),
    "16 links, restarts in turn": (16, lambda i: restart(i % 16 + 1)),
    "16 links, losses in turn": (16, lambda i: losses(i % 16 + 1)),
    "16 links, all together": (16, lambda i: together(16)),
    "16 links, nothing under way": (16, lambda i: ["settle 1000"]),
}


def script(links, round_of, steps):
    """The opening and as many rounds as fit into so many steps, with a show at the end: its text and its steps."""
    lines, i = opening(links), 0
    done = scripts.steps_of(lines) + 1
    while done + scripts.steps_of(round_of(i)) <= steps:
        lines += round_of(i)
        done += scripts.steps_of(round_of(i))
        i += 1
    return scripts.text(lines + ["show"], head(links)), done


def check(shown, links):
    """Whether a report is one show in which every protocol of every link is Opened and agrees."""
    lines = shown.decode().splitlines()[1:]
    assert len(lines) == links * (1 + len(PROTOCOLS)), shown
    assert all(" Opened Opened " in line and line.endswith(" agree yes") for line in lines), shown


def seconds(program, octets, links):
    """The best time of a run."""
    best = None
    for _ in range(RUNS):
        begun = time.perf_counter()
        done = subprocess.run([program, "replay"], input=octets, stdout=subprocess.PIPE, check=True)
        took = time.perf_counter() - begun
        check(done.stdout, links)
        best = took if best is None else min(best, took)
    return best


def kilobytes(program, octets):
    """The largest resident set of a run."""
    with tempfile.NamedTemporaryFile("r", encoding="utf-8") as told:
        words = ["/usr/bin/time", "-f", "%M", "-o", told.name, program, "replay"]
        subprocess.run(words, input=octets, stdout=subprocess.DEVNULL, check=True)
        return int(told.read())


def measure(program):
    print("| Load | Steps | Seconds | A step, µs | Memory, KB |\n|---|---|---|---|---|")
    for name, (links, round_of) in LOADS.items():
        bare, begun = script(links, round_of, 0)
        start = seconds(program, bare, links)
        print(f"| {name}: the opening | {begun:,} | {start:.4f} | | {kilobytes(program, bare):,} |", flush=True)
        for size in SIZES:
            octets, steps = script(links, round_of, size)
            took = seconds(program, octets, links)
            each = (took - start) / (steps - begun) * 1e6
            print(f"| {name} | {steps:,} | {took:.4f} | {each:.2f} | {kilobytes(program, octets):,} |", flush=True)


def write(folder, size):
    """The scripts, each in a file of its own."""
    os.makedirs(folder, exist_ok=True)
    for name, (links, round_of) in LOADS.items():
        octets, steps = script(links, round_of, size)
        with open(os.path.join(folder, name.replace(",", "").replace(" ", "-")), "wb") as file:
            file.write(octets)
        print(f"{name}: {steps:,} steps, {len(octets):,} octets")


def main():
    if sys.argv[1:2] == ["--write"]:
        write(sys.argv[2], int(sys.argv[3]))
    else:
        measure(sys.argv[1] if len(sys.argv) > 1 else "crates/pppd/out/pppd")


if __name__ == "__main__":
    main()
