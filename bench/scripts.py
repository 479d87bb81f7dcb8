"""Scripts for `pppd replay`: worked loads for ratio.py, and random ones for compare.py. A script is a list of lines."""
import random

HEAD = "version = 1\n---\n"
OPENING = ["up a 1", "open a 1 lcp", "up b 1", "open b 1 lcp"]
MOST_OCTETS = 1 << 20
MOST_STEPS = 100_000


def text(lines, head=HEAD):
    octets = (head + "".join(line + "\n" for line in lines)).encode()
    assert len(octets) <= MOST_OCTETS, len(octets)
    assert steps_of(lines) <= MOST_STEPS, steps_of(lines)
    return octets


def steps_of(lines):
    return sum(int(line.split()[1]) if line.startswith("settle ") else 1 for line in lines)


def both(*lines):
    """The lines for end a, and then for end b."""
    return [line.replace("E", end) for end in "ab" for line in lines]


def restarts():
    """End a's line goes down and up, and both ends negotiate anew."""
    return OPENING + ["settle 4"] + ["down a 1", "up a 1", "settle 4"] * 10_000


def losses():
    """A request is lost, then an answer, and timeouts send them again, until both ends are Opened."""
    turn = ["down a 1", "up a 1", "lose b 1 1", "timeout a 1 lcp", "deliver b 1", "lose a 1 2", "deliver a 1",
            "lose b 1 1", "timeout a 1 lcp", "timeout b 1 lcp", "lose a 1 1", "settle 6"]
    return OPENING + ["settle 4"] + turn * 3_500


def settling():
    """Both lines go down and up, and a long settle runs out."""
    return OPENING + ["settle 4"] + (both("down E 1", "up E 1") + ["settle 40"]) * 2_200


def queues_full():
    """Both queues are filled by requests that are sent ten times, and stay full while frames are delivered."""
    fill = both("down E 1", "up E 1", *["timeout E 1 lcp"] * 9) * 103
    turn = both("down E 1", "up E 1", *["timeout E 1 lcp"] * 9) + ["deliver b 1", "deliver a 1"] * 10
    return OPENING + fill + turn * 1_000


def queues_full_of_others():
    """Both queues are filled by Terminate-Requests; then a request is sent and lost, over and over."""
    fill = []
    for end, other in ("ab", "ba"):
        for held in range(0, 1_020, 2):
            fill += [f"lose {other} 1 {held + 1}", f"close {end} 1 lcp", f"timeout {end} 1 lcp", f"timeout {end} 1 lcp",
                     f"open {end} 1 lcp"]
        fill += [f"lose {other} 1 1021"]
    return OPENING + fill + ["down a 1", "up a 1", "lose b 1 1021"] * 5_000


def wide_spans():
    """255 requests of end a are outstanding; then one is taken in and answered, and one is sent, over and over."""
    fill = ["lose a 1 1"] + ["down a 1", "up a 1"] * 254
    return OPENING + fill + ["deliver b 1", "deliver a 1", "down a 1", "up a 1"] * 12_000


LOADS = {"restarts": restarts, "losses": losses, "settling": settling, "queues full": queues_full,
         "queues full of others": queues_full_of_others, "spans near 255": wide_spans}

KINDS = ["up", "down", "open", "close", "timeout", "deliver", "lose", "settle", "show", "again", "reboot"]
# Weights of the kinds: all alike, few restarts, few deliveries (for full queues), and restarts (for wide spans).
WEIGHTS = [[2, 2, 2, 2, 4, 6, 3, 2, 2, 0, 1], [4, 1, 4, 1, 8, 12, 2, 3, 2, 1, 1], [3, 0, 8, 1, 12, 2, 1, 0, 1, 2, 0],
           [1, 0, 1, 0, 4, 5, 1, 0, 1, 9, 0]]


def random_lines(draw, weights):
    kind = draw.choices(KINDS, weights)[0]
    end = draw.choice("ab")
    if kind == "again":
        return [f"down {end} 1", f"up {end} 1"]
    if kind == "settle":
        return [f"settle {draw.choice([1, 2, 3, 5, 20, 1000])}"]
    if kind == "show":
        return [kind]
    if kind == "reboot":
        return [f"reboot {end}"]
    if kind == "lose":
        return [f"lose {end} 1 {draw.choice([1, 1, 2, 3, 10, 1024])}"]
    return [f"{kind} {end} 1" + (" lcp" if kind in ("open", "close", "timeout") else "")]


def random_script(seed):
    """The input of one case: mostly a script, sometimes one with a spoilt line or odd line ends."""
    draw = random.Random(seed)
    weights = draw.choice(WEIGHTS)
    lines = OPENING * draw.randrange(2)
    for _ in range(draw.choice([5, 40, 200, 1_500, 4_000])):
        lines += random_lines(draw, weights)
    lines += ["show"] + draw.choice([["settle 30", "show"], []])
    if draw.randrange(8) == 0:
        lines.insert(draw.randrange(len(lines)), draw.choice(
            ["", "# up a 1", "up a 2", "up c 1", "up a 01", "up  a 1", "up a 1 ", "open a 1 ip", "close b 1 bacp",
             "timeout a 1 mpls", "open a 1 bap", "open a 1", "reboot", "reboot c", "reboot a 1", "settle 0",
             "settle 1001", "lose a 1 0", "lose a 1 1025", "lose a 2 x", "shows", "---", "up a 256", "show\r"]))
    octets = text(lines)
    if draw.randrange(8) == 0:
        octets = draw.choice([octets[:-1], octets.replace(b"\n", b"\r\n"), octets.replace(b"1\n---", b"1\n---\r"),
                              octets + b"show\r", octets.replace(b"---\n", b"--\n"), octets * 200])
    return octets
