"""Sheets of water lines and of classical puzzles, for bench/measure; `python3 bench/puzzles.py NAME SIZE LENGTH` prints one."""
import random
import sys


def sheet(length, facts, start, goal, steps):
    """`steps` are (name, needs, makes); a literal is a fact's name, with a minus in front where it is false."""
    lines = ["MXP 1", f"l {length}"] + [f"f {f}" for f in facts] + [f"t {f}" for f in start] + [f"w {g}" for g in goal]
    for name, needs, makes in steps:
        lines += [f"s {name}"] + [f"n {n}" for n in needs] + [f"m {m}" for m in makes]
    return ("\n".join(lines) + "\n").encode()


def water(meters, length):
    facts, start, goal = ["open"], ["open"], ["open"]
    steps = [("shut", ["open"], ["-open"]), ("turnon", ["-open"] + [f"-gap{j}" for j in range(meters)], ["open"])]
    for j in range(meters):
        facts += [f"{f}{j}" for f in ("old", "gap", "new", "noted", "sealed", "radio", "paired")]
        start += [f"old{j}", f"sealed{j}"]
        goal += [f"paired{j}", f"sealed{j}"]
        steps += [(f"note{j}", [f"old{j}"], [f"noted{j}"]), (f"unseal{j}", [f"sealed{j}", f"noted{j}"], [f"-sealed{j}"]),
                  (f"lift{j}", [f"old{j}", f"-sealed{j}", "-open"], [f"-old{j}", f"gap{j}"]), (f"fit{j}", [f"gap{j}", "-open"], [f"-gap{j}", f"new{j}"]),
                  (f"clip{j}", [f"new{j}"], [f"radio{j}"]), (f"pair{j}", [f"radio{j}", "open"], [f"paired{j}"]), (f"seal{j}", [f"new{j}", "open"], [f"sealed{j}"])]
    return sheet(length, facts, start, goal, steps)


def heat(points, length):
    """Points along a heating line: each is closed off, drained, changed and filled; it is vented only when hot from the one before."""
    facts = ["pump"] + [f"{f}{j}" for j in range(points) for f in ("shut", "dry", "new", "hot")]
    steps = [("stop", ["pump"], ["-pump"]), ("go", ["-pump"] + [f"-dry{j}" for j in range(points)], ["pump"])]
    for j in range(points):
        steps += [(f"close{j}", [f"-shut{j}"], [f"shut{j}", f"-hot{j}"]), (f"drain{j}", [f"shut{j}", "-pump"], [f"dry{j}"]),
                  (f"change{j}", [f"dry{j}", f"-new{j}"], [f"new{j}"]), (f"fill{j}", [f"dry{j}", f"new{j}"], [f"-dry{j}"]),
                  (f"reopen{j}", [f"shut{j}", f"-dry{j}"], [f"-shut{j}"]), (f"vent{j}", ["pump", f"-shut{j}", f"new{j}"] + ([f"hot{j - 1}"] if j else []), [f"hot{j}"])]
    start = ["pump"] + [f"hot{j}" for j in range(points)]
    return sheet(length, facts, start, ["pump"] + [f"{f}{j}" for j in range(points) for f in ("new", "hot")], steps)


def blocks(count, length):
    """A tower is to be turned over."""
    names = range(count)
    facts = [f"on{a}x{b}" for a in names for b in names if a != b] + [f"table{a}" for a in names] + [f"clear{a}" for a in names]
    steps = []
    for a in names:
        for b in names:
            if a != b:
                steps.append((f"down{a}x{b}", [f"clear{a}", f"on{a}x{b}"], [f"-on{a}x{b}", f"table{a}", f"clear{b}"]))
                steps.append((f"up{a}x{b}", [f"clear{a}", f"clear{b}", f"table{a}"], [f"-table{a}", f"on{a}x{b}", f"-clear{b}"]))
                for c in names:
                    if c not in (a, b):
                        steps.append((f"move{a}x{b}x{c}", [f"clear{a}", f"clear{c}", f"on{a}x{b}"], [f"-on{a}x{b}", f"on{a}x{c}", f"clear{b}", f"-clear{c}"]))
    start = [f"on{a}x{a + 1}" for a in range(count - 1)] + [f"table{count - 1}", "clear0"]
    return sheet(length, facts, start, [f"on{a + 1}x{a}" for a in range(count - 1)], steps)


def logistics(parcels, length):
    places, vans = range(4), range(2)
    facts = [f"at{p}x{l}" for p in range(parcels) for l in places] + [f"in{p}x{v}" for p in range(parcels) for v in vans] + [f"van{v}x{l}" for v in vans for l in places]
    steps = [(f"drive{v}x{a}x{b}", [f"van{v}x{a}"], [f"-van{v}x{a}", f"van{v}x{b}"]) for v in vans for a in places for b in places if a != b]
    for p in range(parcels):
        for v in vans:
            for l in places:
                steps.append((f"load{p}x{v}x{l}", [f"at{p}x{l}", f"van{v}x{l}"], [f"-at{p}x{l}", f"in{p}x{v}"]))
                steps.append((f"unload{p}x{v}x{l}", [f"in{p}x{v}", f"van{v}x{l}"], [f"-in{p}x{v}", f"at{p}x{l}"]))
    start = [f"at{p}x{p % 4}" for p in range(parcels)] + ["van0x0", "van1x1"]
    return sheet(length, facts, start, [f"at{p}x{(p + 2) % 4}" for p in range(parcels)], steps)


def gripper(balls, length):
    facts = ["left", "right", "free0", "free1"] + [f"{f}{b}" for b in range(balls) for f in ("inleft", "inright", "hand0x", "hand1x")]
    steps = [("goright", ["left"], ["-left", "right"]), ("goleft", ["right"], ["-right", "left"])]
    for b in range(balls):
        for room in ("left", "right"):
            for g in (0, 1):
                steps.append((f"pick{room}{b}x{g}", [room, f"in{room}{b}", f"free{g}"], [f"-in{room}{b}", f"-free{g}", f"hand{g}x{b}"]))
                steps.append((f"drop{room}{b}x{g}", [room, f"hand{g}x{b}"], [f"in{room}{b}", f"free{g}", f"-hand{g}x{b}"]))
    return sheet(length, facts, ["left", "free0", "free1"] + [f"inleft{b}" for b in range(balls)], [f"inright{b}" for b in range(balls)], steps)


def hanoi(discs, length):
    facts = [f"at{d}x{p}" for d in range(discs) for p in range(3)]
    steps = []
    for d in range(discs):
        for p in range(3):
            for q in range(3):
                if p != q:
                    steps.append((f"move{d}x{p}x{q}", [f"at{d}x{p}"] + [f"-at{e}x{r}" for e in range(d) for r in (p, q)], [f"-at{d}x{p}", f"at{d}x{q}"]))
    return sheet(length, facts, [f"at{d}x0" for d in range(discs)], [f"at{d}x2" for d in range(discs)], steps)


def tiles(columns, length):
    """Two rows of sliding tiles with one free place; the tiles are to be turned round by some moves."""
    cells = [(r, c) for r in range(2) for c in range(columns)]
    count = len(cells) - 1
    facts = [f"free{i}" for i in range(len(cells))] + [f"at{t}x{i}" for t in range(count) for i in range(len(cells))]
    steps = []
    for i, (r, c) in enumerate(cells):
        for j, (s, d) in enumerate(cells):
            if abs(r - s) + abs(c - d) == 1:
                for t in range(count):
                    steps.append((f"slide{t}x{i}x{j}", [f"at{t}x{i}", f"free{j}"], [f"-at{t}x{i}", f"-free{j}", f"at{t}x{j}", f"free{i}"]))
    place, free, rng = list(range(count)) + [None], count, random.Random(3)
    for _ in range(length):
        near = [i for i, (r, c) in enumerate(cells) if abs(r - cells[free][0]) + abs(c - cells[free][1]) == 1]
        one = rng.choice(near)
        place[free], place[one], free = place[one], None, one
    start = [f"free{count}"] + [f"at{t}x{t}" for t in range(count)]
    return sheet(length, facts, start, [f"at{t}x{i}" for i, t in enumerate(place) if t is not None], steps)


def full(_, length):
    """64 facts and 256 steps with names of 15 bytes, and literals until a sheet's 65,535 bytes are all but full."""
    rng = random.Random(1)
    facts = [f"fact{i:011d}" for i in range(64)]
    head = sheet(length, facts, facts[::2], facts[:4], [])
    bodies = [([], []) for _ in range(256)]
    names = [f"step{o:011d}" for o in range(256)]
    left = 65535 - len(head) - sum(len(f"s {n}\n") for n in names)
    while left >= 19:
        body = bodies[rng.randrange(256)]
        part = body[rng.randrange(2)]
        fact, minus = rng.choice(facts), rng.choice(["", "-"])
        if fact not in part and "-" + fact not in part:
            part.append(minus + fact)
            left -= 18 + len(minus)
    steps = list(zip(names, [b[0] for b in bodies], [b[1] for b in bodies]))
    return sheet(length, facts, facts[::2], facts[:4], steps)


KINDS = {"water": water, "heat": heat, "blocks": blocks, "logistics": logistics, "gripper": gripper, "hanoi": hanoi, "tiles": tiles, "full": full}

if __name__ == "__main__":
    sys.stdout.buffer.write(KINDS[sys.argv[1]](int(sys.argv[2]), int(sys.argv[3])))
