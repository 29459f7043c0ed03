#!/usr/bin/env python3
"""The tables of docs/SPEED.md from two runs of `make bench`: tables.py RUN AGAIN"""
import sys

ENGINES = ["brute", "kmp", "bm", "sunday", "shiftand", "hybrid"]


def rows(path):
    for line in open(path):
        if line.startswith("| ") and not line.startswith("| engine") and not line.startswith("| workload"):
            yield [c.strip() for c in line.strip().strip("|").split("|")]
        elif line.startswith("moved by"):
            yield ["moved", line.split()[2]]


def read(path):
    r = {"times": {}, "plain": {}, "means": {}, "grow": {}, "none": {}, "head": {}}
    place = "0"
    for c in rows(path):
        if c[0] == "moved":
            place = c[1]
        elif len(c) == 7:
            r["times"][c[0], c[1], c[2]] = c[3:]
        elif len(c) == 5:
            r["plain"][c[0], c[1]] = c[2:]
        elif len(c) == 4:
            r["means"][c[0], place] = c[1:]
        elif len(c) == 11:
            key = (c[1], c[2], c[3])
            r["grow"].setdefault(c[0], []).append((key, c[4], c[6], c[10]))
        elif len(c) == 8:
            r["none"][c[0], c[1]] = c[2:]
        elif len(c) == 6:
            r["head"][c[0], c[2]] = c[3:]
    return r


def comma(n):
    return f"{int(n):,}"


def first(a, b):
    # A run from before the first hit was timed has none of these.
    again = lambda part, key, at: b[part][key][at] if key in b[part] else "-"
    print("\n| workload, no hit | n | first | brute | ratio to brute | again | C | ratio to C | again | tests |\n|" + "---|" * 10)
    for (w, n), c in a["none"].items():
        print(f"| {w} | {comma(n)} | {c[0]} | {c[1]} | {c[2]} | {again('none', (w, n), 2)} "
              f"| {c[3]} | {c[4]} | {again('none', (w, n), 4)} | {c[5]} |")
    print("\n| workload, hit at start 0 | m | first | C | ratio to C | again |\n|" + "---|" * 6)
    for (w, m), c in a["head"].items():
        print(f"| {w} | {m} | {c[0]} | {c[1]} | {c[2]} | {again('head', (w, m), 2)} |")
    for what, part, size, at in [("brute, no hit", "none", "n", 2), ("C, no hit", "none", "n", 4), ("C, hit at start 0", "head", "m", 2)]:
        for run, r in [("", a), ("again ", b)]:
            ratios = [(float(c[at]), f"{w}, {size} = {x}") for (w, x), c in r[part].items()]
            if ratios:
                mean, (worst, where) = sum(x for x, _ in ratios) / len(ratios), max(ratios)
                print(f"\nfirst to {what}: {run}mean {mean:.2f}, worst {worst:.2f}: {where}")


def main():
    a, b = read(sys.argv[1]), read(sys.argv[2])
    works = list(dict.fromkeys(w for _, w, _ in a["times"]))
    print("| engine | run 1 | run 2 | run 3 | run 4 | worst of all, and where |\n|---|---|---|---|---|---|")
    for e in ENGINES:
        cells, worst = [], (0.0, "")
        for place in ["0", "16", "32", "48"]:
            x, y = a["means"][e, place], b["means"][e, place]
            cells.append(f"{x[0]}, {x[1]} (again {y[0]}, {y[1]})")
            where = lambda r: r[2] + f", run {int(place) // 16 + 1}"
            worst = max(worst, (float(x[1]), where(x)), (float(y[1]), where(y)))
        print(f"| {e} | " + " | ".join(cells) + f" | {worst[0]:.2f}: {worst[1]} |")
    for e in ENGINES:
        print(f"\n**{e}**\n\n| workload | n = 65,536: library | C | ratio | again | work | n = 4,096: library | C | ratio | again | work |")
        print("|" + "---|" * 11)
        for w in works:
            cells = []
            for n in ["65536", "4096"]:
                lib, c, ratio, work = a["times"][e, w, n]
                cells += [lib, c, ratio, b["times"][e, w, n][2], work]
            print(f"| {w} | " + " | ".join(cells) + " |")
    print("\n| workload | n | library brute | plain brute | ratio | again |\n|---|---|---|---|---|---|")
    for (w, n), c in a["plain"].items():
        print(f"| {w} | {comma(n)} | {c[0]} | {c[1]} | {c[2]} | {b['plain'][w, n][2]} |")
    lines = [k for k, *_ in a["grow"]["brute"]]
    for i, (text, n, m) in enumerate(lines):
        if i == 0 or i == 7 or i == 14:
            print(f"\n| {'n' if i == 0 else 'm'} | " + " | ".join(ENGINES) + " |\n|" + "---|" * 7)
        cells = [f"{g[1]} ({g[2]}) {g[3]}" for g in (a["grow"][e][i] for e in ENGINES)]
        print(f"| {comma(n) if i < 7 else m} | " + " | ".join(cells) + " |")
    first(a, b)
    pairs = [(float(a["times"][k][2]), float(b["times"][k][2])) for k in a["times"]]
    gaps = [abs(x - y) for x, y in pairs]
    print(f"\nratios differ by {sum(gaps) / len(gaps):.3f} on average, {max(gaps):.2f} at most; {len(gaps)} ratios")
    grown = [(abs(float(x[2]) - float(y[2])), e, x[0]) for e in ENGINES for x, y in zip(a["grow"][e], b["grow"][e])]
    print("growth moved at most:", sorted(grown, reverse=True)[:4])


main()
