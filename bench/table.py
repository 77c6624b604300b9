#!/usr/bin/env python3
"""Prints the table of a run: table.py FOLDER, the folder with the output of both programs, NAME.RUN.ours and NAME.RUN.rust."""
import glob
import os
import statistics
import sys

ROWS = {
    1: "note",
    2: "turn, heartbeat only",
    3: "turn, 8 notes",
    4: "take, heartbeat",
    5: "take, entry",
}
PLANS = [(n, length) for n in (3, 8) for length in (10, 240)]


class Output:
    """What one run of one program printed: the median time of a call by rows, the sums, and the clock."""

    def __init__(self, path):
        times, self.sums, self.clock = {}, None, None
        with open(path) as lines:
            for line in lines:
                words = dict(word.split("=") for word in line.split())
                if "row" in words:
                    if int(words["calls"]) > 0:
                        per_call = int(words["nanos"]) / int(words["calls"])
                        times.setdefault(int(words["row"]), []).append(per_call)
                elif "clock" in words:
                    self.clock = int(words["nanos"]) / int(words["clock"])
                else:
                    self.sums = words
        self.times = {row: statistics.median(all_times) for row, all_times in times.items()}


def outputs(folder, name, whose):
    return [Output(path) for path in sorted(glob.glob(os.path.join(folder, f"{name}.*.{whose}")))]


def line(label, ours, rust, digits):
    """A line of the table, from the times of the runs. The ratio is the middle one of those of each run, whose two
    programs ran one right after the other."""
    a, b = statistics.median(ours), statistics.median(rust)
    ratios = [x / y for x, y in zip(ours, rust)]
    ratio = statistics.median(ratios)

    def cell(middle, times):
        spread = f"{min(times):.{digits}f}..{max(times):.{digits}f}"
        return f"{middle:>9,.{digits}f} {spread:>17}{1e9 / middle:>13,.0f}"

    print(f"{label:<36}{cell(a, ours)}  {cell(b, rust)}  {ratio:>6.2f} {min(ratios):>6.2f}..{max(ratios):.2f}")
    return a, b


def main():
    folder = sys.argv[1]
    head = f"{'ns':>9} {'lowest..highest':>17}{'calls/s':>13}"
    print(f"{'':<36}{'ours':^40}  {'plain Rust':^40}  {'ours / plain Rust':>15}")
    print(f"{'':<36}{head}  {head}  {'ratio':>6} {'by run':>12}")
    at, clocks = {}, {"ours": [], "rust": []}
    names = [f"calls-n{n}-l{length}" for n, length in PLANS]
    scripts = sorted({os.path.basename(p).split(".")[0] for p in glob.glob(os.path.join(folder, "*.ours"))} - set(names))
    for name in names + scripts:
        ours, rust = outputs(folder, name, "ours"), outputs(folder, name, "rust")
        for x, y in zip(ours, rust):
            assert x.sums == y.sums and x.sums is not None, f"{name}: the sums differ: {x.sums}, {y.sums}"
            assert x.sums.get("refused", "0") == "0", f"{name}: a call was refused"
        clocks["ours"] += [x.clock for x in ours]
        clocks["rust"] += [x.clock for x in rust]
        for row in sorted(ours[0].times):
            if name in names and row in ROWS:
                n, length = PLANS[names.index(name)]
                label = f"n={n} length={length:<3} {ROWS[row]}"
                at[n, length, row] = line(label, [x.times[row] for x in ours], [x.times[row] for x in rust], 1)
            elif name in scripts:
                line(f"script {name}", [x.times[row] for x in ours], [x.times[row] for x in rust], 0)
    print()
    for n in (3, 8):
        for row in (4, 5):
            ours, rust = (at[n, 240, row][who] / at[n, 10, row][who] for who in (0, 1))
            print(f"n={n} {ROWS[row]}, length 240 against 10: ours {ours:.2f}, plain Rust {rust:.2f}")
    ours, rust = (statistics.median(clocks[who]) for who in ("ours", "rust"))
    print(f"between two readings of the clock, which each group includes: ours {ours:.0f} ns, plain Rust {rust:.0f} ns")


main()
