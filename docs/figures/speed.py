#!/usr/bin/env python3
"""Draws docs/figures/speed.svg from what `model bench sizes` prints: how long a check, a collection with its check and a light record
take, over the number of blocks. `model bench sizes | python3 docs/figures/speed.py`, from the top of the repository; needs matplotlib."""
import sys

import matplotlib

matplotlib.use("svg")
from matplotlib import pyplot  # noqa: E402

TITLE = "blocks, check, collection with its check, light record, in ns:"


def rows(lines):
    """The numbers of each line behind the title."""
    lines = iter(lines)
    for line in lines:
        if line.rstrip("\n") == TITLE:
            break
    else:
        sys.exit("speed.py: no line: " + TITLE)
    for line in lines:
        words = line.split()
        if not words or not words[0].isdigit():
            return
        yield [float(word) for word in words]


def main():
    blocks, check, collect, record = zip(*rows(sys.stdin))
    matplotlib.rcParams.update({"svg.hashsalt": "huwekapo", "font.size": 8})
    figure, (calls, records) = pyplot.subplots(1, 2, figsize=(7.2, 2.8), layout="constrained")
    calls.plot(blocks, [time / 1000 for time in collect], "s--", color="0.35", label="collection with its check")
    calls.plot(blocks, [time / 1000 for time in check], "o-", color="0.0", label="check")
    calls.set(yscale="log", ylabel="µs a call")
    records.plot(blocks, record, "o-", color="0.0", label="light record")
    records.set(ylim=(0, None), ylabel="ns a record")
    for panel in (calls, records):
        panel.set_xscale("log", base=2)
        panel.set_xticks(blocks, [f"{int(n):,}" for n in blocks], rotation=45)
        panel.set_xlabel("blocks of the heap")
        panel.grid(True, linewidth=0.3, color="0.8")
        panel.legend(frameon=False)
    figure.savefig("docs/figures/speed.svg", metadata={"Date": None})


if __name__ == "__main__":
    main()
