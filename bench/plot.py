#!/usr/bin/env python3
"""plot.py COUNTS > docs/growth.svg: draws how instructions grow, from what the counting of bench/workloads.py's chunks printed (rows `v8 delta encode ..`)."""
import re
import sys

PANELS = (("v", "video: samples, with size and offset"), ("c", "cenc: samples, three subsamples each"), ("a", "audio: samples, numbers of one byte"),
          ("e", "audio, one sample: events"))
LINES = (("ours", "encode", "#0b6e99", ""), ("peer", "encode", "#0b6e99", "6 4"), ("ours", "receive", "#b5460f", ""), ("peer", "receive", "#b5460f", "6 4"))
WIDTH, HEIGHT, LEFT, TOP, GAP = 300, 260, 64, 56, 40


def rows(path):
    got = {}
    for line in open(path):
        m = re.match(r"([vcae])(\d+)\s+(delta|full)\s+(encode|receive)\s+([\d.]+)\s+([\d.]+)", line)
        if m:
            letter, n, kind, call, ours, peer = m.groups()
            got.setdefault((letter, kind, "ours", call), []).append((int(n), float(ours)))
            got.setdefault((letter, kind, "peer", call), []).append((int(n), float(peer)))
    return got


def panel(out, got, letter, title, x0):
    lines = [(who, call, colour, dash, sorted(got[letter, "delta", who, call])) for who, call, colour, dash in LINES]
    xs = [n for n, _ in lines[0][4]]
    top = max(v for *_, points in lines for _, v in points)
    step = next(s for s in (1000, 2000, 5000, 10000, 20000) if top / s <= 6)
    high = (int(top / step) + 1) * step

    def at(n, v):
        return x0 + WIDTH * n / xs[-1], TOP + HEIGHT * (1 - v / high)

    out.append('<text x="%d" y="%d" class="title">%s</text>' % (x0, TOP - 14, title))
    for v in range(0, high + 1, step):
        y = at(xs[0], v)[1]
        out.append('<line x1="%d" y1="%.1f" x2="%d" y2="%.1f" class="grid"/><text x="%d" y="%.1f" class="y">%d</text>' % (x0, y, x0 + WIDTH, y, x0 - 6, y + 4, v))
    told = -99
    for n in xs:
        x = at(n, 0)[0]
        if x - told >= 20:
            out.append('<text x="%.1f" y="%d" class="x">%d</text>' % (x, TOP + HEIGHT + 18, n))
            told = x
    for _, _, colour, dash, points in lines:
        path = " ".join("%.1f,%.1f" % at(*p) for p in points)
        out.append('<polyline points="%s" fill="none" stroke="%s" stroke-width="2" stroke-dasharray="%s"/>' % (path, colour, dash))


def main():
    got = rows(sys.argv[1])
    full = LEFT + len(PANELS) * (WIDTH + LEFT) + GAP
    out = ['<svg xmlns="http://www.w3.org/2000/svg" width="%d" height="%d" font-family="sans-serif" font-size="12">' % (full, TOP + HEIGHT + 70),
           "<style>.title{font-size:14px}.grid{stroke:#ddd}.y{text-anchor:end;fill:#555}.x{text-anchor:middle;fill:#555}</style>",
           '<rect width="100%" height="100%" fill="white"/>', '<text x="%d" y="20" class="title">Instructions a call, delta objects</text>' % LEFT]
    for k, (letter, title) in enumerate(PANELS):
        panel(out, got, letter, title, LEFT + k * (WIDTH + LEFT))
    for k, (who, call, colour, dash) in enumerate(LINES):
        x, y = LEFT + 180 * k, TOP + HEIGHT + 48
        out.append('<line x1="%d" y1="%d" x2="%d" y2="%d" stroke="%s" stroke-width="2" stroke-dasharray="%s"/>' % (x, y - 4, x + 40, y - 4, colour, dash))
        out.append('<text x="%d" y="%d">%s, %s</text>' % (x + 48, y, call, who))
    print("\n".join(out + ["</svg>"]))


main()
