#!/usr/bin/env python3
"""Draws a net: the listing program's text on standard input, an SVG picture on
standard output.

    listing < plan | docs/draw_net.py > net.svg

Places are circles with their numbers: entry places hold a token, exit places
have a double line. Transitions are boxes with their labels, 1 as a, 129 as a',
silent ones as the actions that they join. Time runs from left to right; arcs
that go back, as in loops, are drawn as bows.
"""

import math
import sys

STEP_X, STEP_Y, MARGIN = 80, 64, 40
RADIUS, HALF = 17, 15


def read(text):
    """How many entries, internals and exits, and the transitions."""
    lines = text.splitlines()
    if not lines or not lines[0].startswith("net "):
        sys.exit("no net: " + (lines[0] if lines else "empty input"))
    entries, internals, exits = map(int, lines[0].split()[1:4])
    transitions = []
    for line in lines[1:]:
        head, places = line.split(" : ")
        inputs, outputs = places.split(" > ")
        _, _, label, first, second = head.split()
        transitions.append({
            "name": name(int(label), first, second),
            "inputs": [("p", int(place)) for place in inputs.split()],
            "outputs": [("p", int(place)) for place in outputs.split()],
        })
    return entries, internals, exits, transitions


def name(label, first, second):
    if label == 0:
        return first if second == "-" else first + "+" + second
    base = label % 128
    text = chr(96 + base) if base <= 26 else str(base)
    return text + ("'" if label > 128 else "")


def columns_of(entries, places, exits, transitions):
    """A column for each node: a transition stands behind the last of its
    inputs, a place behind the first transition that produces into it."""
    column = {("p", place): 0 for place in range(entries)}
    waiting = list(range(len(transitions)))
    while waiting:
        ready = [t for t in waiting if all(p in column for p in transitions[t]["inputs"])]
        # A net may have transitions that no step reaches: they come last.
        ready = ready or waiting
        for t in ready:
            known = [column[p] for p in transitions[t]["inputs"] if p in column]
            column["t", t] = max(known, default=0) + 1
            for p in transitions[t]["outputs"]:
                column.setdefault(p, column["t", t] + 1)
        waiting = [t for t in waiting if t not in ready]
    last = max(column.values(), default=0)
    last += last % 2
    for place in range(places):
        column.setdefault(("p", place), last)
    for place in range(places - exits, places):
        column["p", place] = max(column["p", place], last)
    return column


def chains_of(column, transitions):
    """The nodes that each arc passes; one that passes columns by gets a bend
    in each, which takes room there as a node does."""
    chains = []
    for t, transition in enumerate(transitions):
        pairs = [(p, ("t", t)) for p in transition["inputs"]]
        pairs += [(("t", t), p) for p in transition["outputs"]]
        for start, end in pairs:
            between = range(column[start] + 1, column[end])
            bends = [("bend", (len(chains), k)) for k in between]
            column.update(zip(bends, between))
            chains.append([start, *bends, end])
    return chains


def rows_of(column, chains):
    """A row for each node, near the middle of its neighbours'."""
    beside = {node: [] for node in column}
    for chain in chains:
        for one, other in zip(chain, chain[1:]):
            beside[one].append(other)
            beside[other].append(one)
    columns = [[] for _ in range(max(column.values(), default=0) + 1)]
    for node in column:
        columns[column[node]].append(node)
    row = {}

    def spread(nodes):
        row.update({node: k - (len(nodes) - 1) / 2 for k, node in enumerate(nodes)})

    for nodes in columns:
        spread(nodes)
    for turn in range(12):
        for nodes in columns if turn % 2 == 0 else reversed(columns):
            nodes.sort(key=lambda n: sum(row[m] for m in beside[n]) / max(len(beside[n]), 1))
            spread(nodes)
    return row


def straight(start, end, gap):
    """A line between two nodes, from edge to edge."""
    (x, y), (u, v) = start, end
    length = math.hypot(u - x, v - y)
    a, b = (u - x) / length, (v - y) / length
    return f"M{x + a * RADIUS:.1f} {y + b * RADIUS:.1f} L{u - a * gap:.1f} {v - b * gap:.1f}"


def curve(spots, gap):
    """A line through bends, from the right of a node to the left of another."""
    spots = [(spots[0][0] + RADIUS, spots[0][1]), *spots[1:-1],
             (spots[-1][0] - gap, spots[-1][1])]
    path = f"M{spots[0][0]:.1f} {spots[0][1]:.1f}"
    for (x, y), (u, v) in zip(spots, spots[1:]):
        path += f" C{(x + u) / 2:.1f} {y:.1f} {(x + u) / 2:.1f} {v:.1f} {u:.1f} {v:.1f}"
    return path


def bow(start, end, edge):
    """An arc that leaves and arrives on the side of `edge`, and nears it."""
    (x, y), (u, v) = start, end
    side = RADIUS + 2 if edge > max(y, v) else -RADIUS - 2
    return (f"M{x:.1f} {y + side * 0.8:.1f} "
            f"C{x:.1f} {edge:.1f} {u:.1f} {edge:.1f} {u:.1f} {v + side:.1f}")


def draw(text):
    entries, internals, exits, transitions = read(text)
    places = entries + internals + exits
    column = columns_of(entries, places, exits, transitions)
    chains = chains_of(column, transitions)
    row = rows_of(column, chains)
    top = min(row.values(), default=0)
    spot = {n: (MARGIN + STEP_X * column[n], 2 * MARGIN + STEP_Y * (row[n] - top)) for n in column}
    width = MARGIN + max(x for x, _ in spot.values())
    height = 2 * MARGIN + max(y for _, y in spot.values())
    out = [
        f'<svg xmlns="http://www.w3.org/2000/svg" width="{width:.0f}" height="{height:.0f}">',
        "<style>text{font:13px sans-serif;text-anchor:middle;fill:#222}"
        ".arc{fill:none;stroke:#555;stroke-width:1.3;marker-end:url(#head)}"
        "circle,rect.t{fill:#fff;stroke:#222;stroke-width:1.5}rect.t{fill:#dde8f5}"
        ".token{fill:#222}.small{font-size:11px;fill:#666}</style>",
        '<defs><marker id="head" viewBox="0 0 8 8" refX="7" refY="4" markerWidth="7" '
        'markerHeight="7" orient="auto"><path d="M0 0L8 4L0 8z" fill="#555"/></marker></defs>',
        f'<rect width="{width:.0f}" height="{height:.0f}" fill="#fff"/>',
    ]
    for chain in chains:
        start, end = chain[0], chain[-1]
        gap = RADIUS + 3 if end[0] == "p" else HALF + 5
        if column[end] <= column[start]:
            path = bow(spot[start], spot[end], 12 if row[end] <= 0 else height - 12)
        elif len(chain) == 2:
            path = straight(spot[start], spot[end], gap)
        else:
            path = curve([spot[node] for node in chain], gap)
        out.append(f'<path class="arc" d="{path}"/>')
    for place in range(places):
        x, y = spot["p", place]
        out.append(f'<circle cx="{x}" cy="{y}" r="{RADIUS}"/>')
        if place >= places - exits:
            out.append(f'<circle cx="{x}" cy="{y}" r="{RADIUS - 4}"/>')
        if place < entries:
            out.append(f'<circle class="token" cx="{x}" cy="{y}" r="5"/>')
            out.append(f'<text class="small" x="{x}" y="{y - RADIUS - 4}">{place}</text>')
        else:
            out.append(f'<text x="{x}" y="{y + 4.5}">{place}</text>')
    for t, transition in enumerate(transitions):
        x, y = spot["t", t]
        out.append(f'<rect class="t" x="{x - HALF}" y="{y - HALF}" width="{2 * HALF}" '
                   f'height="{2 * HALF}" rx="3"/>')
        out.append(f'<text x="{x}" y="{y + 4.5}">{transition["name"]}</text>')
    return "\n".join(out + ["</svg>", ""])


if __name__ == "__main__":
    sys.stdout.write(draw(sys.stdin.read()))
