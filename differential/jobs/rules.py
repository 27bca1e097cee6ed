"""The cut list of a map, from the rules in words: solve(width, height, paints, labels). Small maps; nothing is made fast."""
from collections import namedtuple

OUTSIDE = NONE = 4294967295
N, E, S, W = range(4)
STEP = ((0, -1), (1, 0), (0, 1), (-1, 0))

List = namedtuple("List", "nodes segments points references contours faces steps")


def solve(w, h, paints, labels):
    def label(x, y):
        return labels[y * w + x] if 0 <= x < w and 0 <= y < h else OUTSIDE

    def sides(x, y, d):
        """The pixels on the left and on the right when leaving the corner."""
        nw, ne, sw, se = (x - 1, y - 1), (x, y - 1), (x - 1, y), (x, y)
        return ((nw, ne), (ne, se), (se, sw), (sw, nw))[d]

    def left(x, y, d):
        return label(*sides(x, y, d)[0])

    def present(x, y, d):
        a, b = sides(x, y, d)
        return label(*a) != label(*b)

    corners = [(x, y) for y in range(h + 1) for x in range(w + 1)]
    nodes = [c for c in corners if sum(present(*c, d) for d in range(4)) >= 3]
    number = {c: i for i, c in enumerate(nodes)}
    walked, walks, out = set(), [], {}

    def walk(x, y, d):
        start, steps = (x, y), []
        while True:
            steps.append((x, y, d))
            x, y = x + STEP[d][0], y + STEP[d][1]
            back = (d + 2) % 4
            walked.update((steps[-1], (x, y, back)))
            if (x, y) in number or (x, y) == start:
                break
            d = next(e for e in range(4) if e != back and present(x, y, e))
        return steps

    for x, y in nodes + corners:
        for d in range(4):
            if present(x, y, d) and (x, y, d) not in walked:
                walks.append(walk(x, y, d))

    segments, points = [], []
    for i, steps in enumerate(walks):
        x, y, d = steps[0]
        u, v, e = steps[-1]
        end = (u + STEP[e][0], v + STEP[e][1])
        a, b = sides(x, y, d)
        ring = (x, y) not in number
        segments.append((len(points), len(steps) + 1, number.get((x, y), NONE), number.get(end, NONE), label(*a), label(*b), d, 0 if ring else e))
        points += [(p, q) for p, q, _ in steps] + [end]
        if not ring:
            out[x, y, d] = 2 * i
            out[(*end, (e + 2) % 4)] = 2 * i + 1

    def ends(r):
        """The first and the last step of a reference."""
        steps = walks[r // 2]
        if r % 2 == 0:
            return steps[0], steps[-1]
        turned = [(x + STEP[d][0], y + STEP[d][1], (d + 2) % 4) for x, y, d in steps]
        return turned[-1], turned[0]

    def following(r):
        x, y, d = ends(r)[1]
        x, y = x + STEP[d][0], y + STEP[d][1]
        region = left(*ends(r)[0])
        return next(out[x, y, t] for t in ((d + 1) % 4, d, (d + 3) % 4) if present(x, y, t) and left(x, y, t) == region)

    used, found = set(), []
    for r in range(2 * len(walks)):
        if segments[r // 2][2] != NONE and left(*ends(r)[0]) != OUTSIDE and r not in used:
            contour = [r]
            while following(contour[-1]) != r:
                contour.append(following(contour[-1]))
            used.update(contour)
            found.append(contour)
    found += [[r] for r in range(2 * len(walks)) if segments[r // 2][2] == NONE]

    island = {}
    for first in range(w * h):
        if first in island or labels[first] == OUTSIDE:
            continue
        island[first], stack = first, [first]
        while stack:
            p = stack.pop()
            for y in range(max(p // w - 1, 0), min(p // w + 2, h)):
                for x in range(max(p % w - 1, 0), min(p % w + 2, w)):
                    if labels[y * w + x] == labels[first] and y * w + x not in island:
                        island[y * w + x] = first
                        stack.append(y * w + x)

    references, contours, faces = [], [], []
    for region, first in sorted({(labels[p], q) for p, q in island.items() if labels[p] < paints}):
        mine = []
        for c in found:
            (x, y), _ = sides(*ends(c[0])[0])
            if left(*ends(c[0])[0]) == region and island[y * w + x] == first:
                mine.append(c)
        faces.append((region, len(contours), len(mine), first % w, first // w))
        for c in mine:
            contours.append((len(references), len(c)))
            references += c
    records = [(x, y, *(out.get((x, y, d), NONE) for d in range(4))) for x, y in nodes]
    return List(records, segments, points, references, contours, faces, sum(map(len, walks)))


def counts(a):
    return len(a.nodes), len(a.segments), len(a.points), len(a.references), len(a.contours), len(a.faces), a.steps
