"""The job file and the salvage tool, from the rules of #109 and #113, over rules.py.

file_of(map)                the bytes of an accepted map
write(map, stores)          number, counts, length and every store afterwards
salvage(data, store)        number, length kept, kind dropped and the store afterwards
"""
import struct

import rules

OUTSIDE = rules.OUTSIDE


def seen(paints, labels):
    """Without cuts through waste: what is not painted reads OUTSIDE."""
    return [v if v < paints else OUTSIDE for v in labels]


def flat(records):
    return [v for r in records for v in r]


def entry(kind, words):
    return struct.pack("<IH%dI" % len(words), 4 * len(words), kind, *words)


def file_of(w, h, paints, labels):
    a = rules.solve(w, h, paints, seen(paints, labels))
    out = [entry(1, [w, h, paints])]
    for s in a.segments:
        out.append(entry(2, flat(a.points[s[0]:s[0] + s[1]])))
    for region, first, count, x, y in a.faces:
        body = [region, x, y, count]
        for start, n in a.contours[first:first + count]:
            body += [n] + a.references[start:start + n]
        out.append(entry(3, body))
    return b"".join(out)


def write(w, h, paints, labels, work, stores, file):
    """`work` and the six stores are lists of words, `file` is bytes: number, seven counts, length, work, stores, file."""
    none = (0,) * 7
    need = 8 * (w + 1) * (h + 1)
    if w > 16384 or h > 16384:
        return 1, none, 0, work, stores, file
    if len(labels) != w * h:
        return 2, none, 0, work, stores, file
    if len(work) < need:
        return 3, none, 0, work, stores, file
    a = rules.solve(w, h, paints, seen(paints, labels))
    data = file_of(w, h, paints, labels)
    counts = rules.counts(a)
    cleared = [0] * need + work[need:]
    words = (flat(a.nodes), flat(a.segments), flat(a.points), a.references, flat(a.contours), flat(a.faces))
    for i, size in enumerate((6, 8, 2, 1, 2, 5)):
        if len(stores[i]) // size < counts[i]:
            return 4 + i, counts, 0, cleared, stores, file
    if paints > 65535:
        return 19, counts, 0, cleared, stores, file
    if len(file) < len(data):
        return 13, counts, 0, cleared, stores, file
    return 0, counts, len(data), cleared, [v + s[len(v):] for v, s in zip(words, stores)], data + file[len(data):]


def header(data):
    """The sides and the paint count, or None where the first record is not a whole kind 1 with allowed ones."""
    if len(data) < 18:
        return None
    length, kind, w, h, paints = struct.unpack_from("<IHIII", data)
    if length != 12 or kind != 1 or w > 16384 or h > 16384 or paints > 65535:
        return None
    return w, h, paints


def fits(state, kind, body):
    """Does the record keep #109's form, behind a header and the records kept so far?"""
    w, h, paints, segments, faces = state
    if kind not in (2, 3) or (kind == 2 and faces) or len(body) % 4:
        return False
    v = struct.unpack("<%dI" % (len(body) // 4), body)
    if kind == 2:
        if len(v) % 2 or len(v) < 4:
            return False
        points = list(zip(v[0::2], v[1::2]))
        if any(x > w or y > h for x, y in points):
            return False
        return all(abs(x - u) + abs(y - t) == 1 for (x, y), (u, t) in zip(points, points[1:]))
    if len(v) < 4:
        return False
    at, references = 4, []
    for _ in range(v[3]):
        if at >= len(v) or at + 1 + v[at] > len(v):
            return False
        references += v[at + 1:at + 1 + v[at]]
        at += 1 + v[at]
    return at == len(v) and v[0] < paints and all(r // 2 < segments for r in references)


def salvage(data, store):
    """Number, length kept, kind of the first record dropped, and the store afterwards."""
    head = header(data)
    if head is None:
        return 14, 0, 0, store
    at, segments, faces, dropped = 18, 0, False, 0
    while at + 6 <= len(data):
        length, kind = struct.unpack_from("<IH", data, at)
        body = data[at + 6:at + 6 + length]
        if len(body) < length or not fits((*head, segments, faces), kind, body):
            dropped = kind
            break
        segments += kind == 2
        faces = faces or kind == 3
        at += 6 + length
    if len(store) < at:
        return 13, 0, 0, store
    return 0, at, dropped, data[:at] + store[at:]
