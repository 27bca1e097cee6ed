#!/usr/bin/env python3
"""compare.py LIBRARY COUNT SEED: mosaic_write and mosaic_salvage of a shared library against jobs.py: COUNT maps written, with stores that are
short in turn, and COUNT whole and damaged files salvaged, each with stores of several lengths. Numbers, counts, lengths, kinds, and every word
and byte of every store are compared; the first difference is printed, and the exit status is then 1."""
import ctypes
import random
import struct
import sys

import jobs

library = ctypes.CDLL(sys.argv[1])
count = int(sys.argv[2])
rng = random.Random(int(sys.argv[3]))
RECORD = (6, 8, 2, 1, 2, 5)
KINDS = (0, 1, 2, 3, 4, 7, 258, 65535)


def words(values):
    return (ctypes.c_uint32 * max(1, len(values)))(*values)


def octets(values):
    return (ctypes.c_uint8 * max(1, len(values)))(*values)


def length(values):
    return ctypes.c_size_t(len(values))


def written(w, h, paints, labels, work, stores, file):
    answer, size = words([7] * 8), ctypes.c_uint64(7)
    lent = [words(s) for s in [work] + stores]
    held = octets(file)
    args = [ctypes.c_uint32(v) for v in (w, h, paints)] + [words(labels), length(labels)]
    for store, values in zip(lent, [work] + stores):
        args += [store, length(values)]
    library.mosaic_write(*args, held, length(file), answer, ctypes.byref(size))
    after = [list(s[:len(v)]) for s, v in zip(lent, [work] + stores)]
    return answer[0], tuple(answer[1:]), size.value, after[0], after[1:], bytes(held[:len(file)])


def salvaged(data, store):
    held, answer = octets(store), (ctypes.c_uint64 * 3)(7, 7, 7)
    library.mosaic_salvage(octets(data), length(data), held, length(store), answer)
    return (*answer, bytes(held[:len(store)]))


def some_words(n):
    return [rng.randrange(2 ** 32) for _ in range(n)]


def some_map():
    w, h = rng.randint(0, 7), rng.randint(0, 7)
    paints = rng.choice((0, 1, 2, 3, 4, 4, 65535, 65536, jobs.OUTSIDE))
    palette = rng.choice(((0, 1), (0, 0, 0, 1, jobs.OUTSIDE), (0, 0, 1, 1, 2, 3, 5, 70000, jobs.OUTSIDE)))
    return w, h, paints, [rng.choice(palette) for _ in range(w * h)]


def write_case():
    """A map, and stores of which one in two calls is short."""
    w, h, paints, labels = some_map()
    counts = jobs.rules.counts(jobs.rules.solve(w, h, paints, jobs.seen(paints, labels)))
    size = len(jobs.file_of(w, h, paints, labels))
    lengths = [n * k + rng.choice((0, 0, k - 1, 3 * k + 1)) for n, k in zip(counts, RECORD)]
    work = 8 * (w + 1) * (h + 1) + rng.choice((0, 0, 5))
    room = size + rng.choice((0, 0, 1, 9))
    fault = rng.randrange(20)
    if fault < 6:
        lengths[fault] = max(0, counts[fault] * RECORD[fault] - rng.randint(1, RECORD[fault]))
    elif fault < 9:
        room = max(0, size - rng.choice((1, 1, 4, size)))
    elif fault == 9:
        work -= rng.randint(6, 8)
    elif fault == 10:
        labels = labels + [0] if rng.randrange(2) else labels[1:]
    elif fault == 11:
        w, h = rng.choice(((16385, h), (w, 16385), (4294967295, 4294967295)))
    return w, h, paints, labels, some_words(work), [some_words(n) for n in lengths], bytes(rng.randrange(256) for _ in range(room))


def records(data):
    at, out = 0, []
    while at + 6 <= len(data):
        n = struct.unpack_from("<I", data, at)[0]
        out.append(data[at:at + 6 + n])
        at += 6 + n
    return out


def damaged(data):
    fault = rng.randrange(9)
    if fault == 0 or not data:
        return data
    if fault == 1:
        return data[:rng.randint(0, len(data))]
    if fault == 2:
        return data + bytes(rng.randrange(4) for _ in range(rng.randint(1, 12)))
    parts = records(data)
    if not parts:
        return data
    i = rng.randrange(len(parts))
    record = bytearray(parts[i])
    if fault == 3:
        return b"".join(parts[:i] + [bytes(record)] + parts[i:])
    if fault == 4:
        rng.shuffle(parts)
        return b"".join(parts) if rng.randrange(3) == 0 else data[:18] + b"".join(r for r in parts if r[4] != 1)
    if fault == 5 and len(record) >= 10:
        at = 6 + 4 * rng.randrange((len(record) - 6) // 4)
        v = struct.unpack_from("<I", record, at)[0]
        struct.pack_into("<I", record, at, rng.choice((v + 1, max(v - 1, 0), v + 2, 0, 16385, 4294967295, 2147483648)) % 2 ** 32)
    elif fault == 6:
        struct.pack_into("<H", record, 4, rng.choice(KINDS))
    elif fault == 7:
        n = len(record)
        struct.pack_into("<I", record, 0, rng.choice((0, 4, 8, 12, n - 2, max(n - 7, 1), 4294967295, 4294967290)))
    else:
        record[rng.randrange(len(record))] ^= 1 << rng.randrange(8)
    parts[i] = bytes(record)
    return b"".join(parts)


def compare(name, case, want, got):
    if want != got:
        print(name, "differs on", case, "\nwanted", want, "\ngot   ", got)
        sys.exit(1)


numbers, files, again = {}, {}, 0
for _ in range(count):
    case = write_case()
    want = jobs.write(*case)
    compare("mosaic_write", case, want, written(*case))
    numbers[want[0]] = numbers.get(want[0], 0) + 1
for _ in range(count):
    w, h, paints, labels = some_map()
    data = jobs.file_of(w, h, min(paints, 65535), labels)
    for _ in range(rng.choice((0, 1, 1, 1, 2))):
        data = damaged(data)
    kept = jobs.salvage(data, bytes(len(data)))[1]
    for room in {0, kept, max(kept - 1, 0), kept + 5, len(data)}:
        store = bytes(rng.randrange(256) for _ in range(room))
        want = jobs.salvage(data, store)
        got = salvaged(data, store)
        compare("mosaic_salvage", (data.hex(), room), want, got)
        key = (want[0], min(want[2], 4))
        files[key] = files.get(key, 0) + 1
        if got[0] == 0:
            part = got[3][:got[1]]
            compare("mosaic_salvage, a second run", part.hex(), (0, len(part), 0, part), salvaged(part, bytes(len(part))))
            again += 1
print(count, "maps written, calls by number:", dict(sorted(numbers.items())))
print(count, "files salvaged, calls by number and kind dropped (4: any other):", dict(sorted(files.items())), "and", again, "second runs")
print("differences: 0")
