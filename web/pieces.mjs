// From the records of a cut list to what the page shows and the files hold: outlines and holes, the piece at each pixel, cuts, corners.
import { NONE, OUTSIDE } from './mosaic.mjs';

/** Numbers one after another, in as much room as they need. */
class Growing {
    constructor(Kind) {
        this.words = new Kind(1024);
        this.length = 0;
    }

    pair(a, b) {
        if (this.length + 2 > this.words.length) {
            const longer = new this.words.constructor(2 * this.words.length);
            longer.set(this.words);
            this.words = longer;
        }
        this.words[this.length++] = a;
        this.words[this.length++] = b;
    }

    done() { return this.words.slice(0, this.length); }
}

/**
 * The corners of each contour at which it turns, its start last, none repeated; which contours are holes (their sum, y for a step east and minus y for
 * a step west, is not above 0); and the face at each pixel, plus 1, where it begins: a step south has its face's pixel on its left.
 */
function contours({ width, height, counts, segments, points, references, contours: records, faces }) {
    const corners = new Growing(Uint16Array), starts = new Uint32Array(counts.contours + 1), holes = new Uint8Array(counts.contours);
    const faceAt = new Uint32Array(width * height);
    for (let face = 0; face < counts.faces; face++) {
        const first = faces[5 * face + 1], end = first + faces[5 * face + 2];
        for (let contour = first; contour < end; contour++) {
            const last = records[2 * contour] + records[2 * contour + 1];
            let sum = 0, x = -1, y = -1, startX = 0, startY = 0, startWay = -1, way = -1;
            for (let at = records[2 * contour]; at < last; at++) {
                const segment = 8 * (references[at] >>> 1), count = segments[segment + 1], backwards = references[at] & 1;
                let point = 2 * (segments[segment] + (backwards ? count - 1 : 0));
                const step = backwards ? -2 : 2;
                if (x < 0) {
                    x = startX = points[point];
                    y = startY = points[point + 1];
                }
                for (let i = 1; i < count; i++) {
                    point += step;
                    const nextX = points[point], nextY = points[point + 1];
                    const next = nextX > x ? 1 : nextX < x ? 3 : nextY > y ? 2 : 0;
                    if (next === 1) sum += y;
                    else if (next === 3) sum -= y;
                    else if (next === 2) faceAt[y * width + x] = face + 1;
                    if (way < 0) startWay = next;
                    else if (next !== way) corners.pair(x, y);
                    way = next;
                    x = nextX;
                    y = nextY;
                }
            }
            if (way !== startWay) corners.pair(startX, startY);
            holes[contour] = sum > 0 ? 0 : 1;
            starts[contour + 1] = corners.length / 2;
        }
    }
    return { corners: corners.done(), starts, holes, faceAt };
}

/** The face of every pixel, plus 1, from where each run of equal labels begins; 0 for waste. */
function spread(labels, faceAt, width) {
    let face = 0;
    for (let i = 0; i < labels.length; i++) {
        if (i % width === 0 || labels[i] === OUTSIDE) face = 0;
        if (labels[i] !== OUTSIDE) {
            if (faceAt[i] !== 0) face = faceAt[i];
            faceAt[i] = face;
        }
    }
}

/** The corners of each segment, ends and turns; and which are rings, whose last corner is their first. */
function cuts({ counts, segments, points }) {
    const corners = new Growing(Uint16Array), starts = new Uint32Array(counts.segments + 1), rings = new Uint8Array(counts.segments);
    for (let segment = 0; segment < counts.segments; segment++) {
        const first = 2 * segments[8 * segment], last = first + 2 * (segments[8 * segment + 1] - 1);
        corners.pair(points[first], points[first + 1]);
        for (let at = first + 2; at < last; at += 2) {
            const straight = points[at - 2] === points[at + 2] || points[at - 1] === points[at + 3];
            if (!straight) corners.pair(points[at], points[at + 1]);
        }
        corners.pair(points[last], points[last + 1]);
        starts[segment + 1] = corners.length / 2;
        rings[segment] = segments[8 * segment + 2] === NONE ? 1 : 0;
    }
    return { corners: corners.done(), starts, rings };
}

/**
 * Faces that hang by a corner only, in more than one part when joined side by side alone; and the corners by which they do, as x, y and face.
 */
function hanging(faceAt, width, height, faceCount) {
    const hangs = new Uint8Array(faceCount), touching = [];
    for (let y = 1; y < height; y++) {
        for (let x = 1; x < width; x++) {
            const se = y * width + x, sw = se - 1, ne = se - width, nw = ne - 1;
            const falls = faceAt[nw] !== 0 && faceAt[nw] === faceAt[se], rises = faceAt[ne] !== 0 && faceAt[ne] === faceAt[sw];
            if ((falls || rises) && faceAt[nw] !== faceAt[ne]) {
                touching.push(se);
                if (falls) hangs[faceAt[nw] - 1] = 1;
                if (rises) hangs[faceAt[ne] - 1] = 1;
            }
        }
    }
    const corners = [];
    if (touching.length === 0) return { hangs, corners: Uint32Array.from(corners) };
    const parent = new Uint32Array(faceAt.length);
    const root = (i) => {
        while (parent[i] !== i) i = parent[i] = parent[parent[i]];
        return i;
    };
    const join = (a, b) => {
        const one = root(a), other = root(b);
        if (one < other) parent[other] = one;
        else parent[one] = other;
    };
    for (let i = 0; i < faceAt.length; i++) {
        if (faceAt[i] === 0 || hangs[faceAt[i] - 1] === 0) continue;
        parent[i] = i;
        if (i % width !== 0 && faceAt[i - 1] === faceAt[i]) parent[i] = root(i - 1);
        if (i >= width && faceAt[i - width] === faceAt[i]) join(i, i - width);
    }
    hangs.fill(0);
    for (const se of touching) {
        const sw = se - 1, ne = se - width, nw = ne - 1;
        for (const [a, b] of [[nw, se], [ne, sw]]) {
            if (faceAt[a] !== 0 && faceAt[a] === faceAt[b] && root(a) !== root(b)) {
                hangs[faceAt[a] - 1] = 1;
                corners.push(se % width, Math.floor(se / width), faceAt[a] - 1);
            }
        }
    }
    return { hangs, corners: Uint32Array.from(corners) };
}

/**
 * For each corner whether a cut goes east (1) or south (2) from it; then the same for squares of 2, 4, .. corners, so that a small picture of a
 * large map still shows every cut.
 */
export function crackLevels(labels, width, height) {
    let wide = width + 1, high = height + 1;
    let level = new Uint8Array(wide * high);
    for (let y = 0; y <= height; y++) {
        for (let x = 0; x <= width; x++) {
            const at = x < width && y < height ? labels[y * width + x] : OUTSIDE;
            const north = x < width && y > 0 ? labels[(y - 1) * width + x] : OUTSIDE;
            const west = x > 0 && y < height ? labels[y * width + x - 1] : OUTSIDE;
            level[y * wide + x] = (at !== north ? 1 : 0) | (at !== west ? 2 : 0);
        }
    }
    const levels = [{ wide, high, bits: level }];
    while (Math.max(wide, high) > 256) {
        const below = level, belowWide = wide, belowHigh = high;
        wide = Math.ceil(wide / 2);
        high = Math.ceil(high / 2);
        level = new Uint8Array(wide * high);
        for (let y = 0; y < belowHigh; y++) {
            for (let x = 0; x < belowWide; x++) level[(y >> 1) * wide + (x >> 1)] |= below[y * belowWide + x];
        }
        levels.push({ wide, high, bits: level });
    }
    return levels;
}

/** Everything of a cut that is kept when the library's memory is given back. */
export function piecesOf(cut) {
    const { width, height, paints, counts, labels } = cut;
    const { corners, starts, holes, faceAt } = contours(cut);
    spread(labels, faceAt, width);
    const { hangs, corners: hangingCorners } = hanging(faceAt, width, height, counts.faces);
    return {
        width, height, paints, counts, faceAt, hangs, hangingCorners, holes,
        colours: cut.colours.slice(), faces: cut.faces.slice(),
        sums: cut.sums && Float64Array.from(cut.sums, Number),
        contours: { corners, starts }, cuts: cuts(cut), levels: crackLevels(labels, width, height),
    };
}

/** The number of holes of a face. */
export function holesOf(list, face) {
    let count = 0;
    for (let i = 0; i < list.faces[5 * face + 2]; i++) count += list.holes[list.faces[5 * face + 1] + i];
    return count;
}

export const colourOf = (list, paint) => `#${[0, 1, 2].map((i) => list.colours[3 * paint + i].toString(16).padStart(2, '0')).join('')}`;

/** Square centimetres of a face on a sheet with these sides in millimetres. */
export const squareCentimetres = (list, face, [wide, high]) => list.sums[face] * (wide / list.width) * (high / list.height) / 100;
