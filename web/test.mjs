// Tests of the modules behind the page, over web/mosaic.wasm: node --test web/test.mjs
import assert from 'node:assert/strict';
import { readFile } from 'node:fs/promises';
import test from 'node:test';
import { Colours } from './colours.mjs';
import * as files from './files.mjs';
import { bytesBefore, compile, MOST_BYTES, OUTSIDE } from './mosaic.mjs';
import { pictures } from './pictures.mjs';
import { holesOf, piecesOf } from './pieces.mjs';

const library = await compile(await readFile(new URL('mosaic.wasm', import.meta.url)));
const grey = (paints) => new Uint8Array(3 * paints);

function cutOf(width, height, paints, labels, more = {}) {
    return library.cut({ width, height, paints, labels: Uint32Array.from(labels), colours: grey(paints), ...more });
}

const countsOf = ({ counts }) => Object.values(counts).join(' ');

test('the maps worked by hand', () => {
    const o = OUTSIDE;
    for (const [width, height, paints, labels, counts] of [
        [0, 0, 0, [], '0 0 0 0 0 0 0'],
        [3, 0, 1, [], '0 0 0 0 0 0 0'],
        [1, 1, 1, [0], '0 1 5 1 1 1 4'],
        [1, 1, 1, [o], '0 0 0 0 0 0 0'],
        [2, 1, 2, [0, 1], '2 3 10 4 2 2 7'],
        [3, 1, 2, [0, 1, 0], '4 6 16 8 3 3 10'],
        [2, 2, 2, [0, 1, 1, 0], '5 8 20 12 2 2 12'],
        [3, 3, 2, [0, 0, 0, 0, 1, 0, 0, 0, 0], '0 2 18 3 3 2 16'],
        [4, 4, 2, [0, o, o, o, o, 0, 0, 0, o, 0, 1, 0, o, 0, 0, 0], null],
    ]) {
        const found = cutOf(width, height, paints, labels);
        if (counts) assert.equal(countsOf(found), counts);
        else assert.equal(found.counts.faces, 2);
    }
    assert.equal(countsOf(cutOf(1, 1, 1, [7])), '0 0 0 0 0 0 0', 'no cut goes through waste');
});

test('the records of two pixels, word for word', () => {
    const { nodes, segments, points, references, contours, faces } = cutOf(2, 1, 2, [0, 1]), none = OUTSIDE;
    assert.deepEqual([...nodes], [1, 0, none, 0, 2, 4, 1, 1, 3, 1, none, 5]);
    assert.deepEqual([...segments], [0, 4, 0, 1, none, 1, 1, 3, 4, 2, 0, 1, 1, 0, 2, 2, 6, 4, 0, 1, 0, none, 3, 1]);
    assert.deepEqual([...points], [1, 0, 2, 0, 2, 1, 1, 1, 1, 0, 1, 1, 1, 0, 0, 0, 0, 1, 1, 1]);
    assert.deepEqual([...references], [3, 4, 1, 2]);
    assert.deepEqual([...contours], [0, 2, 2, 2]);
    assert.deepEqual([...faces], [0, 0, 1, 0, 0, 1, 1, 1, 1, 0]);
});

test('refusals have their number, and memory that cannot be had its message', () => {
    assert.throws(() => cutOf(16385, 0, 1, []), { name: 'Refused', number: 1 });
    assert.throws(() => cutOf(2, 2, 1, [0]), { name: 'Refused', number: 2 });
    assert.throws(() => library.cut({ width: 16384, height: 16384, paints: 1, labels: [], colours: grey(1) }), { name: 'NoMemory', message: /9\.7 GB .* at most 4 GB/ });
    assert.ok(bytesBefore(10900, 10900) < MOST_BYTES);
    const { grow } = WebAssembly.Memory.prototype;
    WebAssembly.Memory.prototype.grow = () => { throw new RangeError('no more'); };
    try {
        assert.throws(() => cutOf(300, 300, 1, new Uint32Array(90000)), { name: 'NoMemory', message: /has not that much/ });
    } finally {
        WebAssembly.Memory.prototype.grow = grow;
    }
});

test('a hole, and pieces that hang by a corner', () => {
    const ring = piecesOf(cutOf(3, 3, 2, [0, 0, 0, 0, 1, 0, 0, 0, 0]));
    assert.deepEqual([holesOf(ring, 0), holesOf(ring, 1)], [1, 0]);
    assert.deepEqual([...ring.hangs], [0, 0]);
    // Here the first contour of the panel is the hole's.
    const panel = piecesOf(cutOf(4, 3, 3, [0, 0, 0, 0, 0, 1, 2, 0, 0, 0, 0, 0]));
    assert.equal(holesOf(panel, 0), 1);
    const board = piecesOf(cutOf(2, 2, 2, [0, 1, 1, 0]));
    assert.deepEqual([...board.hangs], [1, 1]);
    assert.deepEqual([...board.hangingCorners], [1, 1, 0, 1, 1, 1]);
    // A corner that the piece also goes around is none that it hangs by.
    const around = piecesOf(cutOf(4, 4, 2, [0, 0, 0, 0, 0, 0, 1, 0, 0, 1, 0, 0, 0, 0, 0, 0]));
    assert.deepEqual([...around.hangs], [0, 1]);
});

/** A small picture at random, the same at each run. */
function* randomMaps(count) {
    let seed = 20240607;
    const next = (below) => {
        seed = (Math.imul(seed, 1664525) + 1013904223) >>> 0;
        return Math.floor(seed / 2 ** 32 * below);
    };
    for (let i = 0; i < count; i++) {
        const width = 1 + next(12), height = 1 + next(12), paints = 1 + next(4);
        yield { width, height, paints, labels: Uint32Array.from({ length: width * height }, () => (next(6) === 0 ? OUTSIDE : next(paints))) };
    }
}

/** The pixels of each island, by a plain flood over eight neighbours, or four. */
function islands({ width, height, labels }, neighbours) {
    const island = new Int32Array(width * height).fill(-1), found = [];
    for (let start = 0; start < labels.length; start++) {
        if (labels[start] === OUTSIDE || island[start] >= 0) continue;
        const pixels = [start];
        island[start] = found.length;
        for (const pixel of pixels) {
            for (let dy = -1; dy <= 1; dy++) {
                for (let dx = -1; dx <= 1; dx++) {
                    const x = pixel % width + dx, y = Math.floor(pixel / width) + dy, other = y * width + x;
                    if ((dx && dy && neighbours === 4) || x < 0 || y < 0 || x >= width || y >= height) continue;
                    if (labels[other] !== labels[start] || island[other] >= 0) continue;
                    island[other] = found.length;
                    pixels.push(other);
                }
            }
        }
        found.push(pixels);
    }
    return { island, found };
}

/** Whether the middle of a pixel lies inside a face, by the crossings of its contours to the left. */
function inside({ faces, contours: { starts, corners } }, face, px, py) {
    let crossings = 0;
    for (let contour = faces[5 * face + 1]; contour < faces[5 * face + 1] + faces[5 * face + 2]; contour++) {
        for (let i = starts[contour]; i < starts[contour + 1]; i++) {
            const j = i + 1 < starts[contour + 1] ? i + 1 : starts[contour];
            const [ax, ay, bx, by] = [corners[2 * i], corners[2 * i + 1], corners[2 * j], corners[2 * j + 1]];
            assert.ok(ax === bx || ay === by);
            if (ax === bx && ax <= px && Math.min(ay, by) <= py && Math.max(ay, by) > py) crossings++;
        }
    }
    return crossings % 2 === 1;
}

test('500 maps at random: pieces, holes, sums and cuts against plain floods', () => {
    for (const map of randomMaps(500)) {
        const { width, height, labels } = map, list = piecesOf(cutOf(width, height, map.paints, labels));
        const eight = islands(map, 8), four = islands(map, 4);
        assert.equal(list.counts.faces, eight.found.length);
        const parts = new Map();
        for (const pixels of four.found) parts.set(eight.island[pixels[0]], (parts.get(eight.island[pixels[0]]) ?? 0) + 1);
        for (let face = 0; face < list.counts.faces; face++) {
            const [region, , , x, y] = list.faces.subarray(5 * face, 5 * face + 5), island = eight.island[y * width + x], pixels = eight.found[island];
            assert.equal(labels[y * width + x], region);
            assert.equal(Math.min(...pixels), y * width + x, 'the first pixel');
            if (list.sums) assert.equal(list.sums[face], pixels.length);
            assert.equal(list.hangs[face], parts.get(island) > 1 ? 1 : 0);
            for (let i = 0; i < labels.length; i++) {
                assert.equal(list.faceAt[i] === face + 1, eight.island[i] === island);
                assert.equal(inside(list, face, i % width, Math.floor(i / width)), eight.island[i] === island);
            }
        }
        const label = (x, y) => (x < 0 || y < 0 || x >= width || y >= height ? OUTSIDE : labels[y * width + x]);
        const cracks = new Set(), cut = [];
        for (let y = 0; y <= height; y++) {
            for (let x = 0; x <= width; x++) {
                if (label(x, y) !== label(x, y - 1)) cracks.add(`${x} ${y} e`);
                if (label(x, y) !== label(x - 1, y)) cracks.add(`${x} ${y} s`);
            }
        }
        const { corners, starts } = list.cuts;
        for (let i = 0; i < list.counts.segments; i++) {
            for (let at = starts[i]; at + 1 < starts[i + 1]; at++) {
                const [ax, ay, bx, by] = corners.subarray(2 * at, 2 * at + 4);
                for (let x = Math.min(ax, bx); x < Math.max(ax, bx); x++) cut.push(`${x} ${ay} e`);
                for (let y = Math.min(ay, by); y < Math.max(ay, by); y++) cut.push(`${ax} ${y} s`);
            }
        }
        assert.equal(cut.length, list.counts.steps);
        assert.deepEqual(new Set(cut), cracks, 'each crack is cut once');
        assert.equal(cut.length, cracks.size);
    }
});

test('colours are labels in the order of first appearance, transparent pixels are waste', () => {
    const colours = new Colours(4);
    colours.add(Uint8ClampedArray.of(9, 8, 7, 255, 1, 2, 3, 127));
    colours.add(Uint8ClampedArray.of(0, 0, 0, 128, 9, 8, 7, 255));
    assert.deepEqual([...colours.map(true).labels], [0, OUTSIDE, 1, 0]);
    assert.deepEqual([...colours.map(false).labels], [0, 2, 1, 0]);
    assert.deepEqual([...colours.map(false).colours], [9, 8, 7, 0, 0, 0, 255, 255, 255]);
    assert.equal(colours.map(true).paints, 2);
});

test('a library with the first calls alone', async () => {
    const bytes = Buffer.from((await readFile(new URL('mosaic.wasm', import.meta.url))).toString('latin1').replace(/mosaic_(?=merge|move|veneer)/g, 'hidden_'), 'latin1');
    const less = await compile(bytes);
    assert.deepEqual(['whole', 'merge', 'move', 'veneer'].map((name) => less.has(name)), [true, false, false, false]);
    const found = less.cut({ width: 2, height: 1, paints: 2, labels: [0, 1], colours: grey(2), limit: 765 });
    assert.deepEqual([countsOf(found), found.sums, found.paints], ['2 3 10 4 2 2 7', null, 2]);
    assert.equal(less.millimetres(2, 1, 300, 200), null);
});

test('near colours become one veneer', { skip: !library.has('merge') }, () => {
    const colours = Uint8Array.of(100, 100, 100, 104, 100, 100, 0, 0, 0);
    const labels = Uint32Array.of(0, 1, 2, OUTSIDE);
    const merged = (limit) => library.cut({ width: 4, height: 1, paints: 3, labels, colours, limit });
    assert.equal(merged(-1).paints, 3);
    const two = merged(4);
    assert.deepEqual([two.paints, ...two.labels, ...two.colours], [2, 0, 0, 1, OUTSIDE, 102, 100, 100, 0, 0, 0]);
    assert.equal(merged(765).paints, 1);
    assert.deepEqual([...labels], [0, 1, 2, OUTSIDE], 'what was handed in stays');
});

test('millimetres are multiplied, then divided; the far edge is the sheet\'s own', { skip: !library.has('move') }, () => {
    const { x, y } = library.millimetres(7, 3, 299.9, 0.1);
    for (let i = 0; i < 7; i++) assert.equal(x[i], i * 299.9 / 7);
    assert.equal(x[7], 299.9);
    assert.deepEqual([...y], [0, 0.1 / 3, 0.2 / 3, 0.1]);
    for (const side of [0, -1, NaN, 3000.5]) assert.throws(() => library.millimetres(7, 3, side, 100), { number: 16 });
});

test('numbers are written without an exponent', () => {
    assert.deepEqual([0, 0.1, 1 / 3, 1.5e-7, 2e-9, 3e21].map(files.decimal), ['0', '0.1', '0.3333333333333333', '0.00000015', '0.000000002', '3000000000000000000000']);
});

test('the built-in pictures and their files', { skip: !library.has('move') || !library.has('veneer') }, async () => {
    for (const name of Object.keys(pictures)) {
        const { width, height, pixels } = pictures[name](), colours = new Colours(width * height);
        colours.add(pixels);
        const list = piecesOf(library.cut({ width, height, ...colours.map(true) })), sheet = [600, 600 * height / width];
        const millimetres = library.millimetres(width, height, ...sheet);
        const rows = (await files.blobOf(files.csv(list, sheet, millimetres)).text()).trimEnd().split('\n').map((line) => line.split(','));
        assert.equal(rows.length, list.counts.faces + 1);
        assert.equal(rows.slice(1).reduce((sum, row) => sum + Number(row[4]), 0), width * height - colours.transparent);
        const svg = [...files.svg(list, sheet, millimetres, name)].join('');
        assert.equal(svg.match(/<path id="piece-/g).length, list.counts.faces);
        assert.equal(svg.match(/<path id="cut-/g).length, list.counts.segments);
        const dxf = [...files.dxf(list, sheet, millimetres)].join('');
        assert.equal(dxf.match(/^POLYLINE$/gm).length, list.counts.segments + list.counts.contours);
    }
});
