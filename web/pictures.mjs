// Three pictures made by code: pixels as red, green, blue and alpha bytes, the same on every machine.

const hex = (text) => [1, 3, 5].map((at) => parseInt(text.slice(at, at + 2), 16)).concat(255);
const CLEAR = [0, 0, 0, 0];

function paint(width, height, colourAt) {
    const pixels = new Uint8ClampedArray(4 * width * height);
    for (let y = 0; y < height; y++) {
        for (let x = 0; x < width; x++) pixels.set(colourAt(x, y), 4 * (y * width + x));
    }
    return { width, height, pixels };
}

/** Inside the polygon whose corners are given clockwise. */
function within(px, py, ...corners) {
    return corners.every(([ax, ay], i) => {
        const [bx, by] = corners[(i + 1) % corners.length];
        return (bx - ax) * (py - ay) - (by - ay) * (px - ax) >= 0;
    });
}

const round = (x, y, cx, cy, radius) => (x - cx) ** 2 + (y - cy) ** 2 <= radius ** 2;

/** A boat in an oval panel; what lies around the oval is transparent. */
function boat() {
    const [sky, cloud, sun, sea, crest, hull, plank, sail, jib, mast, flag] =
        ['#bcd3da', '#e6e3d6', '#e2b04a', '#5f8ea6', '#86adbd', '#6e3f26', '#a8693d', '#f0e2bd', '#d9c08c', '#3f2a1d', '#a63d2f'].map(hex);
    return paint(480, 360, (x, y) => {
        if (((x - 239.5) / 236) ** 2 + ((y - 179.5) / 176) ** 2 > 1) return CLEAR;
        if (y > 236 && within(x, y, [112, 238], [372, 238], [330, 282], [158, 282])) return y > 258 ? hull : plank;
        if (y > 272 + 4 * wave(x, 48)) return (y + Math.floor(x / 7)) % 46 < 6 && x % 60 < 44 ? crest : sea;
        if (x >= 236 && x < 242 && y > 52 && y < 240) return mast;
        if (within(x, y, [242, 56], [276, 66], [242, 78])) return flag;
        if (within(x, y, [232, 72], [232, 228], [128, 228])) return sail;
        if (within(x, y, [246, 92], [344, 228], [246, 228])) return jib;
        if (round(x, y, 372, 104, 34)) return sun;
        if (round(x, y, 108, 116, 17) || round(x, y, 132, 106, 22) || round(x, y, 158, 116, 16)) return cloud;
        return sky;
    });
}

/** A smooth wave between -1 and 1, of parabolas: sines are not the same on every machine. */
function wave(x, period) {
    const turn = 2 * ((x % period + period) % period) / period;
    return turn < 1 ? 4 * turn * (1 - turn) : 4 * (turn - 1) * (turn - 2);
}

/** A fir of four tiers. */
const fir = (x, y, foot, top, tall) => [0, 1, 2, 3].some((i) => {
    const from = top + i * tall / 5, to = from + tall / 2.6, half = (12 + 7 * i) * tall / 120;
    return within(x, y, [foot, from], [foot + half, to], [foot - half, to]);
}) || (Math.abs(x - foot) <= 3 && y > top + tall / 2 && y < top + tall + 14);

/** An evening sky in twenty-four near colours over hills: what the slider is for. */
function evening() {
    const [far, middle, near, trees, lake, moon] = ['#8c7488', '#5f5672', '#3b3b52', '#23263a', '#c79a86', '#fff1cf'].map(hex);
    const from = [52, 74, 122], to = [244, 178, 110];
    return paint(600, 400, (x, y) => {
        if (fir(x, y, 74, 214, 140) || fir(x, y, 126, 262, 100) || fir(x, y, 520, 238, 120)) return trees;
        if (((x - 330) / 150) ** 2 + ((y - 362) / 17) ** 2 <= 1) return lake;
        if (y > 338 + 20 * wave(x + 40, 640) + 6 * wave(x, 210)) return near;
        if (y > 286 + 26 * wave(x + 330, 520) + 9 * wave(x + 60, 170)) return middle;
        if (y > 236 + 30 * wave(x + 130, 460) + 12 * wave(x, 190)) return far;
        if (round(x, y, 438, 92, 40)) return moon;
        const band = Math.min(23, Math.max(0, Math.floor((y + 12 * wave(x + 80, 560)) * 24 / 280)));
        return [...from.map((value, i) => Math.round(value + (to[i] - value) * band / 23)), 255];
    });
}

/** A parquet of tiles: rings with holes, and dark squares that hang together by their corners only. */
function tiles() {
    const [oak, maple, walnut, cherry, ebony] = ['#c59b62', '#e9d5a8', '#6b4428', '#9c4f31', '#2e2420'].map(hex);
    return paint(372, 288, (x, y) => {
        if (x < 12 || y < 12 || x >= 360 || y >= 276) return walnut;
        if (x < 17 || y < 17 || x >= 355 || y >= 271) return ebony;
        if (x < 18 || y < 18 || x >= 354 || y >= 270) return oak;
        const tile = 84, u = (x - 18) % tile, v = (y - 18) % tile, du = Math.abs(u - 41.5), dv = Math.abs(v - 41.5);
        const odd = (Math.floor((x - 18) / tile) + Math.floor((y - 18) / tile)) % 2 === 1;
        if (du > 40 || dv > 40) return oak;
        if (odd) {
            if (du + dv > 40) return maple;
            return (Math.floor(u / 7) + Math.floor(v / 7)) % 2 === 0 ? ebony : oak;
        }
        const far = Math.sqrt(du * du + dv * dv);
        if (far > 36) return cherry;
        if (far > 28) return maple;
        if (far > 14) return walnut;
        return far > 8 ? maple : cherry;
    });
}

export const pictures = { boat, evening, tiles };
