// The proved library as WebAssembly: memory lent to it, and its calls as include/mosaic.h has them.
export const OUTSIDE = 4294967295; // the label of no piece
export const NONE = 4294967295; // no node
export const LONGEST_SIDE = 16384;
export const LONGEST_SHEET = 3000; // millimetres

const PAGE = 65536;
export const MOST_BYTES = 65536 * PAGE; // all that 32-bit addresses reach
const NO_WASTE = 1; // the mode in which no cut goes through waste
const ANSWER_WORDS = 8, REGION_WORDS = 12;
// In the order of the parameters of mosaic_whole, which is that of the answer's counts.
const RECORDS = [['nodes', 6], ['segments', 8], ['points', 2], ['references', 1], ['contours', 2], ['faces', 5]];

const MEANINGS = {
    1: `a side is above ${LONGEST_SIDE} pixels`,
    2: 'the label count is not width × height',
    3: 'the work store is too short',
    4: 'the node store is too short', 5: 'the segment store is too short', 6: 'the point store is too short',
    7: 'the reference store is too short', 8: 'the contour store is too short', 9: 'the face store is too short',
    10: 'a segment does not lie inside its stores',
    12: 'before a merge, a label is neither outside nor painted',
    16: `a side of the sheet is not above 0, or is above ${LONGEST_SHEET} mm`,
    17: 'the colours or the region store have the wrong length',
};

/** An answer other than 0, with the library's number. */
export class Refused extends Error {
    constructor(number) {
        super(`The library answered ${number}: ${MEANINGS[number] ?? 'no meaning known here'}.`);
        this.name = 'Refused';
        this.number = number;
    }
}

/** Memory that cannot be had. */
export class NoMemory extends Error {
    constructor(bytes) {
        const beyond = bytes > MOST_BYTES ? 'a browser can lend at most 4 GB' : 'this browser has not that much to lend now';
        super(`This cut needs ${gigabytes(bytes)} GB of memory, and ${beyond}. A smaller picture, or one with fewer pieces, needs less.`);
        this.name = 'NoMemory';
        this.bytes = bytes;
    }
}

export const gigabytes = (bytes) => (Math.ceil(bytes / 1e8) / 10).toFixed(1);

/** The bytes that labels and work store of a picture take; the cut list comes on top. */
export const bytesBefore = (width, height) => 4 * width * height + 32 * (width + 1) * (height + 1);

const even = (bytes) => 8 * Math.ceil(bytes / 8);

/** One instance of the library, and its memory, lent store after store. */
class Bench {
    constructor(module) {
        this.calls = new WebAssembly.Instance(module).exports;
        this.end = even(this.calls.__heap_base.value);
    }

    /** A store of this many bytes, zero where the memory is new. */
    lend(bytes) {
        const start = this.end, end = start + even(bytes), { memory } = this.calls;
        if (end > MOST_BYTES) throw new NoMemory(end);
        const missing = Math.ceil((end - memory.buffer.byteLength) / PAGE);
        if (missing > 0) {
            try {
                memory.grow(missing);
            } catch {
                throw new NoMemory(end);
            }
        }
        this.end = end;
        return start;
    }

    // Views end with the next `lend`, which may move the memory.
    words(at, count) { return new Uint32Array(this.calls.memory.buffer, at, count); }
    bytes(at, count) { return new Uint8Array(this.calls.memory.buffer, at, count); }
    longs(at, count) { return new BigInt64Array(this.calls.memory.buffer, at, count); }
    doubles(at, count) { return new Float64Array(this.calls.memory.buffer, at, count); }
}

/** The library, of a compiled WebAssembly module. What the module lacks, `has` says. */
export class Library {
    constructor(module) {
        this.module = module;
        this.names = new Set(WebAssembly.Module.exports(module).map(({ name }) => name));
    }

    /** Whether there is a call `mosaic_NAME`. */
    has(name) { return this.names.has(`mosaic_${name}`); }

    /**
     * The cut list of a map, whose labels and colours (three bytes for each paint) stay as they are. A limit of 0 or more merges near colours
     * first. The answer has `counts`, and as views into the library's memory `labels`, `colours`, each of the records by name, and `sums`, the
     * pixels of each face, where the library counts them.
     */
    cut({ width, height, paints, labels, colours, limit = -1 }, tell = () => {}) {
        const least = bytesBefore(width, height);
        if (Math.max(width, height) <= LONGEST_SIDE && least > MOST_BYTES) throw new NoMemory(least);
        const bench = new Bench(this.module), { calls } = bench;
        const inWords = (at, count) => [at, BigInt(count)];

        const answerAt = bench.lend(4 * ANSWER_WORDS);
        const labelsAt = bench.lend(4 * labels.length), coloursAt = bench.lend(3 * paints);
        const workWords = Math.max(width, height) > LONGEST_SIDE ? 0 : 8 * (width + 1) * (height + 1);
        const workAt = bench.lend(4 * workWords);
        bench.words(labelsAt, labels.length).set(labels);
        bench.bytes(coloursAt, 3 * paints).set(colours.subarray(0, 3 * paints));
        const work = inWords(workAt, workWords), map = inWords(labelsAt, labels.length);
        const free = bench.end;
        const answer = () => {
            const found = bench.words(answerAt, ANSWER_WORDS);
            if (found[0] !== 0) throw new Refused(found[0]);
            return found;
        };

        let paintsNow = paints;
        if (limit >= 0 && this.has('merge')) {
            tell('merge');
            const regions = inWords(bench.lend(4 * REGION_WORDS * paints), REGION_WORDS * paints);
            calls.mosaic_merge(width, height, paints, ...map, coloursAt, BigInt(3 * paints), limit, ...work, ...regions, answerAt);
            paintsNow = answer()[1];
            bench.end = free; // the region store is not needed again
        }

        tell('size');
        calls.mosaic_size(NO_WASTE, width, height, paintsNow, ...map, ...work, answerAt);
        const counts = Object.fromEntries([...RECORDS.map(([name]) => name), 'steps'].map((name, i) => [name, answer()[i + 1]]));
        const all = RECORDS.reduce((sum, [name, words]) => sum + even(4 * words * counts[name]), bench.end);
        if (all > MOST_BYTES) throw new NoMemory(all);

        tell('whole');
        const stores = RECORDS.map(([name, words]) => inWords(bench.lend(4 * words * counts[name]), words * counts[name]));
        calls.mosaic_whole(NO_WASTE, width, height, paintsNow, ...map, ...work, ...stores.flat(), answerAt);
        answer();

        let sums = null;
        if (this.has('veneer')) {
            tell('veneer');
            const at = bench.lend(8 * counts.faces);
            calls.mosaic_veneer(NO_WASTE, width, height, paintsNow, ...map, ...work, at, BigInt(counts.faces), answerAt);
            answer();
            sums = bench.longs(at, counts.faces);
        }
        const records = Object.fromEntries(RECORDS.map(([name], i) => [name, bench.words(stores[i][0], Number(stores[i][1]))]));
        return {
            width, height, paints: paintsNow, counts, sums, ...records,
            labels: bench.words(labelsAt, labels.length), colours: bench.bytes(coloursAt, 3 * paintsNow), bytes: bench.end,
        };
    }

    /**
     * Where each column and each row of corners lies on a sheet, in millimetres, by the machine moves along one made-up segment through them
     * all; null where the library has no moves.
     */
    millimetres(width, height, sheetWidth, sheetHeight) {
        if (!this.has('move')) return null;
        if (![sheetWidth, sheetHeight].every((side) => side > 0 && side <= LONGEST_SHEET)) throw new Refused(16);
        const bench = new Bench(this.module), corners = Math.max(width, height) + 1;
        const segmentAt = bench.lend(32), pointsAt = bench.lend(8 * corners), placeAt = bench.lend(8), pointAt = bench.lend(16);
        bench.words(segmentAt, 8).set([0, corners]);
        bench.words(placeAt, 2).fill(0);
        const points = bench.words(pointsAt, 2 * corners);
        for (let i = 0; i < corners; i++) points.set([Math.min(i, width), Math.min(i, height)], 2 * i);
        const x = new Float64Array(width + 1), y = new Float64Array(height + 1), point = bench.doubles(pointAt, 2);
        for (let i = 0; i < corners; i++) {
            const move = bench.calls.mosaic_move(width, height, sheetWidth, sheetHeight, 1, 0, segmentAt, 8n, pointsAt, BigInt(2 * corners), placeAt, pointAt);
            if (move !== (i === 0 ? 0 : 1)) throw new Refused(move);
            if (i <= width) x[i] = point[0];
            if (i <= height) y[i] = point[1];
        }
        return { x, y };
    }
}

export const compile = async (bytes) => new Library(await WebAssembly.compile(bytes));
