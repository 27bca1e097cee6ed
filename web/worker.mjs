// The work, away from the page: a picture read, its colours labelled and merged, its cut list made, and the files to download.
import { bytesBefore, compile, LONGEST_SIDE, MOST_BYTES, NoMemory, OUTSIDE } from './mosaic.mjs';
import { Colours } from './colours.mjs';
import { piecesOf } from './pieces.mjs';
import { pictures } from './pictures.mjs';
import * as files from './files.mjs';

const STRIP = 1 << 20; // pixels read at a time

let library = null; // a promise of it
let picture = null; // width, height and Colours
let list = null; // the pieces of the last cut

class NoPicture extends Error {}

const tell = (stage, part = null) => postMessage({ stage, part });

function checkSides(width, height) {
    if (width === 0 || height === 0) throw new NoPicture('This picture has no pixels.');
    if (Math.max(width, height) > LONGEST_SIDE) {
        throw new NoPicture(`This picture has ${width} × ${height} pixels. The longest side that can be cut is ${LONGEST_SIDE} pixels.`);
    }
    if (bytesBefore(width, height) > MOST_BYTES) throw new NoMemory(bytesBefore(width, height));
}

/** The sides that a PNG's first bytes tell, before anything is decoded. */
async function checkHeader(blob) {
    const bytes = new DataView(await blob.slice(0, 24).arrayBuffer());
    if (bytes.byteLength === 24 && bytes.getUint32(0) === 0x89504e47 && bytes.getUint32(4) === 0x0d0a1a0a) checkSides(bytes.getUint32(16), bytes.getUint32(20));
}

async function decode(blob) {
    await checkHeader(blob);
    let bitmap;
    try {
        bitmap = await createImageBitmap(blob, { premultiplyAlpha: 'none', colorSpaceConversion: 'none' });
    } catch {
        throw new NoPicture('This file cannot be read as a picture. It may be damaged, or of a kind that this browser does not know.');
    }
    checkSides(bitmap.width, bitmap.height);
    return bitmap;
}

async function label(blob) {
    const bitmap = await decode(blob), { width, height } = bitmap;
    const colours = new Colours(width * height), rows = Math.max(1, Math.floor(STRIP / width));
    const canvas = new OffscreenCanvas(width, Math.min(rows, height)), brush = canvas.getContext('2d', { willReadFrequently: true });
    brush.globalCompositeOperation = 'copy';
    for (let y = 0; y < height; y += rows) {
        const high = Math.min(rows, height - y);
        brush.drawImage(bitmap, 0, -y);
        colours.add(brush.getImageData(0, 0, width, high).data);
        tell('colours', y / height);
    }
    bitmap.close();
    return { width, height, colours };
}

async function open({ blob, name }) {
    picture = list = null;
    tell('read');
    if (name) {
        const { width, height, pixels } = pictures[name]();
        const colours = new Colours(width * height);
        colours.add(pixels);
        picture = { width, height, colours };
    } else {
        picture = await label(blob);
    }
    const { width, height, colours: { paints, transparent } } = picture;
    return [{ width, height, paints, transparent }];
}

/** The map as the page shows it: each pixel in its veneer's colour. */
function draw({ width, height, labels, colours }) {
    const canvas = new OffscreenCanvas(width, height), brush = canvas.getContext('2d');
    const rows = Math.max(1, Math.floor(STRIP / width));
    for (let y = 0; y < height; y += rows) {
        const high = Math.min(rows, height - y), image = brush.createImageData(width, high), { data } = image;
        for (let i = 0, at = y * width; i < data.length; i += 4, at++) {
            if (labels[at] === OUTSIDE) continue;
            const colour = 3 * labels[at];
            data[i] = colours[colour];
            data[i + 1] = colours[colour + 1];
            data[i + 2] = colours[colour + 2];
            data[i + 3] = 255;
        }
        brush.putImageData(image, 0, y);
    }
    return canvas.transferToImageBitmap();
}

async function cut({ limit, waste }) {
    list = null;
    const { width, height, colours } = picture;
    const found = (await library).cut({ width, height, limit, ...colours.map(waste) }, tell);
    tell('pieces');
    list = piecesOf(found);
    tell('draw');
    const image = draw(found), { faceAt, levels, cuts, ...kept } = list;
    list.faceAt = list.levels = null; // the page's alone
    return [{ ...kept, faceAt, levels, image, bytes: found.bytes }, [image, faceAt.buffer, ...levels.map(({ bits }) => bits.buffer)]];
}

async function file({ kind, sheet, name }) {
    tell('file');
    const types = { svg: 'image/svg+xml', dxf: 'image/vnd.dxf', csv: 'text/csv' };
    const millimetres = (await library).millimetres(list.width, list.height, ...sheet);
    return [files.blobOf(files[kind](list, sheet, millimetres, name), types[kind])];
}

async function start({ wasm }) {
    library = (async () => {
        const answer = await fetch(wasm).catch(() => null);
        if (!answer?.ok) throw new NoPicture('mosaic.wasm is not beside this page. web/make puts it there.');
        return compile(await answer.arrayBuffer());
    })();
    const { names } = await library;
    return [[...names]];
}

const jobs = { start, open, cut, file };

/** What went wrong, for a person to read. */
function explained(error) {
    if (error instanceof NoPicture || error.name === 'NoMemory' || error.name === 'Refused') return error.message;
    if (error instanceof RangeError) return 'This browser has not enough memory for this picture. A smaller one needs less.';
    console.error(error);
    return `Something went wrong: ${error.message}`;
}

async function handle({ id, job, ...rest }) {
    try {
        const [answer, moved = []] = await jobs[job](rest);
        postMessage({ id, answer }, moved);
    } catch (error) {
        postMessage({ id, problem: explained(error) });
    }
}

let last = Promise.resolve(); // one job after another
self.onmessage = ({ data }) => { last = last.then(() => handle(data)); };
