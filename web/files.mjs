// The downloads, as texts part by part: SVG and DXF in millimetres, and a report as CSV, byte for byte as the command line's.
import { colourOf } from './pieces.mjs';

/** The shortest decimal that reads back as the same number, without an exponent. */
export function decimal(value) {
    const [digits, exponent] = String(value).split('e');
    if (exponent === undefined) return digits;
    const [whole, part = ''] = digits.split('.');
    return exponent < 0 ? `0.${'0'.repeat(-exponent - 1)}${whole}${part}` : whole + part.padEnd(exponent, '0');
}

/** How each column and row is written. */
const texts = ({ x, y }) => ({ x: Array.from(x, decimal), y: Array.from(y, decimal) });

const escaped = (text) => text.replaceAll('&', '&amp;').replaceAll('<', '&lt;').replaceAll('>', '&gt;').replace(/\p{Cc}/gu, '?');

/** A line along columns and rows, from one place of a list of corners to another. */
function line(corners, from, to, { x, y }) {
    let text = `M${x[corners[2 * from]]} ${y[corners[2 * from + 1]]}`;
    for (let i = 2 * from + 2; i < 2 * to; i += 2) text += corners[i + 1] === corners[i - 1] ? `H${x[corners[i]]}` : `V${y[corners[i + 1]]}`;
    return text;
}

/** Where a cut's corners end; a ring's first is not repeated. */
const endOf = ({ starts, rings }, cut) => starts[cut + 1] - rings[cut];

/** Pieces as closed paths with their holes, filled; then the cuts, each once, in a layer of their own. */
export function* svg(list, sheet, millimetres, name) {
    const [wide, high] = sheet.map(decimal), places = texts(millimetres), { contours: { corners, starts }, cuts } = list;
    yield `<?xml version="1.0" encoding="UTF-8"?>\n<svg xmlns="http://www.w3.org/2000/svg" width="${wide}mm" height="${high}mm" viewBox="0 0 ${wide} ${high}">\n`;
    yield `<title>${escaped(name)}</title>\n<g id="pieces" fill-rule="evenodd" stroke="none">\n`;
    for (let face = 0; face < list.counts.faces; face++) {
        const [region, first, count, x, y] = list.faces.subarray(5 * face, 5 * face + 5);
        let outline = '';
        for (let contour = first; contour < first + count; contour++) outline += `${line(corners, starts[contour], starts[contour + 1], places)}Z`;
        yield `<path id="piece-${region}-${x}-${y}" fill="${colourOf(list, region)}" d="${outline}"><title>region ${region}, first pixel ${x},${y}</title></path>\n`;
    }
    yield `</g>\n<g id="cuts" fill="none" stroke="#000000" stroke-width="0.1">\n`;
    for (let cut = 0; cut < list.counts.segments; cut++) {
        yield `<path id="cut-${cut}" d="${line(cuts.corners, cuts.starts[cut], endOf(cuts, cut), places)}${cuts.rings[cut] ? 'Z' : ''}"/>\n`;
    }
    yield '</g>\n</svg>\n';
}

const groups = (...lines) => `${lines.join('\n')}\n`;
const layer = (name, colour) => groups(0, 'LAYER', 2, name, 70, 0, 62, colour, 6, 'CONTINUOUS');

function polyline(name, corners, from, to, closed, { x, y }) {
    let text = groups(0, 'POLYLINE', 8, name, 66, 1, 10, 0, 20, 0, 30, 0, 70, closed ? 1 : 0);
    for (let i = from; i < to; i++) text += groups(0, 'VERTEX', 8, name, 10, x[corners[2 * i]], 20, y[corners[2 * i + 1]], 30, 0);
    return text + groups(0, 'SEQEND', 8, name);
}

/** Release 12, y upwards: the cuts, each once, on one layer; the pieces of each veneer on a layer that is switched off (a colour below 0). */
export function* dxf(list, sheet, { x, y }) {
    const [wide, high] = sheet, places = texts({ x, y: y.map((place) => high - place) }), { contours: { corners, starts }, cuts } = list;
    const regions = [];
    for (let face = 0; face < list.counts.faces; face++) if (list.faces[5 * face] !== regions.at(-1)) regions.push(list.faces[5 * face]);
    yield groups(0, 'SECTION', 2, 'HEADER', 9, '$ACADVER', 1, 'AC1009', 9, '$EXTMIN', 10, 0, 20, 0, 9, '$EXTMAX', 10, decimal(wide), 20, decimal(high), 0, 'ENDSEC');
    yield groups(0, 'SECTION', 2, 'TABLES', 0, 'TABLE', 2, 'LTYPE', 70, 1, 0, 'LTYPE', 2, 'CONTINUOUS', 70, 0, 3, 'Solid line', 72, 65, 73, 0, 40, 0, 0, 'ENDTAB');
    yield groups(0, 'TABLE', 2, 'LAYER', 70, Math.min(regions.length, 32000) + 1) + layer('CUTS', 7);
    for (const region of regions) yield layer(`VENEER_${region}`, -(region % 6 + 1));
    yield groups(0, 'ENDTAB', 0, 'ENDSEC', 0, 'SECTION', 2, 'ENTITIES');
    for (let face = 0; face < list.counts.faces; face++) {
        const [region, first, count] = list.faces.subarray(5 * face, 5 * face + 3);
        for (let contour = first; contour < first + count; contour++) yield polyline(`VENEER_${region}`, corners, starts[contour], starts[contour + 1], true, places);
    }
    for (let cut = 0; cut < list.counts.segments; cut++) yield polyline('CUTS', cuts.corners, cuts.starts[cut], endOf(cuts, cut), cuts.rings[cut], places);
    yield groups(0, 'ENDSEC', 0, 'EOF');
}

/** A piece's bounding box, and how long its outlines and the rims of its holes are: sides of pixels are counted, then multiplied and divided as a place is. */
function measured({ width, height, faces, contours: { corners, starts }, holes }, face, [wide, high], { x, y }) {
    const box = [Infinity, Infinity, 0, 0], level = [0, 0], upright = [0, 0], first = faces[5 * face + 1];
    for (let contour = first; contour < first + faces[5 * face + 2]; contour++) {
        for (let i = starts[contour]; i < starts[contour + 1]; i++) {
            const next = i + 1 < starts[contour + 1] ? i + 1 : starts[contour], column = corners[2 * i], row = corners[2 * i + 1];
            level[holes[contour]] += Math.abs(column - corners[2 * next]);
            upright[holes[contour]] += Math.abs(row - corners[2 * next + 1]);
            box[0] = Math.min(box[0], column);
            box[1] = Math.min(box[1], row);
            box[2] = Math.max(box[2], column);
            box[3] = Math.max(box[3], row);
        }
    }
    const lengths = [0, 1].map((kind) => level[kind] * wide / width + upright[kind] * high / height);
    return [x[box[0]], y[box[1]], x[box[2]], y[box[3]], ...lengths].map(decimal);
}

/** A line for each piece. */
export function* csv(list, sheet, millimetres) {
    yield 'region,colour,first_x,first_y,pixels,left_mm,top_mm,right_mm,bottom_mm,outline_mm,holes_mm\n';
    for (let face = 0; face < list.counts.faces; face++) {
        const [region, , , x, y] = list.faces.subarray(5 * face, 5 * face + 5);
        yield `${[region, colourOf(list, region), x, y, list.sums[face], ...measured(list, face, sheet, millimetres)].join(',')}\n`;
    }
}

/** The texts as one blob, gathered into parts of some megabytes. */
export function blobOf(parts, type) {
    const blobs = [];
    let part = '';
    for (const text of parts) {
        part += text;
        if (part.length > 1 << 22) {
            blobs.push(new Blob([part]));
            part = '';
        }
    }
    return new Blob([...blobs, part], { type });
}
