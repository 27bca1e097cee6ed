// The picture on its canvas: zoom and pan, the cuts over it, a piece lit up.
import { colourOf } from './pieces.mjs';

const CUT = [44, 30, 20], MARK = '#d0261c';
const LINES_FROM = 3; // screen pixels for a picture's pixel from which cuts are drawn as lines
const CLOSEST = 64;
const MOST_RINGS = 800; // around corners in sight

export class View {
    /** `onPiece(face, chosen)` is called when another piece, or none (-1), is pointed at or chosen. */
    constructor(canvas, onPiece) {
        this.canvas = canvas;
        this.brush = canvas.getContext('2d');
        this.cutCanvas = document.createElement('canvas');
        this.onPiece = onPiece;
        this.list = null;
        this.showCuts = this.showCorners = true;
        this.pointed = this.chosen = -1;
        this.left = this.top = 0; // the picture's place at the canvas's upper left
        this.scale = 1; // of a picture's pixel, in the canvas's
        this.pointers = new Map();
        this.due = false;
        new ResizeObserver(() => this.resize()).observe(canvas);
        this.listen();
        this.resize();
    }

    show(list) {
        const same = this.list && list && this.list.width === list.width && this.list.height === list.height;
        this.list?.image.close();
        this.small?.close();
        this.small = null;
        this.list = list;
        this.pointed = this.chosen = -1;
        this.outline = null;
        if (list && !same) this.fit();
        if (list && Math.max(list.width, list.height) > 2048) this.reduce(list);
        this.later();
    }

    /** A small copy of a large picture, for when all of it is seen. */
    async reduce(list) {
        const part = 1536 / Math.max(list.width, list.height);
        const size = { resizeWidth: Math.max(1, Math.round(list.width * part)), resizeHeight: Math.max(1, Math.round(list.height * part)), resizeQuality: 'medium' };
        const small = await createImageBitmap(list.image, size).catch(() => null);
        if (this.list !== list) return small?.close();
        this.small = small;
        this.later();
    }

    resize() {
        const ratio = Math.min(window.devicePixelRatio || 1, 3), { clientWidth, clientHeight } = this.canvas;
        const before = this.fitted;
        this.canvas.width = this.cutCanvas.width = Math.max(1, Math.round(clientWidth * ratio));
        this.canvas.height = this.cutCanvas.height = Math.max(1, Math.round(clientHeight * ratio));
        this.ratio = ratio;
        if (before) this.fit();
        this.later();
    }

    get whole() {
        const { canvas, list } = this;
        return Math.min(CLOSEST, 0.96 * Math.min(canvas.width / list.width, canvas.height / list.height));
    }

    fit() {
        if (!this.list) return;
        this.scale = this.whole;
        this.left = this.list.width / 2 - this.canvas.width / 2 / this.scale;
        this.top = this.list.height / 2 - this.canvas.height / 2 / this.scale;
        this.fitted = true;
        this.later();
    }

    /** Zooms so that the place under (x, y) of the canvas stays there. */
    zoom(factor, x = this.canvas.width / 2, y = this.canvas.height / 2) {
        if (!this.list) return;
        const scale = Math.min(CLOSEST * this.ratio, Math.max(this.whole / 2, this.scale * factor));
        this.left += x / this.scale - x / scale;
        this.top += y / this.scale - y / scale;
        this.scale = scale;
        this.fitted = false;
        this.later();
    }

    pan(dx, dy) {
        if (!this.list) return;
        const { width, height } = this.list, seenWide = this.canvas.width / this.scale, seenHigh = this.canvas.height / this.scale;
        this.left = Math.min(width - seenWide / 4, Math.max(-seenWide * 3 / 4, this.left - dx / this.scale));
        this.top = Math.min(height - seenHigh / 4, Math.max(-seenHigh * 3 / 4, this.top - dy / this.scale));
        this.fitted = false;
        this.later();
    }

    /** Brings a face into sight, and near enough to be seen. */
    bring(face) {
        let low = [Infinity, Infinity], high = [-Infinity, -Infinity];
        this.walk(face, (x, y) => {
            low = [Math.min(low[0], x), Math.min(low[1], y)];
            high = [Math.max(high[0], x), Math.max(high[1], y)];
        });
        const { canvas } = this, wide = high[0] - low[0], tall = high[1] - low[1];
        const most = 0.7 * Math.min(canvas.width / wide, canvas.height / tall);
        if (this.scale > most || Math.max(wide, tall) * this.scale < 40 * this.ratio) this.scale = Math.max(this.whole, Math.min(most, 16 * this.ratio));
        this.left = (low[0] + high[0]) / 2 - canvas.width / 2 / this.scale;
        this.top = (low[1] + high[1]) / 2 - canvas.height / 2 / this.scale;
        this.fitted = false;
        this.later();
    }

    choose(face, bring = false) {
        this.chosen = face;
        if (face >= 0 && bring) this.bring(face);
        this.lit();
    }

    /** Tells which piece is lit now, and draws it. */
    lit() {
        const face = this.pointed >= 0 ? this.pointed : this.chosen;
        if (face !== this.outline?.face) this.outline = face < 0 ? null : this.outlineOf(face);
        this.onPiece(face, this.chosen);
        this.later();
    }

    walk(face, visit, contourStarts = () => {}) {
        const { faces, contours: { starts, corners } } = this.list, first = faces[5 * face + 1];
        for (let contour = first; contour < first + faces[5 * face + 2]; contour++) {
            contourStarts(contour);
            for (let i = starts[contour]; i < starts[contour + 1]; i++) visit(corners[2 * i], corners[2 * i + 1]);
        }
    }

    outlineOf(face) {
        const outline = { face, rims: new Path2D(), holes: new Path2D(), all: new Path2D() };
        let path = null, begun = false;
        this.walk(face, (x, y) => {
            for (const one of [path, outline.all]) begun ? one.lineTo(x, y) : one.moveTo(x, y);
            begun = true;
        }, (contour) => {
            for (const one of [path, outline.all]) one?.closePath();
            path = this.list.holes[contour] ? outline.holes : outline.rims;
            begun = false;
        });
        for (const one of [path, outline.all]) one.closePath();
        return outline;
    }

    faceUnder(event) {
        const box = this.canvas.getBoundingClientRect();
        const x = Math.floor(this.left + (event.clientX - box.left) * this.ratio / this.scale);
        const y = Math.floor(this.top + (event.clientY - box.top) * this.ratio / this.scale);
        const { list } = this;
        return list && x >= 0 && y >= 0 && x < list.width && y < list.height ? list.faceAt[y * list.width + x] - 1 : -1;
    }

    later() {
        if (this.due) return;
        this.due = true;
        requestAnimationFrame(() => {
            this.due = false;
            this.draw();
        });
    }

    draw() {
        const { brush, canvas, list, scale, left, top } = this;
        brush.setTransform(1, 0, 0, 1, 0, 0);
        brush.clearRect(0, 0, canvas.width, canvas.height);
        if (!list) return;
        const placed = () => brush.setTransform(scale, 0, 0, scale, -left * scale, -top * scale);
        this.ground();
        placed();
        brush.imageSmoothingEnabled = scale < 1;
        brush.drawImage(this.small && scale * list.width <= this.small.width ? this.small : list.image, 0, 0, list.width, list.height);
        if (this.showCuts) {
            if (scale < LINES_FROM * this.ratio) this.dotted();
            else this.lines();
        }
        if (this.outline) this.light(placed);
        if (this.showCorners) this.corners();
    }

    /** Waste shows as a pale checked ground. */
    ground() {
        const { brush, list, scale, left, top } = this, side = 8 * this.ratio;
        if (!this.checks) {
            const check = document.createElement('canvas');
            check.width = check.height = 2 * side;
            const small = check.getContext('2d');
            small.fillStyle = '#fbf9f3';
            small.fillRect(0, 0, 2 * side, 2 * side);
            small.fillStyle = '#ece6d9';
            small.fillRect(0, 0, side, side);
            small.fillRect(side, side, side, side);
            this.checks = brush.createPattern(check, 'repeat');
        }
        brush.fillStyle = this.checks;
        brush.fillRect(-left * scale, -top * scale, list.width * scale, list.height * scale);
    }

    /** The cuts seen from afar: a dot for each of the canvas's pixels that holds one. */
    dotted() {
        const { list, scale, left, top, cutCanvas } = this, { width: wide, height: high } = cutCanvas;
        const number = Math.min(list.levels.length - 1, Math.max(0, Math.ceil(Math.log2(1 / scale))));
        const level = list.levels[number], cell = 2 ** number;
        const place = (start, count, limit) => {
            const cells = new Int32Array(count), firsts = new Uint8Array(count);
            for (let i = 0; i < count; i++) {
                const at = Math.floor((start + i / scale) / cell);
                cells[i] = at >= 0 && at < limit ? at : -1;
                firsts[i] = at !== Math.floor((start + (i - 1) / scale) / cell) ? 1 : 0;
            }
            return [cells, firsts];
        };
        const [columns, firstColumns] = place(left, wide, level.wide), [rows, firstRows] = place(top, high, level.high);
        const small = cutCanvas.getContext('2d'), image = small.createImageData(wide, high), dots = new Uint32Array(image.data.buffer);
        const ink = (scale < 1 ? 150 : 215) << 24 | CUT[2] << 16 | CUT[1] << 8 | CUT[0];
        for (let j = 0; j < high; j++) {
            if (rows[j] < 0) continue;
            const row = rows[j] * level.wide;
            for (let i = 0; i < wide; i++) {
                if (columns[i] < 0) continue;
                const bits = level.bits[row + columns[i]];
                if (bits !== 0 && ((bits & 1 && firstRows[j]) || (bits & 2 && firstColumns[i]))) dots[j * wide + i] = ink;
            }
        }
        small.putImageData(image, 0, 0);
        this.brush.setTransform(1, 0, 0, 1, 0, 0);
        this.brush.drawImage(cutCanvas, 0, 0);
    }

    /** The cuts from near: lines along runs of them, of what is in sight. */
    lines() {
        const { brush, canvas, list, scale, left, top } = this, { bits, wide, high } = list.levels[0];
        const fromX = Math.max(0, Math.floor(left)), toX = Math.min(wide - 1, Math.ceil(left + canvas.width / scale));
        const fromY = Math.max(0, Math.floor(top)), toY = Math.min(high - 1, Math.ceil(top + canvas.height / scale));
        const at = (x, y) => [(x - left) * scale, (y - top) * scale];
        brush.setTransform(1, 0, 0, 1, 0, 0);
        brush.beginPath();
        const run = (bit, outerFrom, outerTo, innerFrom, innerTo, corner) => {
            for (let outer = outerFrom; outer <= outerTo; outer++) {
                let start = -1;
                for (let inner = innerFrom; inner <= innerTo + 1; inner++) {
                    const [x, y] = corner(inner, outer), here = inner <= innerTo && bits[y * wide + x] & bit;
                    if (here && start < 0) start = inner;
                    if (!here && start >= 0) {
                        brush.moveTo(...at(...corner(start, outer)));
                        brush.lineTo(...at(x, y));
                        start = -1;
                    }
                }
            }
        };
        run(1, fromY, toY, fromX, toX, (x, y) => [x, y]);
        run(2, fromX, toX, fromY, toY, (y, x) => [x, y]);
        brush.lineWidth = Math.min(3, 1 + scale / 20) * Math.max(1, this.ratio * 0.75);
        brush.lineCap = 'square';
        brush.strokeStyle = `rgb(${CUT})`;
        brush.stroke();
    }

    light(placed) {
        const { brush, outline, ratio, scale } = this;
        placed();
        brush.fillStyle = 'rgb(255 214 64 / .45)';
        brush.fill(outline.all, 'evenodd');
        brush.lineJoin = 'round';
        for (const [path, colour, dashes] of [[outline.rims, '#c25400', []], [outline.holes, '#0b63b5', [5, 4]]]) {
            brush.setLineDash([]);
            brush.lineWidth = 5 * ratio / scale;
            brush.strokeStyle = 'rgb(255 255 255 / .85)';
            brush.stroke(path);
            brush.setLineDash(dashes.map((dash) => dash * ratio / scale));
            brush.lineWidth = 2.5 * ratio / scale;
            brush.strokeStyle = colour;
            brush.stroke(path);
        }
        brush.setLineDash([]);
    }

    /** A ring around each corner by which a piece hangs; where there are too many in sight, around those of the piece that is lit. */
    corners() {
        const { brush, canvas, list, scale, left, top, ratio, outline } = this, found = list.hangingCorners;
        const radius = Math.min(7, Math.max(2, scale / ratio)) * ratio;
        const inSight = (wanted) => {
            const rings = [];
            for (let i = 0; i < found.length && rings.length <= MOST_RINGS; i += 3) {
                const x = (found[i] - left) * scale, y = (found[i + 1] - top) * scale;
                if (x > -radius && y > -radius && x < canvas.width + radius && y < canvas.height + radius && wanted(found[i + 2])) rings.push([x, y]);
            }
            return rings;
        };
        let rings = inSight(() => true);
        if (rings.length > MOST_RINGS) rings = inSight((face) => face === outline?.face);
        brush.setTransform(1, 0, 0, 1, 0, 0);
        brush.beginPath();
        for (const [x, y] of rings) {
            brush.moveTo(x + radius, y);
            brush.arc(x, y, radius, 0, 2 * Math.PI);
        }
        brush.lineWidth = 1.6 * ratio;
        brush.strokeStyle = MARK;
        brush.stroke();
    }

    listen() {
        const { canvas, pointers } = this;
        const place = ({ clientX, clientY }) => [clientX * this.ratio, clientY * this.ratio];
        let moved = 0;
        canvas.addEventListener('pointerdown', (event) => {
            canvas.setPointerCapture(event.pointerId);
            pointers.set(event.pointerId, place(event));
            moved = pointers.size > 1 ? Infinity : 0;
        });
        canvas.addEventListener('pointermove', (event) => {
            if (!this.list) return;
            if (!pointers.has(event.pointerId)) {
                const face = this.faceUnder(event);
                if (face !== this.pointed) {
                    this.pointed = face;
                    this.lit();
                }
                return;
            }
            const [x, y] = place(event), [beforeX, beforeY] = pointers.get(event.pointerId);
            moved += Math.hypot(x - beforeX, y - beforeY) / this.ratio;
            if (pointers.size === 2) {
                const [otherX, otherY] = [...pointers].find(([id]) => id !== event.pointerId)[1], box = canvas.getBoundingClientRect();
                const factor = Math.hypot(x - otherX, y - otherY) / Math.max(1, Math.hypot(beforeX - otherX, beforeY - otherY));
                this.pan((x - beforeX) / 2, (y - beforeY) / 2);
                this.zoom(factor, (x + otherX) / 2 - box.left * this.ratio, (y + otherY) / 2 - box.top * this.ratio);
            } else if (moved > 4) {
                canvas.classList.add('dragged');
                this.pan(x - beforeX, y - beforeY);
            }
            pointers.set(event.pointerId, [x, y]);
        });
        const gone = (event) => {
            if (pointers.delete(event.pointerId) && event.type === 'pointerup' && moved <= 4 && this.list) this.choose(this.faceUnder(event));
            if (pointers.size === 0) canvas.classList.remove('dragged');
        };
        canvas.addEventListener('pointerup', gone);
        canvas.addEventListener('pointercancel', gone);
        canvas.addEventListener('pointerleave', () => {
            if (this.pointed >= 0) {
                this.pointed = -1;
                this.lit();
            }
        });
        canvas.addEventListener('wheel', (event) => {
            event.preventDefault();
            const box = canvas.getBoundingClientRect();
            this.zoom(Math.exp(-event.deltaY * (event.deltaMode === 1 ? 0.05 : 0.0015)), (event.clientX - box.left) * this.ratio, (event.clientY - box.top) * this.ratio);
        }, { passive: false });
        canvas.addEventListener('keydown', (event) => {
            if (!this.list || event.ctrlKey || event.metaKey || event.altKey) return;
            const step = 60 * this.ratio;
            const keys = {
                ArrowLeft: () => this.pan(step, 0), ArrowRight: () => this.pan(-step, 0), ArrowUp: () => this.pan(0, step), ArrowDown: () => this.pan(0, -step),
                '+': () => this.zoom(1.5), '=': () => this.zoom(1.5), '-': () => this.zoom(1 / 1.5), '0': () => this.fit(),
                n: () => this.turn(1), p: () => this.turn(-1), Escape: () => this.choose(-1),
            };
            const act = keys[event.key] ?? keys[event.key.toLowerCase()];
            if (!act) return;
            event.preventDefault();
            act();
        });
    }

    /** The next piece, or the previous one. */
    turn(by) {
        const count = this.list.counts.faces;
        if (count === 0) return;
        this.pointed = -1;
        this.choose(this.chosen < 0 ? (by > 0 ? 0 : count - 1) : (this.chosen + by + count) % count, true);
    }
}

export const swatch = (list, paint) => {
    const mark = document.createElement('span');
    mark.className = 'swatch';
    mark.style.background = colourOf(list, paint);
    return mark;
};
