// Colours to labels: each colour is a veneer, in the order of first appearance; a pixel that is more transparent than not is waste.
import { OUTSIDE } from './mosaic.mjs';

const HALF = 128;

export class Colours {
    constructor(pixels) {
        this.labels = new Uint32Array(pixels);
        this.filled = 0;
        this.colours = new Uint8Array(3 * 256);
        this.paints = 0;
        this.transparent = 0;
        this.numbers = new Uint32Array(1 << 24); // of a colour: its label and 1, or 0
    }

    labelOf(red, green, blue) {
        const colour = red << 16 | green << 8 | blue;
        if (this.numbers[colour] === 0) {
            if (3 * this.paints === this.colours.length) {
                const longer = new Uint8Array(2 * this.colours.length);
                longer.set(this.colours);
                this.colours = longer;
            }
            this.colours.set([red, green, blue], 3 * this.paints);
            this.numbers[colour] = ++this.paints;
        }
        return this.numbers[colour] - 1;
    }

    /** The next pixels, four bytes each. */
    add(rgba) {
        const { numbers, labels } = this;
        let at = this.filled;
        for (let i = 0; i < rgba.length; i += 4) {
            if (rgba[i + 3] < HALF) {
                labels[at++] = OUTSIDE;
                this.transparent++;
            } else {
                const known = numbers[rgba[i] << 16 | rgba[i + 1] << 8 | rgba[i + 2]];
                labels[at++] = known === 0 ? this.labelOf(rgba[i], rgba[i + 1], rgba[i + 2]) : known - 1;
            }
        }
        this.filled = at;
    }

    /** Labels, colours and paint count, with the transparent pixels as waste or as white veneer. */
    map(waste) {
        if (waste || this.transparent === 0) return { paints: this.paints, colours: this.colours, labels: this.labels };
        const known = this.numbers[0xffffff], white = known === 0 ? this.paints : known - 1, paints = Math.max(this.paints, white + 1);
        const colours = new Uint8Array(3 * paints).fill(255);
        colours.set(this.colours.subarray(0, 3 * this.paints));
        return { paints, colours, labels: this.labels.map((label) => (label === OUTSIDE ? white : label)) };
    }
}
