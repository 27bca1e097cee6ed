// The page: its controls, the worker behind them, the piece that is lit, the table of pieces.
import { LONGEST_SHEET } from './mosaic.mjs';
import { colourOf, holesOf, squareCentimetres } from './pieces.mjs';
import { swatch, View } from './view.mjs';

const ROWS = 100;
const STAGES = {
    start: 'Fetching the library', read: 'Reading the picture', colours: 'Colours to veneers', merge: 'Merging near colours', size: 'Counting the cuts',
    whole: 'Cutting', veneer: 'Measuring the pieces', pieces: 'Gathering the pieces', draw: 'Drawing', file: 'Writing the file',
};

const at = (id) => document.getElementById(id);
const number = (value) => value.toLocaleString('en').replaceAll(',', '\u202f');
const squares = (value) => (value >= 1 ? value.toFixed(2) : value.toPrecision(2));
const things = (count, name) => `${number(count)} ${name}${count === 1 ? '' : 's'}`;

// ---------------------------------------------------------------- the worker

let worker = null, calls = new Set(), waiting = new Map(), asked = 0;

function ask(job, rest) {
    const id = ++asked;
    worker.postMessage({ id, job, ...rest });
    return new Promise((done, failed) => waiting.set(id, { done, failed }));
}

function giveUp(problem) {
    for (const { failed } of waiting.values()) failed(new Error(problem));
    waiting.clear();
}

async function begin() {
    worker = new Worker(new URL('worker.mjs', import.meta.url), { type: 'module' });
    worker.onmessage = ({ data: { id, answer, problem, stage, part } }) => {
        if (stage) return busy(stage, part);
        const { done, failed } = waiting.get(id);
        waiting.delete(id);
        if (problem === undefined) done(answer);
        else failed(new Error(problem));
    };
    worker.onerror = (event) => giveUp(event.message || 'The work broke off: this browser has not enough memory for it.');
    calls = new Set(await ask('start', { wasm: new URL('mosaic.wasm', import.meta.url).href }));
    for (const part of document.querySelectorAll('[data-needs]')) part.hidden = !part.dataset.needs.split(' ').every(can);
}

const can = (name) => calls.has(`mosaic_${name}`);

function busy(stage, part = null) {
    at('busy').hidden = stage === null;
    if (stage === null) return;
    at('message').hidden = true;
    at('stage-name').textContent = STAGES[stage];
    if (part === null) at('progress').removeAttribute('value');
    else at('progress').value = part;
}

function complain(text) {
    at('message').textContent = text;
    at('message').hidden = false;
}

// ---------------------------------------------------------------- picture and cut

let source = null; // what was chosen: { blob } or { name }
let opened = null; // its sides and colours, when the worker has it
let list = null; // its pieces
let running = 0; // the number of the last cut asked for

const view = new View(at('view'), showPiece);

let turn = Promise.resolve(); // done when the last cut begun is

/** Cuts what is chosen, as the controls say. Where more is asked for meanwhile, the last alone is cut. */
function cut() {
    if (!source) return;
    const mine = ++running;
    busy('read');
    turn = turn.then(async () => {
        if (mine !== running) return;
        try {
            await cutNow(() => mine === running);
        } catch (error) {
            if (mine !== running) return;
            showList(null);
            complain(error.message);
        }
        if (mine === running) busy(null);
    });
}

async function cutNow(wanted) {
    if (!worker) await begin();
    if (!opened) {
        opened = await ask('open', source);
        if (!wanted()) return;
        proportion('width');
        if (at('keep').checked && !sides().every(allowed)) { // a very tall picture: as high a sheet as there is
            at('sheet-height').value = LONGEST_SHEET;
            proportion('height');
        }
    }
    const found = await ask('cut', { limit: Number(at('limit').value) || -1, waste: at('waste').checked });
    if (wanted()) showList(found);
    else found.image.close();
}

function choose(next) {
    source = next;
    turn = turn.then(() => { opened = null; });
    for (const button of document.querySelectorAll('[data-picture]')) button.setAttribute('aria-pressed', String(button.dataset.picture === next.name));
    cut();
}

function stop() {
    running++;
    worker?.terminate();
    worker = opened = null;
    giveUp('Stopped.');
    showList(null);
    busy(null);
    complain('Stopped. Change a control or choose a picture to go on.');
}

function showList(found) {
    list = found;
    view.show(found);
    for (const button of document.querySelectorAll('[data-file]')) button.disabled = !found;
    at('summary').textContent = found
        ? `${number(found.width)} × ${number(found.height)} pixels · ${things(found.paints, 'veneer')} · ${things(found.counts.faces, 'piece')} · ${things(found.counts.segments, 'cut')}` : '';
    showPiece(-1, -1);
    order();
}

// ---------------------------------------------------------------- the sheet

const sides = () => [Number(at('sheet-width').value), Number(at('sheet-height').value)];
const allowed = (side) => side > 0 && side <= LONGEST_SHEET;

/** Sets the other side by the picture's proportions, where they are kept. */
function proportion(typed) {
    if (at('keep').checked && opened) {
        const [wide, high] = sides(), { width, height } = opened;
        if (typed === 'width' && allowed(wide)) at('sheet-height').value = Number((wide * height / width).toPrecision(7));
        if (typed === 'height' && allowed(high)) at('sheet-width').value = Number((high * width / height).toPrecision(7));
    }
    sheetChanged();
}

function sheetChanged() {
    const good = sides().map(allowed);
    ['sheet-width', 'sheet-height'].forEach((id, i) => at(id).setAttribute('aria-invalid', String(!good[i])));
    at('sheet-problem').textContent = good.includes(false) ? `A side of the sheet is above 0 and at most ${LONGEST_SHEET} mm.` : '';
    if (list) {
        showPiece(view.pointed >= 0 ? view.pointed : view.chosen, view.chosen);
        showRows();
    }
}

const onSheet = () => sides().every(allowed) && can('move') && can('veneer');

// ---------------------------------------------------------------- the piece that is lit

function showPiece(face, chosen) {
    const card = at('piece');
    if (!list || face < 0) {
        card.innerHTML = '<p class="hint">Point at a piece, or tap it.</p>';
        card.style.borderColor = '';
    } else {
        const [region, , , x, y] = list.faces.subarray(5 * face, 5 * face + 5);
        const facts = [['Piece', number(face)], ['Veneer', number(region), swatch(list, region)], ['First pixel', `${x}, ${y}`]];
        if (list.sums) facts.push(['Area', things(list.sums[face], 'pixel')]);
        if (onSheet()) facts.push(['On the sheet', `${squares(squareCentimetres(list, face, sides()))} cm²`]);
        facts.push(['Holes', number(holesOf(list, face))]);
        const terms = document.createElement('dl');
        for (const [name, text, before] of facts) {
            const pair = document.createElement('div'), term = document.createElement('dt'), fact = document.createElement('dd');
            term.textContent = name;
            if (before) fact.append(before);
            fact.append(text);
            pair.append(term, fact);
            terms.append(pair);
        }
        card.replaceChildren(terms);
        if (list.hangs[face]) {
            const warning = document.createElement('span');
            warning.className = 'corner';
            warning.textContent = '◇ hangs by a corner only';
            card.append(warning);
        }
        card.style.borderColor = colourOf(list, region);
    }
    for (const row of at('rows').children) row.classList.toggle('chosen', Number(row.dataset.face) === chosen);
}

// ---------------------------------------------------------------- the table

let column = 'face', falling = false, faces = new Uint32Array(0), firstRow = 0;

const keys = {
    face: (face) => face,
    veneer: (face) => list.faces[5 * face],
    place: (face) => list.faces[5 * face + 4] * list.width + list.faces[5 * face + 3],
    pixels: (face) => list.sums[face],
    cm2: (face) => list.sums[face],
    holes: (face) => holesOf(list, face),
    corner: (face) => list.hangs[face],
};

/** Puts the faces into the order of the chosen column; equal ones stay in their own. */
function order() {
    const hanging = at('only-hanging').checked, count = list?.counts.faces ?? 0;
    faces = new Uint32Array(count);
    let filled = 0;
    for (let face = 0; face < count; face++) if (!hanging || list.hangs[face]) faces[filled++] = face;
    faces = faces.subarray(0, filled);
    if (column !== 'face' || falling) {
        const values = new Float64Array(count), sign = falling ? -1 : 1;
        for (let face = 0; face < count; face++) values[face] = keys[column](face);
        faces.sort((a, b) => sign * (values[a] - values[b]) || a - b);
    }
    for (const head of document.querySelectorAll('th')) {
        if (head.dataset.column === column) head.setAttribute('aria-sort', falling ? 'descending' : 'ascending');
        else head.removeAttribute('aria-sort');
    }
    firstRow = 0;
    showRows();
}

function cells(face) {
    const [region, , , x, y] = list.faces.subarray(5 * face, 5 * face + 5);
    const show = document.createElement('button');
    show.type = 'button';
    show.textContent = number(face);
    show.setAttribute('aria-label', `Show piece ${face}`);
    const veneer = document.createElement('span');
    veneer.append(swatch(list, region), number(region));
    const found = [show, veneer, `${x}, ${y}`];
    if (can('veneer')) found.push(number(list.sums[face]));
    if (can('veneer') && can('move')) found.push(onSheet() ? squares(squareCentimetres(list, face, sides())) : '–');
    found.push(number(holesOf(list, face)));
    const mark = document.createElement('span');
    if (list.hangs[face]) {
        mark.className = 'corner';
        mark.textContent = '◇';
        mark.title = 'hangs by a corner only';
        mark.setAttribute('role', 'img');
        mark.setAttribute('aria-label', mark.title);
    }
    return [...found, mark];
}

function showRows() {
    const last = Math.min(faces.length, firstRow + ROWS), rows = [];
    for (const face of faces.subarray(firstRow, last)) {
        const row = document.createElement('tr');
        row.dataset.face = face;
        row.classList.toggle('chosen', face === view.chosen);
        for (const content of cells(face)) row.insertCell().append(content);
        rows.push(row);
    }
    at('rows').replaceChildren(...rows);
    at('page-shown').textContent = faces.length === 0 ? 'No pieces' : `${number(firstRow + 1)} to ${number(last)} of ${number(faces.length)}`;
    at('previous').disabled = firstRow === 0;
    at('next').disabled = last === faces.length;
}

function turnPage(by) {
    firstRow += by * ROWS;
    showRows();
    document.querySelector('.scroller').scrollTop = 0;
}

// ---------------------------------------------------------------- downloads

async function download(kind) {
    if (!sides().every(allowed)) return at('sheet-width').focus();
    const name = source.blob?.name ?? `${source.name}.png`;
    busy('file');
    try {
        const blob = await ask('file', { kind, name, sheet: sides() });
        const link = document.createElement('a');
        link.href = URL.createObjectURL(blob);
        link.download = `${name.replace(/\.[^.]*$/, '')}.${kind}`;
        link.click();
        setTimeout(() => URL.revokeObjectURL(link.href), 60000);
        busy(null);
    } catch (error) {
        busy(null);
        complain(error.message);
    }
}

// ---------------------------------------------------------------- what the controls do

const on = (id, event, act) => at(id).addEventListener(event, act);

at('controls').addEventListener('submit', (event) => event.preventDefault());
on('file', 'change', () => {
    const [blob] = at('file').files;
    if (blob) choose({ blob });
    at('file').value = '';
});
for (const button of document.querySelectorAll('[data-picture]')) button.addEventListener('click', () => choose({ name: button.dataset.picture }));
for (const button of document.querySelectorAll('[data-file]')) button.addEventListener('click', () => download(button.dataset.file));
on('limit', 'input', () => { at('limit-shown').textContent = Number(at('limit').value) || 'off'; });
on('limit', 'change', cut);
on('waste', 'change', cut);
on('sheet-width', 'input', () => proportion('width'));
on('sheet-height', 'input', () => proportion('height'));
on('keep', 'change', () => proportion('width'));
on('stop', 'click', stop);
on('zoom-in', 'click', () => view.zoom(1.5));
on('zoom-out', 'click', () => view.zoom(1 / 1.5));
on('fit', 'click', () => view.fit());
on('show-cuts', 'change', () => { view.showCuts = at('show-cuts').checked; view.later(); });
on('show-corners', 'change', () => { view.showCorners = at('show-corners').checked; view.later(); });
on('only-hanging', 'change', order);
on('previous', 'click', () => turnPage(-1));
on('next', 'click', () => turnPage(1));
on('rows', 'click', (event) => {
    const row = event.target.closest('tr');
    if (row) view.choose(Number(row.dataset.face), true);
});
for (const head of document.querySelectorAll('th')) {
    head.querySelector('button').addEventListener('click', () => {
        falling = column === head.dataset.column ? !falling : ['pixels', 'cm2', 'holes', 'corner'].includes(head.dataset.column);
        column = head.dataset.column;
        order();
    });
}

let entered = 0; // dragenter and dragleave come for each element on the way
document.addEventListener('dragenter', () => { if (++entered) document.body.classList.add('over'); });
document.addEventListener('dragleave', () => { if (--entered <= 0) document.body.classList.remove('over'); });
document.addEventListener('dragover', (event) => event.preventDefault());
document.addEventListener('drop', (event) => {
    event.preventDefault();
    entered = 0;
    document.body.classList.remove('over');
    const [blob] = event.dataTransfer.files;
    if (blob) choose({ blob });
});

choose({ name: 'boat' });
