// The rows of boxes of a record's page, as columns of numbers (model.py says which), what is in sight of them, and where.
const GUTTER = 78, STRIP = 22, AXIS = 20, LETTER = 7.25;
const FOLD = 3, PART = 5; // boxes narrower than FOLD pixels are counted into parts of PART pixels
let D, n, inRow, ofObject, isNoroom, isMarked, most, box = {};  // what is shown; `most` is the greatest place
let from = 0, scale = 1, rowHeight = 20, width = 0, ink = {};   // how: the place at the left edge, and pixels for a place
let chosen = -1, pointed = null, only = -1, found = null, hits = [];
let canvas, context, overview, strip, hatched = [], asked = 0, isTall = false;

const byNumber = (number) => number.toLocaleString("en");
const x = (place) => GUTTER + (place - from) * scale;
const placeAt = (pixel) => from + (pixel - GUTTER) / scale;
const partOf = (i) => Math.floor(((box.at[i] - 1 - from) * scale) / PART);
const objectOf = (i) => D.objects[box.object[i]];
const hasTails = () => D.isOrder && D.note === "looks";
const isLog = (row) => !D.isOrder && row < D.objects.length;
const isDim = (i) => (only >= 0 && box.object[i] !== only) || (found && !found[i]);

function prepare() {
  n = D.boxes.cpu.length;
  for (const [key, column] of Object.entries({ row: D.boxes.cpu, ...D.boxes })) box[key] = Float64Array.from(column);
  const reached = D.rows.map(() => 0);
  box.at = box.row.map((row, i) => (D.isOrder ? i + 1 : ++reached[row]));
  box.long = box.looks.map((looks) => Math.log2(1 + looks));
  most = box.at.reduce((a, b) => Math.max(a, b), 1);
  [inRow, ofObject] = [D.rows.map(() => []), D.objects.map(() => [])];
  const without = D.texts.map((text) => !text.includes(" = "));
  isNoroom = Uint8Array.from(box.text, (text) => without[text]);
  isMarked = new Uint8Array(n);
  D.marked.forEach((i) => (isMarked[i] = 1));
  for (let i = 0; i < n; i++) {
    inRow[box.row[i]].push(i);
    if (box.event[i] && (D.isOrder || isLog(box.row[i]))) ofObject[box.object[i]].push(i);
  }
}

// Where in a row, or among an object's events, the first box is whose place or event is at least this.
function firstFrom(list, least, column = box.at) {
  let low = 0, high = list.length;
  while (low < high) {
    const middle = (low + high) >> 1;
    column[list[middle]] < least ? (low = middle + 1) : (high = middle);
  }
  return low;
}

// How long a tail is, in places: more by the same for each doubling of the looks, as far as there is room in the row.
function tail(list, k) {
  if (!hasTails()) return 0;
  const room = box.at[list[k]] - 1 - (k ? box.at[list[k - 1]] : 0) + 0.1;
  return Math.min(0.25 * box.long[list[k]], room);
}

// Keeps what is in sight within the run.
function limit() {
  const sight = width - GUTTER - 8;
  scale = Math.max(Math.min(150, sight / (most + 1)), Math.min(260, scale));
  from = Math.max(-0.5, Math.min(most + 0.5 - sight / scale, from));
  if (sight / scale >= most + 0.99) from = -0.5;
}

// The box at a place of the canvas, or the boxes of the part there.
function hit(pixel, y) {
  const row = Math.floor(y / rowHeight), list = inRow[row];
  if (!list || pixel < GUTTER) return null;
  if (scale < FOLD) {
    const [low, high] = [pixel - PART, pixel + PART].map((edge) => firstFrom(list, placeAt(edge)));
    const wanted = Math.floor((pixel - GUTTER) / PART);
    const part = list.slice(low, high + 2).filter((i) => partOf(i) === wanted);
    return part.length ? { row, i: part[0], part } : null;
  }
  const k = firstFrom(list, placeAt(pixel));
  return k < list.length && placeAt(pixel) >= box.at[list[k]] - 1 - tail(list, k) ? { row, i: list[k] } : null;
}
