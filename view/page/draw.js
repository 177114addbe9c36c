// Drawing: rows, boxes with their words, frames, and the way of an object that is lit. The canvas has what is in sight;
// `scrolled` is how far the rows are scrolled.
let scrolled = 0;
const topOf = (row) => row * rowHeight - scrolled;
const gap = () => (scale > 12 ? scale * 0.1 : scale > 5 ? 1 : 0);

function readInk() {
  for (const name of ["ink", "grey", "paper", "shade", "bad", "link", "dim", "wait", "dark", "white"])
    ink[name] = styled("--" + name);
  hatched = D.colours.map((colour) => {
    const tile = make("canvas", { width: 6, height: 6 }), pen = tile.getContext("2d");
    pen.strokeStyle = colour;
    pen.lineWidth = 2;
    for (const shift of [-6, 0, 6]) pen.stroke(new Path2D(`M${shift - 1} 7L${shift + 7} -1`));
    return context.createPattern(tile, "repeat");
  });
}

function layout() {
  fit(overview, strip, byId("scroll").clientWidth, STRIP + AXIS);
  const room = Math.max(1, byId("scroll").clientHeight);
  const least = isTall ? 22 : D.rows.length <= 32 ? 17 : 8;
  rowHeight = Math.max(least, Math.min(44, Math.floor((room - 2) / D.rows.length)));
  byId("tall").style.height = Math.max(room, rowHeight * D.rows.length) + "px";
  width = byId("scroll").clientWidth;
  fit(canvas, context, width, room);
  fit(overview, strip, width, STRIP + AXIS);
  readInk();
  whole = null;
}

const redraw = () => (asked = asked || requestAnimationFrame(() => { asked = 0; draw(); }));

function rowsInSight() {
  const first = Math.floor(scrolled / rowHeight), end = Math.ceil((scrolled + byId("scroll").clientHeight) / rowHeight);
  return inRow.slice(first, end).map((list, k) => [first + k, list]);
}

function draw() {
  limit();
  scrolled = byId("scroll").scrollTop;
  paint(context, ink.paper, 0, 0, width, canvas.height);
  for (const [row] of rowsInSight()) if (row % 2 === 0) paint(context, ink.shade, 0, topOf(row), width, rowHeight);
  scale < FOLD ? drawParts() : drawBoxes();
  drawPath();
  D.marked.forEach((i) => frame(i, ink.bad, 3));
  if (chosen >= 0) frame(chosen, ink.ink, 2);
  if (pointed && pointed.i >= 0 && scale >= FOLD) frame(pointed.i, ink.ink, 1);
  drawNames();
  drawStrip();
}

function frame(i, colour, wide) {
  const more = wide > 2 ? 2 : 0, left = x(box.at[i] - 1) + gap();
  context.strokeStyle = colour;
  context.lineWidth = wide;
  const wideness = Math.max(scale - gap(), 4) + 2 * more;
  context.strokeRect(Math.max(left, -50) - more, topOf(box.row[i]) + 2 - more, wideness, rowHeight - 4 + 2 * more);
}

function drawBoxes() {
  const end = placeAt(width);
  context.font = `12px ${MONO}`;
  context.textBaseline = "middle";
  for (const [row, list] of rowsInSight())
    for (let k = firstFrom(list, from); k < list.length && box.at[list[k]] - 17 < end; k++) drawBox(list, k, topOf(row) + 2);
}

function drawBox(list, k, y) {
  const i = list[k], left = x(box.at[i] - 1) + gap(), wide = Math.max(1, scale - gap());
  const high = rowHeight - 4, long = tail(list, k) * scale, colour = isDim(i) ? ink.dim : D.colours[box.object[i] % 16];
  context.globalAlpha = 0.38;
  if (long > 0.5) paint(context, colour, left - long, y + high * 0.28, long, high * 0.44);
  context.globalAlpha = 1;
  if (isNoroom[i]) paint(context, ink.paper, left, y, wide, high);
  paint(context, isNoroom[i] && !isDim(i) ? hatched[box.object[i] % 16] : colour, left, y, wide, high);
  if (rowHeight >= 14) label(list, k, left, wide, y + high / 2 + 0.5);
}

// The words of a box: in it, or to its right where there is room before the next one of the row.
function label(list, k, left, wide, y) {
  const i = list[k], text = D.texts[box.text[i]];
  const next = k + 1 < list.length ? x(box.at[list[k + 1]] - 1 - tail(list, k + 1)) : width;
  const fits = Math.floor((wide - 7) / LETTER), isBeside = text.length > fits && wide < 70 && !isDim(i);
  if (isBeside && (next - left - wide - 9) / LETTER >= text.length) return write(context, ink.grey, text, left + wide + 4, y);
  if (fits < 4) return;
  const shown = text.length > fits ? text.slice(0, fits - 1) + "…" : text;
  if (isNoroom[i]) paint(context, ink.paper, left + 3, y - 7, shown.length * LETTER + 2, 14);
  write(context, ink[isNoroom[i] || isDim(i) ? "ink" : D.inks[box.object[i] % 16]], shown, left + 4, y);
}

// The way of the object that was chosen to be seen alone, from CPU to CPU.
function drawPath() {
  if (only < 0 || !D.isOrder || scale < 1) return;
  const list = ofObject[only], last = firstFrom(list, placeAt(width) + 2);
  context.beginPath();
  for (let k = Math.max(0, firstFrom(list, from) - 1); k <= last && k < list.length; k++)
    context.lineTo(x(box.at[list[k]] - 0.5), topOf(box.row[list[k]] + 0.5));
  context.strokeStyle = ink.ink;
  context.globalAlpha = 0.45;
  context.lineWidth = 1.2;
  context.stroke();
  context.globalAlpha = 1;
}

function drawNames() {
  paint(context, ink.paper, 0, 0, GUTTER - 4, canvas.height);
  context.font = "13px system-ui, sans-serif";
  context.textBaseline = "middle";
  const each = Math.ceil(15 / rowHeight);
  for (const [row] of rowsInSight()) {
    if (isLog(row)) paint(context, D.colours[row % 16], 0, topOf(row) + 1, 5, rowHeight - 2);
    const y = Math.max(topOf(row + 0.5) + 1, row ? -9 : 8);
    if (row % each === 0) write(context, ink.ink, D.rows[row], 10, y, GUTTER - 18);
  }
}
