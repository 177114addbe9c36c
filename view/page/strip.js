// The whole run in a strip at the top, with what is in sight; and below it the places.
let whole = null; // the strip without what is in sight, which is kept

function drawStrip() {
  const wide = width - GUTTER - 8;
  paint(strip, ink.paper, 0, 0, width, STRIP + AXIS);
  if (!whole) drawWhole(wide);
  strip.drawImage(whole, GUTTER, 3);
  const onStrip = (place) => GUTTER + Math.max(0, Math.min(1, place / most)) * wide;
  for (const [list, colour] of [[hits.slice(0, 5000), ink.link], [D.marked, ink.bad]])
    for (const i of list) paint(strip, colour, onStrip(box.at[i] - 0.5) - 1, 0, 2, STRIP);
  const left = onStrip(from), right = onStrip(placeAt(width));
  strip.globalAlpha = 0.72;
  paint(strip, ink.paper, GUTTER, 2, left - GUTTER, STRIP - 4);
  paint(strip, ink.paper, right, 2, GUTTER + wide - right, STRIP - 4);
  strip.globalAlpha = 1;
  strip.strokeStyle = ink.ink;
  strip.strokeRect(left, 1.5, Math.max(2, right - left), STRIP - 3);
  drawPlaces();
}

function drawPlaces() {
  const ten = 10 ** Math.ceil(Math.log10(70 / scale));
  const each = Math.max(1, ten * [0.2, 0.5, 1].find((part) => part * ten * scale >= 70));
  strip.fillStyle = ink.grey;
  strip.font = "12px system-ui, sans-serif";
  strip.textAlign = "center";
  for (let place = Math.max(each, Math.ceil(from / each) * each); place <= Math.min(most, placeAt(width)); place += each) {
    const at = x(place - 0.5), half = strip.measureText(byNumber(place)).width / 2;
    if (at > GUTTER + 8) strip.fillText(byNumber(place), Math.min(at, width - half - 2), STRIP + 15);
  }
  strip.textAlign = "left";
  strip.fillText("whole run", 10, STRIP - 7);
  strip.fillText(D.isOrder ? "place" : "number", 10, STRIP + 15);
}

function drawWhole(wide) {
  whole = make("canvas", { width: Math.max(1, wide), height: STRIP - 6 });
  const parts = Math.max(1, Math.min(most, Math.ceil(wide / 4))), pen = whole.getContext("2d");
  const has = countParts([...box.at.keys()], parts, (i) => Math.floor(((box.at[i] - 1) / most) * parts));
  const full = has.total.reduce((a, b) => Math.max(a, b), 1);
  eachPiece(has, full, whole.height, (part, object, low, high) => {
    const colour = object < 0 ? ink.dim : D.colours[object % 16];
    paint(pen, colour, (part * wide) / parts, whole.height - high, wide / parts + 0.3, high - low);
  });
}
