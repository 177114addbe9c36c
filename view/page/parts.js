// Drawing where boxes are folded. Of each part every row has a bar, the higher the more entries it has there, in the objects'
// colours. Behind it stands a pale one, the higher the more was looked. There may be 100,000 such pieces, so they are written
// as pixels.

// A colour such as #0072b2, of six digits, as a pixel's four bytes.
const pixelOf = (colour) => (0xff000000 | parseInt(colour.slice(5, 7) + colour.slice(3, 5) + colour.slice(1, 3), 16)) >>> 0;

function drawParts() {
  const dots = devicePixelRatio || 1, image = context.createImageData(canvas.width, canvas.height), wide = PART * dots;
  const parts = Math.ceil((width - GUTTER) / PART), end = from + 1 + (parts * PART) / scale;
  const sights = inRow.map((list) => list.slice(firstFrom(list, from + 1), firstFrom(list, end)));
  // A row is full at twice what a part has on the whole, so that one crowded part doesn't flatten all others.
  const all = sights.reduce((sum, list) => sum + list.length, 0), full = Math.max(1, (2 * all) / parts / inRow.length);
  const pixels = new Uint32Array(image.data.buffer), fill = filler(pixels, canvas.width, canvas.height, Math.round(wide) - 1);
  const leftOf = (part) => Math.round(GUTTER * dots + part * wide);
  const colours = D.colours.map(pixelOf), [dim, wait, ...shades] = [ink.dim, ink.wait, ink.shade, ink.paper].map(pixelOf);
  for (const [row] of rowsInSight()) {
    const has = countParts(sights[row], parts, partOf);
    const [top, bottom] = [topOf(row), topOf(row + 1)].map((y) => Math.round(y * dots)), room = bottom - top - 2;
    pixels.fill(shades[row % 2], Math.max(0, top) * canvas.width, Math.max(0, bottom) * canvas.width);
    const lookHigh = (part) => Math.min(1, has.looks[part] / has.total[part] / 10) * room;
    for (let part = 0; hasTails() && part < parts; part++) fill(leftOf(part), bottom - 1, bottom - 1 - lookHigh(part), wait);
    eachPiece(has, full, room, (part, object, low, high, isHatched) =>
      fill(leftOf(part), bottom - 1 - low, bottom - 1 - high, object < 0 ? dim : colours[object % 16], isHatched));
  }
  context.putImageData(image, 0, 0);
}

// Of each part how many entries each object has, with and without room; those that aren't lit come first.
function countParts(list, parts, part) {
  const kinds = 2 * D.objects.length + 1, counts = new Uint32Array(parts * kinds);
  const total = new Uint32Array(parts), looks = new Float32Array(parts);
  for (const i of list) {
    const at = Math.min(parts - 1, part(i));
    counts[at * kinds + (isDim(i) ? 0 : 1 + 2 * box.object[i] + isNoroom[i])]++;
    total[at]++;
    looks[at] += box.long[i];
  }
  return { kinds, counts, total, looks };
}

// The pieces of the bars, from below to above: the part, the object or -1, and from where to where.
function eachPiece({ kinds, counts, total }, full, room, draw) {
  for (let part = 0; part < total.length; part++)
    for (let kind = 0, low = 0; total[part] && kind < kinds; kind++) {
      const high = low + counts[part * kinds + kind] * (room / Math.max(full, total[part]));
      if (high > low) draw(part, (kind - 1) >> 1, low, high, kind && kind % 2 === 0);
      low = high;
    }
}

// Fills a part of the pixels from below to above, hatched or whole.
function filler(pixels, across, down, wide) {
  return (left, below, above, colour, isHatched = false) => {
    const right = Math.min(left + wide, across), end = Math.min(down, Math.round(below));
    for (let y = Math.max(0, Math.round(above)); y < end; y++)
      for (let x = left, at = y * across + left; x < right; x++, at++) if (!isHatched || (x + y) % 4 < 2) pixels[at] = colour;
  };
}
