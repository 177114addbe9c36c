// What the reader does: choosing, moving, zooming, searching.

function choose(i, isShown = true) {
  chosen = i;
  byId("one").replaceChildren(...(i < 0 ? ["Click a box, or go to one with the arrow keys."] : card(i)));
  byId("near").replaceChildren(...(i < 0 ? [] : nearTable(i)));
  if (i >= 0 && isShown) {
    const sight = (width - GUTTER) / scale, at = box.at[i] - 0.5, scroll = byId("scroll");
    const above = box.row[i] * rowHeight - scroll.scrollTop;
    if (at < from + sight * 0.05 || at > from + sight * 0.95) from = at - sight / 2;
    if (above < 0 || above + rowHeight > scroll.clientHeight) scroll.scrollTop += above - scroll.clientHeight / 2;
  }
  show();
}

function zoom(factor, pixel = (width + GUTTER) / 2) {
  const place = placeAt(pixel);
  scale *= factor;
  limit();
  from = place - (pixel - GUTTER) / scale;
  show();
}

function showAll(low = 0, high = most) {
  [scale, from] = [(width - GUTTER - 8) / (high - low + 1), low - 0.5];
  show();
}

// Part of what is in sight to the right, or with a number below 0 to the left.
const pan = (part) => ((from += (part * (width - GUTTER)) / scale), show());

function light(number) {
  only = only === number ? -1 : number;
  whole = null;
  document.querySelectorAll("button[data-object]").forEach((button, at) => button.setAttribute("aria-pressed", at === only));
  show();
}

// All that can be searched of an entry, between spaces.
function wordsOf(i) {
  const object = objectOf(i), said = object.said.replace(/[:,]/g, "");
  const more = (isNoroom[i] ? " noroom" : "") + (isMarked[i] ? " wrong" : "");
  return ` cpu ${box.cpu[i]} entry ${box.entry[i]} event ${box.event[i]} ${said} ${D.texts[box.text[i]]}${more} `.toLowerCase();
}

// Terms between commas; each has to be there, as whole words: `cpu 3, enq 5`; or `looks > 100`.
function search(query) {
  const terms = query.toLowerCase().split(",").map((term) => term.trim()).filter(Boolean);
  const tests = terms.map((term) => {
    const bound = term.match(/^(?:looks|note)\s*>\s*(\d+)$/);
    return bound ? (i) => box.looks[i] > +bound[1] : (i, words) => words.includes(` ${term} `);
  });
  found = tests.length ? new Uint8Array(n) : null;
  hits = [];
  for (let i = 0; found && i < n; i++) {
    const words = wordsOf(i);
    if (tests.every((test) => test(i, words))) hits.push(i), (found[i] = 1);
  }
  whole = null;
  byId("found").textContent = found ? `${byNumber(hits.length)} found` : "";
  show();
}

function nextHit(way) {
  if (!hits.length) return;
  const at = hits.findIndex((i) => (way > 0 ? i > chosen : i >= chosen));
  const next = way > 0 ? (at < 0 ? 0 : at) : ((at < 0 ? hits.length : at) - 1 + hits.length) % hits.length;
  byId("found").textContent = `${byNumber(next + 1)} of ${byNumber(hits.length)}`;
  choose(hits[next]);
}

function point(event) {
  pointed = event ? hit(event.offsetX, event.offsetY + scrolled) : null;
  const shown = byId("card");
  shown.hidden = !pointed;
  if (pointed) {
    shown.replaceChildren(...(pointed.part ? partCard(pointed.row, pointed.part) : card(pointed.i)));
    const below = event.clientY + 18, isAbove = below + shown.offsetHeight > innerHeight;
    shown.style.left = Math.max(4, Math.min(event.clientX + 14, innerWidth - shown.offsetWidth - 8)) + "px";
    shown.style.top = (isAbove ? below - 28 - shown.offsetHeight : below) + "px";
  }
  if (scale >= FOLD) redraw();
}

// To the entry before or behind, in the order or in the row.
function move(way) {
  if (!n) return;
  if (chosen < 0) return choose(D.marked.length ? D.marked[0] : Math.max(0, box.at.findIndex((at) => at - 1 >= from)));
  if (D.isOrder) return choose(Math.max(0, Math.min(n - 1, chosen + way)));
  const list = inRow[box.row[chosen]], k = list.indexOf(chosen) + way;
  if (list[k] !== undefined) choose(list[k]);
}

function moveRow(way) {
  if (chosen < 0) return move(0);
  for (let row = box.row[chosen] + way; inRow[row]; row += way)
    if (inRow[row].length) return choose(inRow[row][Math.min(inRow[row].length - 1, firstFrom(inRow[row], box.at[chosen]))]);
}

function moveInLog(way) {
  if (chosen < 0) return;
  const list = ofObject[box.object[chosen]], k = firstFrom(list, box.event[chosen], box.event) + way;
  if (box.event[chosen] && list[k] !== undefined) choose(list[k]);
}

// To the first fault, or around the cycle.
const moveToFault = () => D.marked.length && choose(D.marked[(D.marked.indexOf(chosen) + 1) % D.marked.length]);
const scrollRows = (way) => (byId("scroll").scrollTop += way * byId("scroll").clientHeight * 0.8);
