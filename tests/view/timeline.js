// Runs in the page of a record. Says what is wrong, or how many boxes were found where they should be.
(() => {
  const fail = (words) => { throw new Error(words); };
  const same = (is, wanted, words) => is === wanted || fail(`${words}: ${is}, not ${wanted}`);
  const key = (name, more = {}) => document.dispatchEvent(new KeyboardEvent("keydown", { key: name, bubbles: true, ...more }));

  // A click on a box finds it, and it alone; drawn alone or folded, it is in sight.
  for (const wanted of [0.05, 40])
    for (let i = 0; i < n; i++) {
      scale = wanted;
      from = box.at[i] - 3;
      limit();
      const pixel = scale >= FOLD ? x(box.at[i] - 0.5) : GUTTER + (partOf(i) + 0.5) * PART;
      const there = hit(pixel, (box.row[i] + 0.5) * rowHeight);
      const isThere = there && (scale >= FOLD ? there.i === i : there.part.includes(i));
      if (!isThere) fail(`box ${i} isn't where it should be`);
    }
  key("0");
  if (n > 2) {
    choose(-1);
    key("ArrowRight");
    const first = chosen;
    key("ArrowRight");
    if (D.isOrder) same(chosen, Math.min(n - 1, first + 1), "the next entry");
    for (const name of ["ArrowDown", "ArrowUp", "+", "-", "PageDown", "PageUp", "r", "r", "Enter"]) key(name);
    key("Home");
    same(chosen, 0, "the first entry");
    const before = chosen;
    key("]");
    same(box.object[chosen], box.object[before], "the same object");
    if (chosen !== before) same(box.event[chosen], box.event[before] + 1, "the next event");
    key("o");
    same(only, box.object[chosen], "one object alone");
    key("Escape");
    same(only + chosen, -2, "nothing is chosen");
    const from_ = from;
    zoom(4);
    key("ArrowRight", { shiftKey: true });
    if (from <= from_) fail("nothing moves along the run");
    search("noroom");
    same(hits.length, isNoroom.reduce((a, b) => a + b, 0), "entries without room");
    search("wrong");
    same(hits.length, D.marked.length, "wrong entries");
    key("Escape");
    key("f");
    same(chosen, D.marked.length ? D.marked[0] : -1, "the first fault");
  }
  return `${n} boxes`;
})();
