// Keys and the mouse, the address, and the start of the page.

const KEYS = {
  ArrowRight: () => move(1), ArrowLeft: () => move(-1), ArrowDown: () => moveRow(1), ArrowUp: () => moveRow(-1),
  "]": () => moveInLog(1), "[": () => moveInLog(-1), "+": () => zoom(1.5), "=": () => zoom(1.5), "-": () => zoom(1 / 1.5),
  0: () => showAll(), Enter: () => chosen >= 0 && showAll(box.at[chosen] - 6, box.at[chosen] + 6),
  Home: () => n && choose(0), End: () => n && choose(n - 1), PageDown: () => scrollRows(1), PageUp: () => scrollRows(-1),
  n: () => nextHit(1), N: () => nextHit(-1), "/": () => byId("search").focus(), f: moveToFault,
  o: () => chosen >= 0 && light(box.object[chosen]),
  r: () => { isTall = !isTall; layout(); choose(chosen); },
  Escape: () => { search((byId("search").value = "")); if (only >= 0) light(only); choose(-1); },
};

function press(event) {
  if (event.ctrlKey || event.metaKey || event.altKey) return;
  if (["top", "foot"].includes(event.target.id) && /^(Arrow|Page|Home|End)/.test(event.key)) return; // (these scroll)
  if (event.target === byId("search")) {
    if (event.key === "Enter") nextHit(event.shiftKey ? -1 : 1);
    if (event.key === "Escape") event.target.blur(), KEYS.Escape();
  } else if (event.target.tagName !== "BUTTON" || event.key !== "Enter") {
    const part = event.shiftKey && { ArrowRight: 0.2, ArrowLeft: -0.2 }[event.key];
    if (part) pan(part);
    else if (KEYS[event.key]) KEYS[event.key]();
    else return;
    event.preventDefault();
  }
}

// The mouse over the rows: the wheel zooms, a drag pans, a click chooses.
function listenToMouse() {
  let held = null;
  canvas.onwheel = (event) => {
    event.preventDefault();
    const side = event.shiftKey ? event.deltaY : event.deltaX;
    if (Math.abs(side) > Math.abs(event.shiftKey ? 0 : event.deltaY)) pan(side / (width - GUTTER));
    else zoom(Math.exp(-event.deltaY * 0.002), event.offsetX);
    point(event);
  };
  canvas.onpointerdown = (event) => {
    held = { x: event.clientX, y: event.clientY, from, top: byId("scroll").scrollTop, isMoved: false };
    canvas.setPointerCapture(event.pointerId);
  };
  canvas.onpointermove = (event) => {
    if (!held) return point(event);
    held.isMoved = held.isMoved || Math.abs(event.clientX - held.x) + Math.abs(event.clientY - held.y) > 4;
    if (!held.isMoved) return;
    from = held.from - (event.clientX - held.x) / scale;
    byId("scroll").scrollTop = held.top - (event.clientY - held.y);
    byId("card").hidden = true;
    redraw();
  };
  canvas.onpointerup = (event) => {
    const at = held && !held.isMoved && hit(event.offsetX, event.offsetY + scrolled);
    held = null;
    at === false ? show() : choose(at ? at.i : -1, false);
  };
  canvas.onpointerleave = () => point(null);
  canvas.ondblclick = (event) => zoom(6, event.offsetX);
}

function listen() {
  const goTo = (part) => ((from = part * most - (width - GUTTER) / scale / 2), show());
  overview.onpointerdown = overview.onpointermove = (event) =>
    event.buttons && goTo((event.offsetX - GUTTER) / (width - GUTTER - 8));
  document.onkeydown = press;
  let waits = 0;
  byId("search").oninput = (event) => { clearTimeout(waits); waits = setTimeout(() => search(event.target.value), 120); };
  byId("scroll").onscroll = redraw;
  onresize = darkOrLight.onchange = () => { layout(); redraw(); };
}

// Draws anew, and keeps behind the # of the address what is in sight, so that it can be sent.
let remembers = 0;
function show() {
  redraw();
  clearTimeout(remembers);
  remembers = setTimeout(() => {
    const values = { from: from.toFixed(1), to: (from + (width - GUTTER) / scale).toFixed(1) };
    if (chosen >= 0) values.at = chosen;
    if (isTall) values.tall = 1;
    if (only >= 0) values.only = D.objects[only].name;
    if (byId("search").value) values.q = byId("search").value;
    history.replaceState(null, "", "#" + new URLSearchParams(values));
  }, 300);
}

function recall() {
  const values = new URLSearchParams(location.hash.slice(1)), near = D.marked.length ? box.at[D.marked[0]] : 0;
  if (+values.get("to") > 0) showAll((+values.get("from") || 0) + 0.5, +values.get("to") - 0.5);
  else near && most > 40 ? showAll(near - 5, near + 5) : showAll();
  if (values.has("tall")) KEYS.r();
  if (values.has("q")) search((byId("search").value = values.get("q")));
  const object = D.objects.findIndex((object) => object.name === values.get("only"));
  if (object >= 0) light(object);
  const at = values.has("at") ? +values.get("at") : near ? D.marked[0] : -1;
  choose(at >= 0 && at < n ? Math.floor(at) : -1, false);
}

const HELP = [
  ["← →", "entry before, behind"], ["+ −", "closer, farther; wheel"], ["↑ ↓", "row above, below"], ["0", "whole run"],
  ["[ ]", "event in the object's log"], ["Enter", "close to the chosen entry"], ["/", "search"],
  ["shift ← →", "along the run (drag)"], ["n N", "found: next, before"], ["r", "taller rows"], ["o", "its object alone"],
];

function help() {
  const table = make("table");
  const cells = [...HELP, D.marked.length ? ["f", D.mark + "; Esc clears"] : ["Esc", "clear all"]].flat().map((it) => make("td", {}, it));
  while (cells.length) table.append(make("tr", {}, ...cells.splice(0, 4)));
  const tails = hasTails() ? " A pale tail grows with how often the CPU looked at the lock." : "";
  return make("div", { id: "keys" }, make("div", {}, `${D.means}${tails} Hatched: no room in the log.`), table);
}

async function start() {
  D = await readData();
  prepare();
  document.body.classList.toggle("bad", D.isBad);
  const button = (object, number) =>
    make("button", { title: object.said + ": its entries alone", "data-object": number, onclick: () => light(number) },
      make("i", { style: `background:${D.colours[number % 16]}` }), object.name);
  const sample = n ? `cpu ${box.cpu[0]}, ${D.texts[box.text[0]].split(/ [=|;] /)[0]}` : "cpu 3";
  const terms = `such as: ${sample}; or noroom; or ${D.note} > 100${D.marked.length ? "; or wrong" : ""}`;
  const field = make("input", { id: "search", type: "search", placeholder: `search, such as: ${sample}`, title: terms,
    "aria-label": `search the entries, ${terms}` });
  byId("tools").append(...D.objects.map(button), field, make("span", { id: "found", className: "grey", role: "status" }));
  canvas = make("canvas", { tabIndex: 0, role: "application", "aria-label": `${D.title}. The arrows go from entry to entry.` });
  overview = make("canvas", { role: "img", "aria-label": "the whole run, and which part of it is in sight" });
  [context, strip] = [canvas, overview].map((it) => it.getContext("2d"));
  const parts = [make("div", { id: "one", "aria-live": "polite" }), make("div", { id: "near" }), help()];
  const scroll = make("div", { id: "scroll" }, make("div", { id: "tall" }, canvas));
  byId("main").append(overview, scroll, make("footer", { id: "foot", tabIndex: 0 }, ...parts));
  if (byId("top").firstChild) byId("top").tabIndex = 0;
  document.body.append(make("div", { id: "card", hidden: true }));
  layout();
  listenToMouse();
  listen();
  recall();
  draw();
  performance.mark("drawn");
  // (paper has the picture)
  setTimeout(() => (byId("print").innerHTML = D.print));
}
const ready = start();
