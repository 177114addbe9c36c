// What an entry has, in words.
function card(i) {
  const text = D.texts[box.text[i]], apart = text.split(" | "), object = objectOf(i), table = make("table");
  const inOne = (part, at) => [part, ["asked", "answered", "but in the log"][at]];
  const rows = apart[1] ? apart.map(inOne) : text.split(" ; ").map((step) => {
    const [call, reply] = step.split(" = ");
    return reply ? [call, "= " + reply] : [call, isNoroom[i] ? "no room" : "not done"];
  });
  for (const [call, reply] of rows)
    table.append(make("tr", {}, make("td", {}, call), make("td", { className: reply.startsWith("=") ? "" : "grey" }, reply)));
  const places = [D.isOrder && `place ${byNumber(box.at[i])}`, `CPU ${box.cpu[i]}`,
    box.entry[i] ? `entry ${byNumber(box.entry[i])}` : "no entry has this event",
    isMarked[i] && D.mark];
  const [event, events, most] = [box.event[i], object.events, object.most].map(byNumber);
  const held = box.event[i] && (D.held[box.object[i]] || [])[box.event[i] - 1];
  const log = box.event[i] ? `event ${event} of ${events} in its log, which may have ${most}` : "no event of its log";
  const looks = D.boxes.looks[i], looked = `looked ${byNumber(looks)} time${looks === 1 ? "" : "s"} at the lock`;
  const lines = [`${object.said}; ${log}`, D.note === "note" ? `note ${looks}` : looked, held && `held before: ${held}`];
  return [make("b", { className: isMarked[i] ? "mark" : "" }, places.filter(Boolean).join(" · ")), table,
    make("div", { className: "grey" }, ...lines.filter(Boolean).map((line) => make("div", {}, line)))];
}

// A part of a row, where entries are folded.
function partCard(row, list) {
  const count = (number) => list.filter((i) => box.object[i] === number).length;
  const counts = D.objects.map((object, number) => `${object.name} ${count(number)}`).filter((text) => !text.endsWith(" 0"));
  const [first, last] = [list[0], list[list.length - 1]].map((i) => byNumber(box.at[i]));
  const looks = list.reduce((greatest, i) => Math.max(greatest, box.looks[i]), 0);
  return [make("b", {}, `${D.rows[row]} · place${first === last ? "" : "s"} ${first}${first === last ? "" : " to " + last}`),
    make("div", {}, `${list.length} entr${list.length > 1 ? "ies" : "y"}: ${counts.join(", ")}`),
    make("div", { className: "grey" }, `most ${D.note}: ${byNumber(looks)}. Zoom in to see each.`)];
}

// The events before and behind this one in its object's log.
function nearTable(i) {
  const list = ofObject[box.object[i]], table = make("table", { className: "near" });
  const here = box.event[i] ? firstFrom(list, box.event[i], box.event) : list.length;
  for (const j of list.slice(Math.max(0, here - 2), here + 3)) {
    const words = [String(box.event[j]), "CPU " + box.cpu[j], D.texts[box.text[j]].split(" | ").pop().slice(0, 60)];
    const name = box.event[j] === box.event[i] ? "here" : "";
    table.append(make("tr", { className: name, onclick: () => choose(j) }, ...words.map((word) => make("td", {}, word))));
  }
  return [make("div", { className: "grey" }, `the log of ${objectOf(i).name} there`), table];
}
