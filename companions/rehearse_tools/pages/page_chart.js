"use strict";
// The chart of a page: what stands in which row at which step, worked out from the data of the page and drawn as SVG. Nothing
// here looks at the page itself but for its data. A story is the steps of the base or of a plan.
const LETTER = 6.6;
const DIGIT = 7;
const BOLD = 7.7;
const LINE = 13;
const ROW = 18;
const LONGEST_HEAD = 60;
// A column that is narrower has no text above it.
const NARROWEST_HEAD = 14;
const LONG_TIME = 60000;
// A sheet of A4 on its side has room for so much.
const SHEET = 1040;
const HIGHEST = 690;
// So much of the first sheet has the title and the legend.
const TITLE = 130;
const data = JSON.parse(document.getElementById("data").textContent);
const nodes = new Map(data.names.map(([full, label, short], place) => [full, { label, short, number: String(place + 1) }]));
const AT_NODE = new Set(["boot", "crash", "start", "stop", "permit", "takeover", "exit"]);
const parts = new Map();

// A text that means nothing in HTML but itself.
function escaped(text) {
  return text.replace(/[&<>"']/g, (sign) => `&#${sign.charCodeAt(0)};`);
}

function labelOf(name) {
  return nodes.has(name) ? nodes.get(name).label : name;
}

// A time, as hours, minutes, seconds and milliseconds where it is long.
function timeOf(clock) {
  if (clock < LONG_TIME) { return `${clock} ms`; }
  const two = (number) => String(number).padStart(2, "0");
  const seconds = Math.floor(clock / 1000);
  const rest = clock % 1000 ? "." + String(clock % 1000).padStart(3, "0") : "";
  return `${Math.floor(seconds / 3600)}:${two(Math.floor(seconds / 60) % 60)}:${two(seconds % 60)}${rest}`;
}

// A cell: how it is drawn, what may be written into it, the longest first, and all of it.
function cell(look, words, tip) {
  return { look, words, tip };
}

function clockCell(clock) {
  const time = timeOf(clock);
  return cell("clock", [time, time.replace(/ ms$/, "").replace(/^0:/, "")], `${clock} ms`);
}

// How much time passes in a step, or how far `undo` goes back.
function passCell(time) {
  const sign = time < 0 ? "\u2212" : "+";
  const size = Math.abs(time);
  const units = [[60000, "m", 60000], [1000, "s", 100], [1, "ms", 1]].filter(([unit, , part]) => size >= unit && size % part === 0);
  const words = [sign + timeOf(size), ...units.flatMap(([unit, name]) => [`${sign}${size / unit} ${name}`, `${size / unit}${name}`]), sign];
  return cell(time < 0 ? "back" : "pass", words, time < 0 ? `back by ${size} ms` : `${size} ms pass`);
}

// The cell for a line of a report below a node.
function laneCell([word, , , kind, ...more], tip) {
  if (word === "running") {
    const long = kind === "normal" ? [] : [`runs, ${[kind, ...more.map(labelOf)].join(" ")}`, `runs, ${kind}`];
    return cell("run", [...long, "runs", "R"], tip);
  }
  return word === "waiting" ? cell("wait", ["waits", "w"], tip) : cell("forbidden", ["forbidden", "f"], tip);
}

// What a line of a report below a node tells in words.
function laneTip([word, app, ...rest], node) {
  const verbs = { running: "runs at", waiting: "waits at", forbidden: "is forbidden at" };
  return `${app} ${verbs[word]} ${node}` + (rest.length ? `, ${rest.join(" ")}` : "");
}

function appPart([, app, state, node]) {
  const tip = [app, state, node].filter((word) => word).join(" ");
  const place = nodes.get(node);
  const words = state === "running" ? [place.label, place.short, place.number, "R"] : [state, state[0].toUpperCase()];
  const own = cell(state === "running" ? "run" : state, state === "quiet" ? ["quiet", "q"] : words, tip);
  // Where it was lost, or waits to be placed since.
  return { kind: "app", name: app, own, lanes: new Map(node && state !== "running" ? [[node, own]] : []) };
}

function nodePart([, node, mode, count], below) {
  const lanes = new Map();
  for (const words of below) {
    const before = lanes.get(words[1]);
    const tip = laneTip(words, node);
    lanes.set(words[1], before ? cell(before.look, ["waits, forbidden", "forbidden", "f"], `${before.tip}, forbidden`)
      : laneCell(words, tip));
  }
  return { kind: "node", name: node, own: cell(mode, [mode, mode[0]], `${node} is ${mode}, booted ${count}\u00d7`), lanes };
}

// What a place of a report tells: its kind, what it tells of, its own cell, and the cells of the rows of an application at a node.
function partOf(text) {
  if (!parts.has(text)) {
    const [head, ...below] = text.split("\n").map((line) => line.split(" ").filter((word) => word));
    const read = {
      now: () => ({ kind: "clock", name: "", own: clockCell(Number(head[1])), lanes: new Map() }),
      app: () => appPart(head), node: () => nodePart(head, below) }[head[0]];
    parts.set(text, read ? read() : { kind: "timers", name: "", own: null, lanes: new Map() });
  }
  return parts.get(text);
}

// A story: its steps, and for each place of a report the steps in which its text has changed. `before` are the texts from which
// the steps of a plan go on.
function storyOf(name, told, before = []) {
  const places = before.map((text) => ({ steps: [0], texts: [text] }));
  const steps = before.length ? [{ command: "", answer: "", notes: [] }] : [];
  for (const [command, answer, changes, notes = []] of told) {
    for (let pair = 0; pair < changes.length; pair += 2) {
      const place = places[changes[pair]] ??= { steps: [], texts: [] };
      place.steps.push(steps.length);
      place.texts.push(data.texts[changes[pair + 1]]);
    }
    steps.push({ command: data.texts[command], answer: data.texts[answer], notes });
  }
  const story = { name, steps, places, last: steps.length - 1, first: before.length ? "the base" : "first state" };
  return { ...story, passes: passesOf(places[0], steps.length), losses: lossesOf(places) };
}

// The text of a place at a step: that of the last change up to there.
function textAt(place, step) {
  let low = 0;
  let high = place.steps.length;
  while (high - low > 1) {
    const middle = (low + high) >> 1;
    if (place.steps[middle] <= step) { low = middle; } else { high = middle; }
  }
  return place.texts[low];
}

function clockOf(text) {
  return Number(text.split(" ")[1]);
}

function clockAt(story, step) {
  return clockOf(textAt(story.places[0], step));
}

// How much time passes in each step.
function passesOf(clock, count) {
  const found = new Array(count).fill(0);
  clock.steps.forEach((step, at) => { found[step] = at ? clockOf(clock.texts[at]) - clockOf(clock.texts[at - 1]) : 0; });
  return found;
}

// The steps in which an application is lost: it becomes lost or wanted, and was neither before.
function lossesOf(places) {
  const found = new Set();
  for (const place of places) {
    const isAway = place.texts.map((text) => /^app [^ ]+ (lost|wanted)/.test(text));
    isAway.forEach((now, at) => {
      if (at && now && !isAway[at - 1]) { found.add(place.steps[at]); }
    });
  }
  return [...found].sort((one, other) => one - other);
}

// The spans of a row: from which step to which it has the same cell. The cell follows from what some places tell.
function spansOf(places, last, cellIn) {
  const found = [];
  for (const from of [...new Set(places.flatMap((place) => place.steps))].sort((one, other) => one - other)) {
    const now = cellIn(places.map((place) => partOf(textAt(place, from)))) || null;
    const before = found[found.length - 1];
    if (before && (before.cell && before.cell.tip) === (now && now.tip)) { continue; }
    if (before) { before.to = from; }
    found.push({ from, to: last + 1, cell: now });
  }
  return found.filter((span) => span.cell);
}

// A row, whose spans are worked out when they are first wanted.
function row(kind, name, label, makeSpans) {
  let spans = null;
  return { kind, name, label, spans: () => spans ??= makeSpans() };
}

function clockRow(story) {
  return row("clock", "clock", "clock", () => spansOf([story.places[0]], story.last, ([part]) => part.own));
}

function passRow(story) {
  const spans = () => story.passes.flatMap((time, step) => (time ? [{ from: step, to: step + 1, cell: passCell(time) }] : []));
  return row("pass", "passes", "passes", spans);
}

// The applications that have a row below some node, for each node; in the order of the reports.
function lanesOf(places) {
  const found = new Map([...nodes.keys()].map((node) => [node, new Set()]));
  for (const place of places) {
    for (const part of new Set(place.texts.map(partOf))) {
      for (const key of part.lanes.keys()) {
        if (part.kind === "app") { found.get(key).add(part.name); } else { found.get(part.name).add(key); }
      }
    }
  }
  return found;
}

// The rows of a chart below its head: the distributed applications, the nodes, and below each the applications there.
function rowsOf(story, hasLanes) {
  const kinds = story.places.map((place) => partOf(place.texts[0]));
  const apps = new Map(story.places.flatMap((place, at) => (kinds[at].kind === "app" ? [[kinds[at].name, place]] : [])));
  const own = (place) => () => spansOf([place], story.last, ([part]) => part.own);
  const rows = [...apps].map(([app, place]) => row("app", app, app, own(place)));
  const lanes = lanesOf(story.places);
  const order = new Set([...apps.keys(), ...[...lanes.values()].flatMap((found) => [...found])]);
  story.places.forEach((place, at) => {
    const { kind, name } = kinds[at];
    if (kind !== "node") { return; }
    rows.push(row("node", name, `${nodes.get(name).number} ${labelOf(name)}`, own(place)));
    for (const app of hasLanes ? [...order].filter((each) => lanes.get(name).has(each)) : []) {
      const both = apps.has(app) ? [place, apps.get(app)] : [place];
      const cellIn = ([here, there]) => here.lanes.get(app) || (there && there.lanes.get(name));
      rows.push(row("lane", app, app, () => spansOf(both, story.last, cellIn)));
    }
  });
  return rows;
}

// A text in lines of so many letters, broken at blanks; a longer word behind a sign, else anywhere.
function wrapped(text, most) {
  const lines = [""];
  const isLong = (word) => word.trimEnd().length > most;
  for (let word of text.split(/(?<= )/).flatMap((each) => (isLong(each) ? each.split(/(?<=[@._+-])/) : [each]))) {
    if (!isLong(lines[lines.length - 1] + word)) {
      lines[lines.length - 1] += word;
      continue;
    }
    for (; isLong(word); word = word.slice(most)) { lines.push(word.slice(0, most)); }
    lines.push(word);
  }
  return lines.map((line) => line.trimEnd()).filter((line) => line);
}

// What stands above a column.
function headText(story, step) {
  const { command, answer } = story.steps[step];
  const words = command.split(" ");
  if (AT_NODE.has(words[0]) && nodes.has(words[1])) { words[1] = nodes.get(words[1]).short; }
  return (answer.startsWith("refused ") ? "\u2717 " : "") + (command ? words.join(" ") : story.first);
}

// How many letters a line has to have, so that a text has at most so many lines.
function lettersFor(text, lines) {
  const longest = Math.max(...text.split(" ").map((word) => word.length));
  let letters = Math.max(Math.ceil(text.length / lines), Math.min(longest, LONGEST_HEAD / 2));
  while (wrapped(text, letters).length > lines) { letters += 1; }
  return letters;
}

// How the commands stand above columns of a width: in lines of so many letters, upright, or not at all.
function headOf(story, width) {
  if (width < NARROWEST_HEAD) { return { letters: 0, height: 0 }; }
  const lines = Math.floor((width - 2) / LINE);
  const texts = new Set(story.steps.map((_, step) => headText(story, step)));
  const letters = Math.min(LONGEST_HEAD, Math.max(...[...texts].map((text) => lettersFor(text, lines))));
  return { letters, height: letters * LETTER + 8 };
}

// Where each column begins, and where the last one ends. By time, a column is wider the longer its step takes.
function positions(story, width, isByTime) {
  const longest = story.passes.reduce((most, time) => Math.max(most, time), 1);
  const found = [0];
  for (const time of story.passes) {
    found.push(found[found.length - 1] + width * (isByTime ? 1 + 8 * Math.max(0, time) / longest : 1));
  }
  return found;
}

// The height of the row of times: where one is wider than its columns and these have room for a line, it stands upright.
function clockHeight(spans, x) {
  const crowded = spans.filter(({ from, to, cell: { words } }) => !fitting(words, x[to] - x[from] - 2) && x[to] - x[from] >= LINE);
  return crowded.reduce((most, { cell: { words } }) => Math.max(most, words[0].length * LETTER + 8), ROW);
}

// Rows one below another.
function placed(rows, top, room) {
  const found = [];
  let y = top;
  let before = "";
  for (const each of rows) {
    const most = Math.max(6, Math.floor(each.kind === "node" ? room / BOLD : each.kind === "lane" ? (room - 12) / LETTER : room / LETTER));
    const lines = wrapped(each.label, most);
    y += each.kind === "node" || before === "app" && each.kind !== "app" ? 6 : 0;
    const height = Math.max(ROW, lines.length * LINE + 4);
    found.push({ row: each, y, height, lines });
    y += height;
    before = each.kind;
  }
  return found;
}

// Where everything stands. The names of the rows aren't wider than `room`; with them `wide` is in view, or on paper all.
function layoutOf(story, { width, isByTime, hasLanes, room, wide = Infinity }) {
  const rows = rowsOf(story, hasLanes);
  const x = positions(story, width, isByTime);
  const wish = rows.reduce((most, each) => Math.max(most, each.label.length * (each.kind === "node" ? BOLD : LETTER)
    + (each.kind === "lane" ? 12 : 0)), 6 * LETTER);
  const names = Math.ceil(Math.min(room, wish + 16));
  const head = headOf(story, width);
  const clock = clockRow(story);
  const times = clockHeight(clock.spans(), x);
  const top = [
    { row: clock, y: head.height + ROW, height: times, lines: ["clock"] },
    { row: passRow(story), y: head.height + ROW + times, height: ROW, lines: ["passes"] }];
  const body = placed(rows, 6, names - 16);
  const end = body[body.length - 1];
  return { story, width, x, names, head, top, body, headHeight: head.height + 2 * ROW + times + 2, height: end.y + end.height + 4,
    seen: Math.max(wide - names, 50) };
}

// The column in which a point stands.
function columnAt(x, point) {
  let low = 0;
  let high = x.length - 1;
  while (high - low > 1) {
    const middle = (low + high) >> 1;
    if (x[middle] <= point) { low = middle; } else { high = middle; }
  }
  return low;
}

// The first of several words that isn't wider, or none. A digit is wider than a letter is on the whole; a node's number may stand closer.
function fitting(words, width) {
  const more = (word) => word.replace(/\D/g, "").length * (DIGIT - LETTER) + (/^\d\d?$/.test(word) ? 1 : 4);
  return words.find((word) => word.length * LETTER + more(word) <= width);
}

function textSvg(x, y, look, text, more = "") {
  return text ? `<text x="${x.toFixed(1)}" y="${y.toFixed(1)}" class="${look}"${more}>${escaped(text)}</text>` : "";
}

// Where the word of a span stands: in its middle; in a long one again and again, so far apart.
function middles(x, width, apart) {
  const count = width <= 1.25 * apart ? 1 : Math.ceil(width / apart);
  return Array.from({ length: count }, (_, at) => x + (at + 0.5) * width / count);
}

// The word of a span. It isn't wider than two fifths of what is in view, and stands twice there, so that one of them is whole.
function wordSvg(x, y, width, height, { look, words }, seen) {
  const isClock = look === "clock";
  const word = fitting(words, Math.min(width - 2, isClock ? Infinity : 0.4 * seen));
  const written = (middle) => textSvg(middle, y + height / 2 + 4, `in ${look}`, word);
  if (word) { return middles(x, width, isClock ? Infinity : Math.min(480, seen / 2)).map(written).join(""); }
  if (!isClock || width < LINE) { return ""; }
  const [left, top] = [x + width / 2 + 4, y + height / 2];
  return textSvg(left, top, `in ${look}`, words[0], ` transform="rotate(-90 ${left.toFixed(1)} ${top.toFixed(1)})"`);
}

function spanSvg(x, y, width, height, span, seen) {
  const gap = width > 4 ? 1 : 0;
  const sizes = `width="${Math.max(width - 2 * gap, 1).toFixed(1)}" height="${height - 3}"`;
  const box = `<rect x="${(x + gap).toFixed(1)}" y="${y + 1.5}" ${sizes} class="${span.look}"/>`;
  return `<g><title>${escaped(span.tip)}</title>${box}${wordSvg(x, y, width, height, span, seen)}</g>`;
}

// The spans of a row between two columns. Of those that are narrower than a point only one is drawn there; a loss always is.
function rowSvg({ row: each, y, height }, { x, seen }, first, last) {
  const found = [];
  let drawn = -1;
  for (const { from, to, cell: now } of each.spans()) {
    const [begin, end] = [Math.max(from, first), Math.min(to, last)];
    if (begin >= end) { continue; }
    const [left, right] = [x[begin] - x[first], x[end] - x[first]];
    if (Math.floor(right) === drawn && now.look !== "lost" && now.look !== "wanted") { continue; }
    drawn = Math.floor(right);
    found.push(spanSvg(left, y, right - left, height, now, seen));
  }
  return found.join("");
}

// A command, upright, in lines from the left to the right.
function commandSvg(text, middle, bottom, letters, look) {
  const lines = wrapped(text, letters);
  return lines.map((line, at) => {
    const left = middle + 4 + (at - (lines.length - 1) / 2) * LINE;
    return textSvg(left, bottom, look, line, ` transform="rotate(-90 ${left.toFixed(1)} ${bottom.toFixed(1)})"`);
  }).join("");
}

// What stands above the columns: the commands, the numbers of the steps, and the time.
function headSvg(layout, first, last, hasCommands = true) {
  const { story, x, head, width } = layout;
  const every = [1, 2, 5, 10, 20, 50, 100, 200, 500, 1000].find((count) => count * width >= 28) || 2000;
  const shift = hasCommands ? 0 : -head.height;
  const found = [];
  for (let step = first; step < last; step += 1) {
    const middle = (x[step] + x[step + 1]) / 2 - x[first];
    if (hasCommands && head.letters) {
      const isRefused = story.steps[step].answer.startsWith("refused ");
      const text = commandSvg(headText(story, step), middle, head.height - 2, head.letters, isRefused ? "refused" : "command");
      found.push(`<g><title>${escaped(story.steps[step].command || story.first)}</title>${text}</g>`);
    }
    if (step % every === 0) { found.push(textSvg(middle, head.height + shift + 13, "in number", String(step))); }
  }
  const rows = layout.top.map((each) => rowSvg({ ...each, y: each.y + shift }, layout, first, last));
  return found.join("") + rows.join("");
}

// The names of some rows.
function namesSvg(rows) {
  return rows.map(({ row: { kind, name, label }, y, height, lines }) => {
    const top = y + height / 2 + 4 - (lines.length - 1) * LINE / 2;
    const texts = lines.map((line, at) => textSvg(kind === "lane" ? 20 : 8, top + at * LINE, `label ${kind}`, line));
    return `<g data-row="${escaped(label)}"><title>${escaped(name)}</title>${texts.join("")}</g>`;
  }).join("");
}

// The names of the rows of the head.
function cornerSvg(layout, hasCommands = true) {
  const shift = hasCommands ? 0 : -layout.head.height;
  const label = `<g data-row="step">${textSvg(8, layout.head.height + shift + 13, "label", "step")}</g>`;
  return label + namesSvg(layout.top.map((each) => ({ ...each, y: each.y + shift })));
}

// The columns in lists that aren't wider than so much.
function rangesOf(x, most) {
  const found = [];
  for (let first = 0; first < x.length - 1;) {
    let last = first + 1;
    while (last < x.length - 1 && x[last + 1] - x[first] <= most) { last += 1; }
    found.push([first, last]);
    first = last;
  }
  return found;
}

// The rows in lists that aren't higher than a sheet. A node stays with its applications, if there is room for all.
function blocksOf({ body, head, headHeight }) {
  const found = [[]];
  const bottom = (at) => body[at].y + body[at].height;
  body.forEach(({ row: { kind } }, at) => {
    const room = HIGHEST - headHeight + (found.length > 1 ? head.height : -TITLE);
    const block = found[found.length - 1];
    let end = at;
    while (kind !== "lane" && end + 1 < body.length && body[end + 1].row.kind === "lane") { end += 1; }
    const isAlone = bottom(end) - body[at].y > room;
    if (block.length && bottom(isAlone ? at : end) - block[0].y > room) { found.push([]); }
    found[found.length - 1].push(body[at]);
  });
  return found;
}

// A part of a chart for a sheet of paper, with the names of its rows.
function bandSvg(layout, block, isFirst, [first, last]) {
  const head = layout.headHeight - (isFirst ? 0 : layout.head.height);
  const rows = block.map((each) => ({ ...each, y: each.y - block[0].y + head + 4 }));
  const end = rows[rows.length - 1];
  const size = (width) => `width="${Math.ceil(width)}" height="${end.y + end.height + 4}"`;
  const drawn = headSvg(layout, first, last, isFirst) + rows.map((each) => rowSvg(each, layout, first, last)).join("");
  return `<div class="band"><svg class="names" ${size(layout.names)}>${cornerSvg(layout, isFirst)}${namesSvg(rows)}</svg>`
    + `<svg ${size(layout.x[last] - layout.x[first])}>${drawn}</svg></div>`;
}

// A whole chart in parts for sheets of paper.
function sheetsOf(layout) {
  const ranges = rangesOf(layout.x, SHEET - layout.names);
  return blocksOf(layout).flatMap((block, at) => ranges.map((range) => bandSvg(layout, block, at === 0, range))).join("");
}

// The whole of a story in a narrow strip: for each distributed application when it ran, was lost and was wanted.
function overviewSvg(story, x) {
  const apps = story.places.filter((place) => partOf(place.texts[0]).kind === "app");
  const thick = Math.max(1, Math.min(10, 48 / apps.length));
  const rects = apps.map((place, at) => spansOf([place], story.last, ([part]) => part.own).map(({ from, to, cell: { look } }) => {
    const [share, shift] = look === "run" ? [0.4, 0.3] : [0.9, 0.05];
    return look === "quiet" ? "" : `<rect x="${x[from].toFixed(1)}" y="${((at + shift) * thick).toFixed(2)}" `
      + `width="${(x[to] - x[from]).toFixed(1)}" height="${(share * thick).toFixed(2)}" class="${look}"/>`;
  }).join(""));
  return { height: apps.length * thick, svg: rects.join("") };
}
