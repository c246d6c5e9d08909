"use strict";
// What a page does: it shows a step of a story, the base or a plan, and draws the part of the chart that is in view.
const at = (id) => document.getElementById(id);
const WIDTHS = [1, 2, 4, 8, 16, 28, 44, 66, 100];
const MOVES = { ArrowLeft: -1, ArrowRight: 1, ArrowDown: -1, ArrowUp: 1, PageUp: -10, PageDown: 10, Home: -Infinity, End: Infinity };
const KEYS = { n: "loss-after", p: "loss-before", "+": "more", "=": "more", "-": "less", f: "fit", b: "base" };
// What is worst stands first where an application's column is sorted.
const WORST = ["wanted", "lost", "quiet", "moved", "stays"];
const base = storyOf("", data.base);
const rowsOfBase = at("steps").querySelectorAll("tbody tr");
const rowsOfPlans = [...at("plans").tBodies[0].rows];
const view = { story: base, step: -1, width: 0, isByTime: false, hasLanes: true, layout: null, drawn: null };
let waits = 0;

// The width of a column of a story as it is opened. The number of each node fits into it.
function usualWidth(story) {
  const longest = story.steps.reduce((most, _, step) => Math.max(most, headText(story, step).length), 0);
  return story.last < 20 ? 44 : story.last < 60 || longest > 26 ? 28 : nodes.size < 10 ? 16 : 18;
}

// Sizes of what is in view: of the frame, and of the chart in it beside the names.
function sizes() {
  const frame = at("frame");
  const names = view.layout.names;
  return { left: frame.scrollLeft, top: frame.scrollTop, width: Math.max(frame.clientWidth - names, 50), height: frame.clientHeight };
}

// The columns and the rows that are in view, with as much again on each side.
function inView() {
  const { x, body, headHeight } = view.layout;
  const { left, top, width, height } = sizes();
  const rows = body.filter(({ y, height: each }) => y + each > top - height && y < top - headHeight + 2 * height);
  return { first: columnAt(x, left - width), last: columnAt(x, left + 2 * width) + 1, rows };
}

// Whether all that is in view is drawn.
function isDrawn() {
  const { x, body, headHeight } = view.layout;
  const { left, top, width, height } = sizes();
  const { first, last, rows } = view.drawn;
  const seen = body.filter(({ y, height: each }) => y + each > top && y < top - headHeight + height);
  return columnAt(x, left) >= first && columnAt(x, left + width) < last && seen.every((each) => rows.includes(each));
}

function setSvg(id, left, width, height, text) {
  const svg = at(id).querySelector("svg");
  svg.style.left = `${left}px`;
  svg.setAttribute("width", Math.ceil(width));
  svg.setAttribute("height", height);
  svg.innerHTML = text;
}

// Draws what is in view, where it isn't drawn.
function draw() {
  showSeen();
  if (view.drawn && isDrawn()) { return; }
  const { layout } = view;
  const { x, names, headHeight, height } = layout;
  const drawn = view.drawn = inView();
  const [left, width] = [x[drawn.first], x[drawn.last] - x[drawn.first]];
  setSvg("corner", 0, names, headHeight, cornerSvg(layout));
  setSvg("head", left, width, headHeight, headSvg(layout, drawn.first, drawn.last));
  setSvg("names", 0, names, height, namesSvg(drawn.rows));
  setSvg("body", left, width, height, drawn.rows.map((each) => rowSvg(each, layout, drawn.first, drawn.last)).join(""));
}

// Tells in the strip above the chart what of it is in view.
function showSeen() {
  const { left, width } = sizes();
  const { x } = view.layout;
  at("seen").setAttribute("x", left);
  at("seen").setAttribute("width", Math.min(width, x[x.length - 1] - left));
}

// The strip above the chart, where the chart is wider than its frame.
function showOverview() {
  const { x } = view.layout;
  const { height, svg } = overviewSvg(view.story, x);
  const strip = at("overview");
  strip.toggleAttribute("hidden", !height || x[x.length - 1] <= sizes().width + 1);
  strip.style.height = `${Math.max(height, 12)}px`;
  strip.setAttribute("viewBox", `0 0 ${x[x.length - 1]} ${height || 1}`);
  strip.innerHTML = `${svg}<rect id="seen" y="0" height="${height || 1}"/>`;
}

// Where everything of the chart stands, and all of it drawn anew. The step stays in view.
function place() {
  const wide = at("frame").clientWidth;
  const layout = view.layout = layoutOf(view.story, { ...view, room: Math.max(90, Math.min(260, wide * 0.36)), wide });
  const total = layout.x[layout.x.length - 1];
  for (const [id, width, height] of [["corner", layout.names, layout.headHeight], ["head", total, layout.headHeight],
    ["names", layout.names, layout.height], ["body", total, layout.height]]) {
    at(id).style.width = `${Math.ceil(width)}px`;
    at(id).style.height = `${height}px`;
  }
  view.drawn = null;
  showOverview();
  if (view.step >= 0) { showColumn(); }
  draw();
}

// Marks the column of the step, and brings it into view.
function showColumn() {
  const { x } = view.layout;
  const [left, right] = [x[view.step], x[view.step + 1]];
  for (const cursor of document.querySelectorAll(".cursor")) {
    cursor.style.left = `${left}px`;
    cursor.style.width = `${Math.max(right - left, 3)}px`;
  }
  const { left: from, width } = sizes();
  if (left < from || right > from + width) { at("frame").scrollLeft = Math.max(0, left - width / 2); }
  draw();
}

// The lines of the report at a step, each with the node to which it belongs.
function reportLines(story, step) {
  return story.places.flatMap((each) => {
    const all = textAt(each, step).split("\n");
    return all.map((text, line) => ({ text, key: (line ? all[0].split(" ")[1] : "") + text }));
  }).filter(({ text }) => text);
}

// Shows the report of a step. What differs from the one before is marked.
function showReport() {
  const before = new Set(reportLines(view.story, Math.max(view.step - 1, 0)).map(({ key }) => key));
  at("report").replaceChildren(...reportLines(view.story, view.step).flatMap(({ text, key }) => {
    const shown = before.has(key) ? document.createTextNode(text) : document.createElement("b");
    shown.textContent = text;
    return [shown, "\n"];
  }));
}

// Shows the command of a step, its comments and its answer.
function showCommand() {
  const { command, answer, notes } = view.story.steps[view.step];
  at("notes").replaceChildren(...notes.map((note) => {
    const shown = document.createElement("div");
    shown.textContent = note;
    return shown;
  }));
  at("command").textContent = command || view.story.first;
  at("answer").textContent = answer;
}

// Shows which step it is, and when.
function showPlace() {
  const clock = clockAt(view.story, view.step);
  at("slider").value = view.step;
  at("slider").setAttribute("aria-valuetext", `step ${view.step} ${view.story.steps[view.step].command}`);
  at("step").textContent = view.step;
  at("clock").textContent = clock;
  at("time").textContent = clock < LONG_TIME ? "" : ` (${timeOf(clock)})`;
  at("told").textContent = (view.story === base ? "" : `Plan ${view.story.name}, `) + at("place").textContent;
  const { losses } = view.story;
  at("loss-before").disabled = !losses.some((step) => step < view.step);
  at("loss-after").disabled = !losses.some((step) => step > view.step);
}

// Tells the address of what is shown. A browser takes only so many changes of it in a time.
function showAddress() {
  const plan = view.story === base ? "" : `plan=${encodeURIComponent(view.story.name)}&`;
  clearTimeout(waits);
  waits = setTimeout(() => history.replaceState(null, "", `#${plan}step=${view.step}`), 400);
}

// Shows a step of the story, the nearest one that there is.
function show(wish) {
  const step = Math.max(0, Math.min(view.story.last, wish));
  if (step === view.step) { return; }
  for (const row of document.querySelectorAll("#steps tr.now")) { row.classList.remove("now"); }
  if (view.story === base) { rowsOfBase[step].classList.add("now"); }
  view.step = step;
  showPlace();
  showCommand();
  showReport();
  showColumn();
  showAddress();
}

// Opens a story at a step.
function open(story, wish) {
  Object.assign(view, { story, step: -1, width: usualWidth(story) });
  at("slider").max = story.last;
  at("count").textContent = story.last;
  at("of").textContent = story === base ? "The base" : `Plan ${story.name}`;
  at("base").hidden = story === base;
  const count = story.losses.length;
  at("losses").textContent = `${count} ${count === 1 ? "step" : "steps"} with a loss`;
  for (const row of rowsOfPlans) { row.classList.toggle("now", story !== base && row === story.row); }
  place();
  show(wish);
}

// The story of a plan, by its number.
function storyOfPlan(number) {
  const end = base.places.map((each) => textAt(each, base.last));
  return { ...storyOf(...data.plans[number], end), row: rowsOfPlans[number] };
}

// Opens what an address names: a plan, or the base.
function openAddress() {
  const [, name, step] = /^#(?:plan=([^&]*))?&?(?:step=(\d+))?$/.exec(location.hash) || [];
  const number = name === undefined ? -1 : data.plans.findIndex(([each]) => name === encodeURIComponent(each) || name === encodeURI(each));
  const isSweep = data.plans.length > 0;
  if (number >= 0) {
    open(storyOfPlan(number), step === undefined ? Infinity : Number(step));
  } else if (view.story !== base || view.step < 0) {
    open(base, step === undefined ? (isSweep ? Infinity : 0) : Number(step));
  } else {
    show(Number(step || 0));
  }
}

// Opens a plan or the base, and goes there.
function goTo(story) {
  open(story, Infinity);
  at("story").scrollIntoView();
  at("of").focus({ preventScroll: true });
}

// Makes the columns wider or narrower. The step stays in view.
function zoom(width) {
  view.width = width;
  place();
}

function wider() {
  zoom(WIDTHS.find((width) => width > view.width + 0.01) || view.width);
}

function narrower() {
  zoom([...WIDTHS].reverse().find((width) => width < view.width - 0.01) || view.width);
}

// All columns side by side.
function fit() {
  const { x } = view.layout;
  const columns = x[x.length - 1] / view.width;
  zoom(Math.min(100, sizes().width / columns));
  at("frame").scrollLeft = 0;
}

function goToLoss(isNext) {
  const { losses } = view.story;
  const found = isNext ? losses.find((step) => step > view.step) : losses.filter((step) => step < view.step).pop();
  if (found !== undefined) { show(found); }
}

// The keys of a row of plans by which a column is sorted.
function sortKey(row, column) {
  const cell = row.cells[column];
  const rank = WORST.indexOf(cell.className);
  return rank >= 0 ? [rank, cell.textContent] : cell.className === "number" ? [parseInt(cell.textContent, 10), ""] : [0, cell.textContent];
}

function compared([one, text], [other, more]) {
  return one - other || text.localeCompare(more, undefined, { numeric: true });
}

// Sorts the plans by a column: first upwards, then downwards, then as they stand in the file.
function sortBy(head) {
  const column = head.cellIndex;
  const now = { ascending: "descending", descending: "" }[head.getAttribute("aria-sort")] ?? "ascending";
  for (const each of head.parentNode.cells) { each.removeAttribute("aria-sort"); }
  const rows = [...rowsOfPlans];
  if (now) {
    head.setAttribute("aria-sort", now);
    const keys = new Map(rows.map((row) => [row, sortKey(row, column)]));
    const sign = now === "ascending" ? 1 : -1;
    rows.sort((one, other) => sign * compared(keys.get(one), keys.get(other)));
  }
  at("plans").tBodies[0].append(...rows);
}

// Leaves the plans of the ticked kinds, or all where no box is ticked, that have the text.
function filter() {
  const wanted = [...at("filters").querySelectorAll(":checked")].map((box) => box.value);
  const text = at("search").value.toLowerCase();
  const isWanted = (row) => !wanted.length || row.dataset.kinds.split(" ").some((kind) => wanted.includes(kind));
  for (const row of rowsOfPlans) {
    row.hidden = !isWanted(row) || !`${row.cells[0].textContent} ${row.querySelector(".events").textContent}`.toLowerCase().includes(text);
  }
  const count = rowsOfPlans.filter((row) => !row.hidden).length;
  at("shown").textContent = `${count} of ${rowsOfPlans.length} shown`;
}

// The chart for paper: all of it, in parts that fit a sheet.
function showPaper(isPrinted) {
  const layout = isPrinted && layoutOf(view.story, { ...view, width: usualWidth(view.story), isByTime: false, room: 230 });
  at("paper").innerHTML = isPrinted ? sheetsOf(layout) : "";
  for (const closed of isPrinted ? document.querySelectorAll("#lint") : []) { closed.open = true; }
}

// The step over which the mouse is.
function stepUnder(event) {
  return columnAt(view.layout.x, event.clientX - at("body").getBoundingClientRect().left);
}

function onKey(event) {
  const move = MOVES[event.key];
  const isText = event.target.matches && event.target.matches("input[type=search]");
  if (isText || event.altKey || event.ctrlKey || event.metaKey) { return; }
  const button = KEYS[event.key.toLowerCase()];
  // Up, Down and the page keys scroll the page where the slider hasn't the focus.
  const isOurs = event.target === at("slider") || /Left|Right|Home|End/.test(event.key);
  if (button && !at(button).hidden) { at(button).click(); }
  if (button || move === undefined || !isOurs || event.shiftKey) { return; }
  event.preventDefault();
  show(view.step + move);
}

// Moves what is in view to a place of the strip.
function onOverview(event) {
  if (!event.buttons) { return; }
  const box = at("overview").getBoundingClientRect();
  const { x } = view.layout;
  at("frame").scrollLeft = (event.clientX - box.left) / box.width * x[x.length - 1] - sizes().width / 2;
  draw();
}

function listen() {
  const clicks = { first: () => show(0), back: () => show(view.step - 1), forth: () => show(view.step + 1), last: () => show(Infinity),
    "loss-before": () => goToLoss(false), "loss-after": () => goToLoss(true), less: narrower, more: wider, fit, base: () => goTo(base) };
  for (const [id, act] of Object.entries(clicks)) { at(id).addEventListener("click", act); }
  at("slider").addEventListener("input", () => show(Number(at("slider").value)));
  at("by-time").addEventListener("change", () => { view.isByTime = at("by-time").checked; place(); });
  at("lanes").addEventListener("change", () => { view.hasLanes = at("lanes").checked; place(); });
  at("chart").addEventListener("click", (event) => { if (event.target.closest("#body, #head")) { show(stepUnder(event)); } });
  at("frame").addEventListener("scroll", draw);
  for (const kind of ["pointerdown", "pointermove"]) { at("overview").addEventListener(kind, onOverview); }
  at("plans").addEventListener("click", ({ target }) => {
    if (target.matches(".sort")) { sortBy(target.parentNode); }
    if (target.matches(".open")) { goTo(storyOfPlan(Number(target.dataset.plan))); }
  });
  at("filters").addEventListener("input", filter);
  document.addEventListener("keydown", onKey);
  addEventListener("hashchange", () => {
    openAddress();
    at("story").scrollIntoView();
  });
  addEventListener("resize", place);
  addEventListener("beforeprint", () => showPaper(true));
  addEventListener("afterprint", () => showPaper(false));
  matchMedia("print").addEventListener("change", (event) => showPaper(event.matches));
}

listen();
filter();
openAddress();
