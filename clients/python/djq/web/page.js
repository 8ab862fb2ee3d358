"use strict";
// Keeps the page up to date by the stream of events. Whatever comes is put in as text, never as markup.

const SVG = "http://www.w3.org/2000/svg";
const SILENT = 25000; // milliseconds without a word, after which the connection is made anew
const AGAIN = 2000; // milliseconds before it is, where the browser doesn't try by itself
const MANY = 6; // characters of a number, above which it is smaller
const CALM = 1500; // milliseconds between two changes that are read out

const sections = new Map();
for (const section of document.querySelectorAll("[data-panel]")) sections.set(section.dataset.panel, section);
const views = new Map(); // what each section shows, or is to show
const places = new Map(); // at which page of it the reader is, where that isn't the first
const changed = new Set(); // sections that are to be drawn
const pause = document.getElementById("pause");
const state = document.getElementById("status");
const latest = document.getElementById("latest");
let source = null;
let heard = 0;
let ahead = 0; // by how many milliseconds the clock here is ahead of the one by which rows came
let lasting = 0; // milliseconds for which a row that came is marked

// What comes

function connect() {
  if (source !== null) source.close();
  source = new EventSource(`${document.body.dataset.events}?${askedPages()}`);
  heard = Date.now();
  listen("page", (sent) => {
    const { mark, now, fresh } = JSON.parse(sent);
    if (mark !== document.body.dataset.mark) location.reload();
    ahead = Date.now() - 1000 * now;
    lasting = 1000 * fresh;
  });
  listen("beat", () => {});
  listen("status", (sent) => tellState(JSON.parse(sent)));
  listen("latest", (sent) => tellLatest(JSON.parse(sent).words));
  for (const number of sections.keys()) {
    listen(number, (sent) => {
      const view = JSON.parse(sent);
      const there = views.get(number);
      if (!view.delta) views.set(number, view);
      else if (there !== undefined) APPLY[sections.get(number).dataset.kind](there, view);
      draw(number);
    });
  }
  source.addEventListener("error", () => {
    tellState({ live: false, words: "not connected, trying again" });
    if (source.readyState === EventSource.CLOSED) setTimeout(connect, AGAIN);
  });
}

function listen(name, take) {
  source.addEventListener(name, (event) => {
    heard = Date.now();
    take(event.data);
  });
}

function tellState({ live, words }) {
  state.className = live ? "live" : "waiting";
  setText(state, words);
}

// A screen reader gets no more than it can read out.
let news = null;
let calm = null;

function tellLatest(words) {
  news = words;
  if (calm === null) sayLatest();
}

function sayLatest() {
  calm = null;
  if (news === null || isPaused()) return;
  setText(latest, news);
  news = null;
  calm = setTimeout(sayLatest, CALM);
}

// Deltas: a table's rows that went, by their places before, and those that came, by their places after; of a line its
// further values, of which the last is now's.

function applyRows(view, { gone, come, delta, ...rest }) {
  const left = new Set(gone);
  const rows = view.rows.filter((_, place) => !left.has(place));
  for (const [place, row] of come) rows.splice(place, 0, row);
  Object.assign(view, rest, { rows });
}

function applyLines(view, { lines, delta, ...rest }) {
  Object.assign(view, rest);
  lines.forEach(({ push, ...words }, place) => {
    const line = view.lines[place];
    Object.assign(line, words, { values: [...line.values.slice(0, -1), ...push].slice(-view.points) });
  });
}

// Which page of a table is shown

function askedPages() {
  return new URLSearchParams([...places].map(([number, page]) => [`p${number}`, page]));
}

function turnPages() {
  for (const [number, section] of sections) {
    const given = new URLSearchParams(location.search).get(`p${number}`);
    if (given !== null) places.set(number, given);
    section.querySelector(".pages")?.addEventListener("click", (event) => {
      const link = event.target.closest("a");
      if (link === null) return;
      event.preventDefault();
      places.set(number, new URLSearchParams(link.search).get(`p${number}`));
      history.replaceState(null, "", `?${askedPages()}`);
      section.querySelector(".scroll").scrollTop = 0;
      connect();
    });
  }
}

function showPages(nav, { page, pages }, number) {
  nav.hidden = pages < 2;
  setText(nav.querySelector("span"), `Page ${page.toLocaleString("en")} of ${pages.toLocaleString("en")}`);
  const [back, on] = nav.querySelectorAll("a");
  back.search = `?p${number}=${Math.max(1, page - 1)}`;
  on.search = `?p${number}=${Math.min(pages, page + 1)}`;
  back.classList.toggle("end", page === 1);
  on.classList.toggle("end", page === pages);
}

// When it is drawn

function isPaused() {
  return pause.getAttribute("aria-pressed") === "true";
}

function draw(number) {
  if (changed.size === 0) requestAnimationFrame(drawChanged);
  changed.add(number);
}

function drawChanged() {
  if (isPaused()) return changed.clear();
  for (const number of changed) {
    const section = sections.get(number);
    const view = views.get(number);
    if (view === undefined) continue;
    section.classList.toggle("lost", view.state !== null);
    setText(section.querySelector(".why"), view.state ?? "");
    DRAW[section.dataset.kind](section, view, number);
  }
  changed.clear();
}

function drawAll() {
  for (const number of views.keys()) draw(number);
}

// Parts

function make(name, text, kind) {
  const made = document.createElement(name);
  if (text !== undefined) made.textContent = text;
  if (kind) made.className = kind;
  return made;
}

function makeShape(name, values, text) {
  const made = document.createElementNS(SVG, name);
  for (const [key, value] of Object.entries(values)) made.setAttribute(key, value);
  if (text !== undefined) made.textContent = text;
  return made;
}

// A text; one that is long is clamped until somebody looks at it.
function fill(element, text) {
  if (text.length > document.body.dataset.long || text.split("\n").length > 2) {
    const long = make("span", text, "long");
    long.tabIndex = 0;
    element.append(long);
  } else {
    element.textContent = text;
  }
  return element;
}

function setText(element, text) {
  if (element.textContent !== text) element.textContent = text;
}

// The mark that a row came; it goes by itself.
function setFresh(element, came, show) {
  clearTimeout(element.fades);
  const left = came === null ? 0 : lasting - (Date.now() - ahead - 1000 * came);
  show(left > 0);
  if (left > 0) element.fades = setTimeout(() => show(false), left);
}

// Tables: rows that stay keep their element, so that what a reader is at stays where it is

function drawTable(section, view, number) {
  showPages(section.querySelector(".pages"), view, number);
  setText(section.querySelector("caption"), view.words);
  const table = section.querySelector("table");
  setHeads(table.tHead.rows[0], view);
  const body = table.tBodies[0];
  const there = new Map();
  for (const row of body.rows) there.set(keyOf(row), row);
  const keys = keysOf(view.rows);
  const wanted = new Set(keys);
  for (const [key, row] of there) if (!wanted.has(key)) row.remove();
  const word = section.classList.contains("alarm") ? "alarm" : "new";
  let place = body.firstElementChild;
  view.rows.forEach(({ cells, came }, at) => {
    const row = there.get(keys[at]) ?? makeRow(keys[at], cells, view.numbers);
    if (row === place) place = place.nextElementSibling;
    else body.insertBefore(row, place);
    setFresh(row, came, (on) => showMark(row, on, word));
  });
}

function setHeads(row, { columns, numbers }) {
  const heads = JSON.stringify([columns, numbers]);
  if (row.heads === heads) return;
  row.heads = heads;
  while (row.cells.length > 1) row.lastElementChild.remove();
  columns.forEach((name, place) => {
    const head = make("th", name, numbers[place] && "number");
    head.scope = "col";
    row.append(head);
  });
}

function keysOf(rows) {
  const seen = new Set();
  return rows.map(({ cells }) => {
    let key = JSON.stringify(cells);
    while (seen.has(key)) key += "+"; // two texts may look the same
    seen.add(key);
    return key;
  });
}

function keyOf(row) {
  row.key ??= JSON.stringify(Array.from(row.cells, (cell) => cell.textContent).slice(1));
  return row.key;
}

function makeRow(key, cells, numbers) {
  const row = make("tr");
  row.key = key;
  row.append(make("td", "", "mark"));
  cells.forEach((cell, place) => row.append(fill(make("td", undefined, numbers[place] && "number"), cell)));
  return row;
}

function showMark(row, on, word) {
  row.classList.toggle("came", on);
  const mark = row.cells[0];
  if (on !== mark.hasChildNodes()) mark.replaceChildren(...(on ? [make("span", word)] : []));
}

// The newest answer

function drawNewest(section, view) {
  const pairs = (view.cells ?? []).map((cell, place) => {
    const pair = make("div");
    pair.append(make("dt", view.columns[place]), fill(make("dd"), cell));
    return pair;
  });
  section.querySelector("dl").replaceChildren(...pairs);
  setText(section.querySelector(".words"), view.words);
  setFresh(section, view.came, (on) => section.classList.toggle("came", on));
}

// Numbers and lines

function nowOf(line) {
  return line.now ?? "–";
}

function drawCount(section, view) {
  const line = view.lines[0];
  const count = section.querySelector(".count");
  setText(count, nowOf(line));
  count.classList.toggle("some", line.now !== null && line.now !== "0");
  count.classList.toggle("many", (line.now ?? "").length > MANY);
  setText(section.querySelector(".words"), `${line.span} in ${view.words}`);
  const svg = section.querySelector("svg");
  const box = { left: 1, right: svg.clientWidth - 1, top: 3, bottom: svg.clientHeight - 3 };
  const path = pathOf(line.values, view, box, scaleOf(view));
  svg.replaceChildren(makeShape("path", { class: "line0", d: path }));
}

function drawChart(section, view) {
  const svg = section.querySelector("svg");
  const scale = scaleOf(view);
  const marks = [];
  for (let value = scale.low; value <= scale.top + scale.step / 2; value += scale.step) marks.push(value);
  const notation = scale.top > 99999 ? "compact" : "standard";
  const named = marks.map((value) => value.toLocaleString("en", { notation }));
  const wide = Math.max(...named.map((name) => name.length));
  const box = { left: 12 + 8 * wide, right: svg.clientWidth - 2, top: 8, bottom: svg.clientHeight - 20 };
  const shapes = [];
  marks.forEach((value, place) => {
    const y = heightOf(value, box, scale);
    shapes.push(makeShape("line", { class: "grid", x1: box.left, x2: box.right, y1: y, y2: y }));
    shapes.push(makeShape("text", { x: box.left - 6, y: y + 4, "text-anchor": "end" }, named[place]));
  });
  const below = box.bottom + 16;
  shapes.push(makeShape("text", { x: box.left, y: below }, `${view.minutes} min ago`));
  shapes.push(makeShape("text", { x: box.right, y: below, "text-anchor": "end" }, "now"));
  view.lines.forEach((line, place) => {
    shapes.push(makeShape("path", { class: `line${place}`, d: pathOf(line.values, view, box, scale) }));
  });
  svg.replaceChildren(...shapes);
  setText(section.querySelector("p.words"), `the last ${view.words}`);
  drawKey(section.querySelector("ul.lines"), view.lines);
}

// What each line is called, and what it reads
function drawKey(list, lines) {
  const labels = JSON.stringify(lines.map((line) => line.label));
  if (list.labels !== labels) {
    list.labels = labels;
    list.replaceChildren(...lines.map(makeEntry));
  }
  lines.forEach((line, place) => {
    setText(list.children[place].querySelector(".now"), nowOf(line));
    setText(list.children[place].querySelector(".words"), line.span);
  });
}

function makeEntry({ label }, place) {
  const sample = makeShape("svg", { "aria-hidden": "true", viewBox: "0 0 28 8" });
  sample.append(makeShape("path", { class: `line${place}`, d: "M0 4H28" }));
  const entry = make("li");
  entry.append(sample, make("span", label, "label"), " ", make("span", "", "now"), " ", make("span", "", "words"));
  return entry;
}

// The least and the largest value of the axis, and the distance of those that are named, which are six at most. Counts
// begin at none, and so do values that are near to it.
function scaleOf({ lines, counts }) {
  const values = lines.flatMap((line) => line.values.filter((value) => value !== null));
  const most = Math.max(counts ? 1 : 0, ...values);
  const least = Math.min(most, ...values);
  const from = counts || (least >= 0 && least < most / 2) ? 0 : least;
  const span = Math.max(1, Math.max(most, from) - from);
  let step = 1;
  for (let place = 0; span > 4 * step; place += 1) step *= place % 3 === 1 ? 2.5 : 2;
  const low = step * Math.floor(from / step);
  return { low, top: Math.max(low + step, step * Math.ceil(most / step)), step };
}

function heightOf(value, box, { low, top }) {
  return box.bottom - ((box.bottom - box.top) * (value - low)) / (top - low);
}

// A line that ends at the right edge and has steps, for a number is the same until it changes.
function pathOf(values, { points }, box, scale) {
  const width = (box.right - box.left) / (points - 1);
  let path = "";
  let drawn = false;
  values.forEach((value, place) => {
    const x = (box.right - width * (values.length - 1 - place)).toFixed(1);
    if (value !== null) {
      const y = heightOf(value, box, scale).toFixed(1);
      path += drawn ? `H${x}V${y}` : `M${x} ${y}`;
    }
    drawn = value !== null;
  });
  return path;
}

const APPLY = { table: applyRows, count: applyLines, chart: applyLines };
const DRAW = { table: drawTable, newest: drawNewest, count: drawCount, chart: drawChart };

pause.hidden = false;
pause.addEventListener("click", () => {
  pause.setAttribute("aria-pressed", String(!isPaused()));
  if (!isPaused()) {
    drawAll();
    if (calm === null) sayLatest();
  }
});
addEventListener("resize", drawAll);
setInterval(() => {
  if (Date.now() - heard > SILENT) connect();
}, AGAIN);
turnPages();
connect();
