"use strict";
// The picture: the console draws it. The page puts it up, marks what the last command changed, and says what is pointed
// at.
const SVG = "http://www.w3.org/2000/svg";
const chosen = { block: null, sheet: null };
const part = { from: 0, count: 0 };
const MARKS = 300;

function shape(name, attributes, text) {
  const one = document.createElementNS(SVG, name);
  for (const [key, value] of Object.entries(attributes)) one.setAttribute(key, value);
  if (text) one.textContent = text;
  return one;
}

const drawing = () => el("picture").querySelector("svg");

// Where the blocks from one to another stand in the picture, row by row.
function boxes(from, to) {
  const svg = drawing();
  if (!svg) return [];
  const d = Object.fromEntries(Object.entries(svg.dataset).map(([key, value]) => [key, Number(value)])), all = [];
  for (let at = Math.max(from, d.from) - d.from, end = Math.min(to, d.from + d.blocks) - d.from; at < end;) {
    const row = Math.floor(at / d.columns), stop = Math.min(end, (row + 1) * d.columns);
    all.push({ x: d.left + (at % d.columns) * d.unit, y: d.top + row * (d.height + d.gap),
      width: Math.max((stop - at) * d.unit, 2), height: d.height });
    at = stop;
  }
  return all;
}

function outline(from, to, name) {
  for (const box of boxes(from, to)) drawing().append(shape("rect", { ...box, class: name }));
}

// Ranges of blocks, those put together that are too near each other to be told apart.
function near(ranges) {
  const all = [], gap = 6 / drawing().dataset.unit;
  for (const [from, count] of ranges) {
    const last = all[all.length - 1];
    if (last && from - last[1] < gap && gap > 1) last[1] = from + count;
    else all.push([from, from + count]);
  }
  return all;
}

function draw() {
  const width = Math.max(200, Math.floor(el("card").clientWidth)), closer = part.count > 0 && part.count < state.blocks;
  if (state.blocks === 0) return el("picture").replaceChildren(make("p", { textContent: T.no_card }));
  el("picture").innerHTML = ask("data picture " + width + (closer ? ` ${part.from} ${part.count}` : ""));
  drawing().setAttribute("role", "presentation");
  drawing().querySelector("rect").setAttribute("class", "paper");
  for (const [from, to] of near(marked.blocks).slice(0, MARKS))
    for (const name of ["mark", "mark inner"]) outline(from, to, name);
  el("closer").hidden = state.blocks <= 64;
  el("seen").textContent = closer ? fill(T.seen, part.from, part.from + part.count - 1) : T.seen_all;
  point(chosen.block);
}

// The part of the card that is drawn: half as many blocks around the one pointed at, or twice as many.
function zoom(factor) {
  const count = Math.min(state.blocks, Math.max(32, Math.round((part.count || state.blocks) * factor)));
  const middle = chosen.block !== null ? chosen.block : part.from + Math.floor((part.count || state.blocks) / 2);
  part.count = count;
  part.from = Math.max(0, Math.min(state.blocks - count, middle - Math.floor(count / 2)));
  draw();
}

function blockAt(event) {
  const svg = drawing();
  if (!svg || !svg.dataset.unit) return null;
  const d = svg.dataset, at = svg.getBoundingClientRect(), scale = at.width / svg.viewBox.baseVal.width;
  const column = Math.floor(((event.clientX - at.left) / scale - d.left) / d.unit);
  const row = Math.floor(((event.clientY - at.top) / scale - d.top) / (Number(d.height) + Number(d.gap)));
  const block = Number(d.from) + row * d.columns + column;
  const inside = column >= 0 && column < Number(d.columns) && row >= 0 && block < Number(d.from) + Number(d.blocks);
  return inside ? block : null;
}

// The blocks of a sheet.
const held = ({ start, length }) => length === 0 ? T.no_blocks : length === 1 ? fill(T.block_one, start) :
  fill(T.blocks_to, start, start + length - 1);

// What a block holds, in words: the console says it, this puts it into sentences.
function holds(block) {
  const one = asked("data block " + block), said = [fill(T.block, block)];
  if (one.sheet === undefined) said.push(one.free ? T.is_free : T.is_lost);
  else {
    said.push(one.number === 0 ? fill(T.standing, one.sheet, one.standing, held(one)) :
      `${fill(T.of_sheet, one.sheet)}, ${fill(T.refused_with, one.number, meaning(one.number))}`);
    said.push(fill(T.place, one.place));
    if (one.free) said.push(T.is_leak);
  }
  if (one.blank) said.push(one.sheet === undefined ? T.is_blank_free : T.is_blank);
  else {
    if (one.term) said.push(fill(T.term, one.term[0], one.term[1], days(one.term)));
    const counts = (one.counts || []).map(([which, dose]) => `${which}: ${dose}`).join(", ");
    said.push(one.counts ? fill(T.counts, counts) : `“${one.text}”`);
    if (one.sheet === undefined) said.push(fill(T.left_over, one.ofSheet, one.ofPlace));
    else if (!one.check || one.ofSheet !== one.sheet || one.ofPlace !== one.place) said.push(T.not_sound);
  }
  return { one, text: said.join(" · ") };
}

const days = ([from, to]) => Math.round((new Date(to) - new Date(from)) / DAY) + 1;

// The months of a term, three at most, with its days marked.
function calendar([from, to]) {
  const begin = new Date(from), months = [0, 1, 2].map((later) =>
    new Date(Date.UTC(begin.getUTCFullYear(), begin.getUTCMonth() + later, 1)));
  return months.filter((month) => month.toISOString().slice(0, 10) <= to).map((month) => monthOf(month, from, to));
}

function monthOf(month, from, to) {
  const table = make("table", { className: "calendar" }), row = () => table.appendChild(make("tr"));
  table.append(make("caption", { textContent: month.toISOString().slice(0, 7) }));
  const names = row();
  for (const name of T.weekdays.split(" ")) names.append(make("th", { textContent: name }));
  let line = row();
  for (let i = 0; i < (month.getUTCDay() + 6) % 7; i++) line.append(make("td"));
  for (let at = month; at.getUTCMonth() === month.getUTCMonth(); at = new Date(at.getTime() + DAY)) {
    const date = at.toISOString().slice(0, 10), within = date >= from && date <= to;
    if (line.children.length === 7) line = row();
    line.append(make("td", { className: within ? "within" : "", textContent: at.getUTCDate() }));
  }
  return table;
}

function point(block) {
  for (const old of el("picture").querySelectorAll(".pointed")) old.remove();
  el("calendar").replaceChildren();
  if (block === null || block >= state.blocks) return void (el("pointed").textContent = T.point);
  const { one, text } = holds(block);
  chosen.block = block;
  outline(block, block + 1, "pointed");
  el("pointed").textContent = text;
  if (one.term) el("calendar").append(...calendar(one.term));
  return one;
}

function choose(block) {
  const one = point(block);
  if (!one) return;
  chosen.sheet = one.sheet === undefined ? null : one.sheet;
  refreshForm();
}

// Arrows go from block to block and row to row; page keys from sheet to sheet.
function keyOnCard(event) {
  const d = drawing() && drawing().dataset, at = chosen.block === null ? 0 : chosen.block;
  if (!d) return;
  const starts = state.list.filter((one) => one.length > 0).map((one) => one.start).sort((a, b) => a - b);
  const to = { ArrowRight: at + 1, ArrowLeft: at - 1, ArrowDown: at + Number(d.columns), ArrowUp: at - d.columns,
    Home: 0, End: state.blocks - 1, PageDown: starts.find((start) => start > at),
    PageUp: starts.reverse().find((start) => start < at) };
  if (event.key === "Enter") choose(at);
  else if (!(event.key in to)) return;
  else if (to[event.key] !== undefined) point(Math.max(0, Math.min(state.blocks - 1, to[event.key])));
  event.preventDefault();
}
