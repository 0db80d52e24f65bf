"use strict";
// The page decides nothing: it makes the console's commands, and shows what the console answers.
const el = (id) => document.getElementById(id);
const make = (name, has, children) => {
  const one = document.createElement(name);
  for (const [key, value] of Object.entries(has || {}))
    if (key.includes("-")) one.setAttribute(key, value);
    else one[key] = value;
  one.append(...(children || []));
  return one;
};
const fill = (text, ...values) => text.replace(/\{(\d)\}/g, (_, i) => values[i]);

// Commands that have controls of their own on the page, or make sense in a script alone.
const OWN_CONTROLS = new Set(["data", "role", "undo", "why", "expect", "help", "history", "run", "quit", "card", "?"]);
const NOTHING = { blocks: [], sheets: [] };
const LONGEST_IMAGE = 47105, LONGEST_SCRIPT = 1000000;
let state = null, offered = null, told = 0, log = [], answered = null, marked = NOTHING;

const meaning = (number) => (NUMBERS.find((row) => row[0] === String(number)) || ["", "", ""])[2];

// Gives a line to the console, which keeps it for its history.
function quietly(line) {
  told++;
  return say(line);
}

// The card as it is now. What a command changed is marked; an undo changes back what the step before it had changed.
function refresh(line) {
  const before = state;
  state = asked("data card");
  const undone = line !== undefined && line.trim() === "undo" && before && state.steps.length < before.steps.length;
  marked = undone ? before.changed : before && line !== undefined && state.made > before.made ? state.changed : NOTHING;
  if (!before || before.blocks !== state.blocks) Object.assign(part, { from: 0, count: 0 });
  showHeading();
  draw();
  showSheets();
  showSteps();
  if (!before || before.role !== state.role) showRole();
}

// What the console printed: the sentence with the number, or the first; and the rest. `why` leaves the answer as it
// stands, and its rows are unfolded below the picture.
function split(line, text, who) {
  const lines = text.replace(/\n$/, "").split("\n"), at = lines.findIndex((one) => /^(done|refused), \d/.test(one));
  const [words] = lines.splice(Math.max(at, 0), 1), kind = at < 0 ? "said" : words.split(",")[0];
  const why = /^\s*why\b/.test(line), letters = lines.filter((one) => /^ {4}\[.*\]$/.test(one)).join("\n");
  const more = lines.filter((one) => !letters.includes(one)).join("\n");
  const last = log.slice().reverse().find((one) => one.kind !== "said");
  if (why && last) return { ...last, who, line, text, why };
  return { who, line, text, words: words || T.nothing_said, more, letters, kind };
}

// A command that a person gives: its answer is shown, and the card after it.
function tell(line) {
  const began = performance.now(), who = state.who;
  desk.io.written = [];
  answered = split(line, quietly(line), who);
  log.push(answered);
  refresh(line);
  showAnswer(answered);
  refreshForm();
  if (lesson && wandered()) showLesson();
  document.documentElement.dataset.call = (performance.now() - began).toFixed(1);
  for (const name of desk.io.written) showFile(name);
}

// The console anew, with these lines given to it as a script. Gives what was said to the first line that failed.
function session(lines) {
  let failure = "";
  told = 0;
  log = [];
  desk.exports.page_start();
  desk.exports.page_script(1);
  for (const line of lines) {
    const text = quietly(line);
    if (!failure && desk.exports.page_failed()) failure = text.trim();
  }
  desk.exports.page_script(0);
  chosen.block = chosen.sheet = null;
  refresh();
  answered = { who: "", line: "", words: failure || T.ready, more: "", kind: failure ? "refused" : "said" };
  showAnswer(answered);
  showCalls();
  return failure;
}

function showHeading() {
  const [number, free, runs, longest] = state.survey;
  el("heading").textContent = state.blocks === 0 ? T.no_card : fill(T.heading, state.blocks, state.sheets);
  const survey = number === 0 ? fill(T.survey, free, runs, longest) : fill(T.survey_refused, number);
  const parts = state.blocks === 0 ? [] : [survey];
  if (state.broken) parts.push(T.broken);
  if (state.summary) parts.push(T.with_summary);
  el("survey").textContent = parts.join(" ");
}

function showAnswer({ who, line, words, more, letters, kind, why }) {
  const is_call = kind !== "said" && state.said;
  el("answer").className = kind;
  el("command").textContent = line ? (who === offered.roles[0] ? "" : who) + "> " + line : "";
  el("words").textContent = words;
  el("more").textContent = more;
  el("letters").textContent = letters || "";
  el("why").hidden = !is_call;
  el("why").open = Boolean(why);
  el("rows").replaceChildren(...(is_call ? state.said.rows : []).map(([number, how, sentence]) => {
    const [, paper, text] = /^(0[12][^:]*): (.*)$/.exec(sentence) || ["", "", "", sentence];
    const parts = [T["row_" + how.replace(" ", "_")], number, text].map((part) => make("span", { textContent: part }));
    parts[2].append(make("small", { textContent: fill(T.paper, paper) }));
    return make("li", { className: how.replace(" ", "-") }, parts);
  }));
  el("why-end").textContent = is_call ? (state.said.number === 0 ? T.why_done : T.why_refused) : "";
}

function showRole() {
  for (const radio of el("roles").querySelectorAll("input")) radio.checked = state.who === radio.value;
  showCalls();
}

// A sheet's colour, number and pattern, as in the picture.
function swatch(one) {
  const svg = shape("svg", { width: 34, height: 20, class: "swatch", "aria-hidden": "true" });
  const box = (look) => svg.append(shape("rect", { x: 1, y: 1, width: 32, height: 18, ...look }));
  box({ fill: one.fill, stroke: "#000" });
  if (one.standing === "Paused") box({ fill: "url(#paused)" }), box({ x: 9, width: 16, fill: one.fill });
  if (one.standing === "Open") box({ class: "dashes" });
  svg.append(shape("text", { x: 17, y: 14, fill: one.ink }, String(one.sheet)));
  return svg;
}

// The sheets that are not Absent, and what the wings hold. Many are cut short: the picture has all.
function showSheets() {
  const shown = state.list.slice(0, 100);
  el("sheets").replaceChildren(...shown.map((one) => {
    const button = make("button", { type: "button", className: marked.sheets.includes(one.sheet) ? "changed" : "" });
    const text = one.number === 0 ? `${one.standing}, ${held(one)}` :
      fill(T.refused_with, one.number, meaning(one.number));
    button.append(swatch(one), fill(T.sheet_line, one.sheet, text));
    button.onclick = () => (choose(one.length > 0 ? one.start : null), (chosen.sheet = one.sheet), refreshForm());
    return make("li", {}, [button]);
  }));
  el("sheets-rest").textContent = state.list.length === 0 ? T.no_sheets : state.list.length > shown.length ?
    fill(T.more_sheets, state.list.length - shown.length) : "";
  const used = state.wings.map(([held, limit], wing) => ({ wing, held, limit }))
    .filter(({ held, limit }) => held > 0 || limit !== null);
  el("wings").replaceChildren(...used.map(({ wing, held, limit }) => make("li", { textContent: limit === null ?
    fill(T.wing, wing, held) : fill(T.wing_limit, wing, held, limit) })));
}

// The steps that can be taken back, the newest first: going back to one is so many times `undo`.
function showSteps() {
  const all = state.steps.slice().reverse().slice(0, 60);
  const back = (count) => () => { for (let n = 0; n < count; n++) tell("undo"); };
  el("steps").replaceChildren(...all.map((line, i) => make("li", {}, [
    make("button", { type: "button", textContent: line, title: fill(T.step_title, i + 1), onclick: back(i + 1) })])));
  el("steps-none").hidden = all.length > 0;
  el("undo").disabled = all.length === 0;
  el("log").textContent = log.slice(-100).map((one) =>
    `${one.who === offered.roles[0] ? "" : one.who}> ${one.line}\n${one.text}`).join("");
}

// Files: what the console wrote can be kept, and an image or a script can be opened.
function keep(name, bytes) {
  const link = make("a", { href: URL.createObjectURL(new Blob([bytes])), download: name, textContent: name });
  document.body.append(link);
  link.click();
  link.remove();
}

function showFile(name) {
  const onclick = () => keep(name, disk.get(name));
  const button = make("button", { type: "button", textContent: fill(T.keep, name), onclick });
  for (const old of el("files").children) if (old.dataset.name === name) old.remove();
  const item = make("li", {}, [button]);
  item.dataset.name = name;
  el("files").append(item);
}

function writeFile(command, name) {
  disk.delete(name);
  tell(command + " " + name);
  if (disk.has(name)) keep(name, disk.get(name));
}

async function openImage(file) {
  const name = file.name.replace(/[^A-Za-z0-9._-]/g, "_").slice(0, 60) || "image";
  const bytes = new Uint8Array(await file.slice(0, LONGEST_IMAGE).arrayBuffer()), text = await printed(bytes);
  const refused = /^refused (\d+)/.exec(text), row = refused && NUMBERS.find((one) => one[0] === refused[1]);
  disk.set(name, bytes);
  const more = row ? `\n\n${row[2]}.\n${T.cause}: ${row[3]}.\n${T.remedy}: ${row[4]}.` : "";
  el("printed").textContent = text.trim() + more;
  tell("load " + name);
}

async function openScript(file) {
  if (file.size > LONGEST_SCRIPT) return void (el("printed").textContent = fill(T.script_long, file.size));
  const text = await file.text();
  if (/\0/.test(text)) return void (el("printed").textContent = T.script_none);
  if (![...el("lesson-name").options].some((one) => one.value === file.name))
    el("lesson-name").append(make("option", { value: file.name, textContent: file.name }));
  LESSONS[file.name] = text;
  openLesson(file.name, text);
}

const picked = (id, open) => (el(id).onchange = () => {
  if (el(id).files[0]) open(el(id).files[0]);
  el(id).value = "";
});

function print(what) {
  document.body.dataset.print = what;
  window.print();
}

function openTab(name) {
  for (const tab of el("tabs").children) {
    const is_open = tab.id === "tab-" + name;
    tab.setAttribute("aria-selected", String(is_open));
    tab.tabIndex = is_open ? 0 : -1;
    el(tab.id.replace("tab-", "panel-")).hidden = !is_open;
  }
}

function keyOnTabs(event) {
  const all = [...el("tabs").children], at = all.indexOf(event.target);
  const to = { ArrowRight: at + 1, ArrowLeft: at - 1, Home: 0, End: all.length - 1 }[event.key];
  if (to === undefined) return;
  const next = all[(to + all.length) % all.length];
  next.click();
  next.focus();
  event.preventDefault();
}

// The line that is typed: Enter gives it, the arrows call those before it back.
let recalled = 0;
function keyOnLine(event) {
  const typed = log.map((one) => one.line), to = { ArrowUp: recalled + 1, ArrowDown: recalled - 1 }[event.key];
  if (to === undefined || to < 0 || to > typed.length) return;
  recalled = to;
  el("line").value = to === 0 ? "" : typed[typed.length - to];
  event.preventDefault();
}

function listen() {
  for (const tab of el("tabs").children) tab.onclick = () => openTab(tab.id.slice(4));
  el("tabs").onkeydown = keyOnTabs;
  el("typed").onsubmit = (event) => {
    event.preventDefault();
    if (el("line").value.trim()) tell(el("line").value);
    el("line").value = "";
    recalled = 0;
  };
  el("line").onkeydown = keyOnLine;
  el("undo").onclick = () => tell("undo");
  el("card").onmousemove = (event) => {
    const block = blockAt(event);
    if (block !== null && block !== chosen.block) point(block);
  };
  el("card").onclick = (event) => choose(blockAt(event));
  el("card").onkeydown = keyOnCard;
  el("nearer").onclick = () => zoom(0.25);
  el("wider").onclick = () => zoom(4);
  el("whole").onclick = () => ((part.count = 0), draw());
  el("save-image").onclick = () => writeFile("save", "card.img");
  el("save-picture").onclick = () => writeFile("picture", "card.svg");
  el("save-script").onclick = () => writeFile("history", "card.txt");
  el("print-card").onclick = () => print("card");
  el("print-numbers").onclick = () => print("numbers");
  const dark = matchMedia("(prefers-color-scheme: dark)"), wanted = () => el("theme").value;
  const theme = () => document.documentElement.toggleAttribute("data-dark",
    wanted() === "dark" || (wanted() === "" && dark.matches));
  el("theme").onchange = dark.onchange = theme;
  theme();
  picked("open-image", openImage);
  picked("open-script", openScript);
  addEventListener("error", (event) => (el("words").textContent = fill(T.stopped, event.message)));
  let width = innerWidth;
  addEventListener("resize", () => (innerWidth !== width ? ((width = innerWidth), draw()) : null));
  addEventListener("keydown", (event) => {
    if (event.key !== "/" || /INPUT|SELECT/.test(document.activeElement.tagName)) return;
    event.preventDefault();
    el("line").focus();
  });
}

function showRoles() {
  for (const name of offered.roles) {
    const input = make("input", { type: "radio", name: "role", value: name, id: "role-" + name });
    input.onchange = () => tell("role " + name);
    el("roles").append(make("span", {}, [input, make("label", { htmlFor: input.id, textContent: name })]));
  }
}

function showNumbers() {
  el("numbers").append(...NUMBERS.map(([number, , ...texts]) => make("tr", {}, [
    make("th", { textContent: number, scope: "row" }), ...texts.map((text) => make("td", { textContent: text }))])));
}

async function start() {
  desk.exports = await program(CONSOLE, desk.io);
  desk.exports._initialize();
  desk.exports.page_start();
  offered = asked("data commands");
  state = asked("data card");
  showRoles();
  showNumbers();
  showCourse();
  el("legend").innerHTML = ask("data legend");
  el("marks").open = innerWidth > 860;
  listen();
  const wanted = decodeURIComponent(location.hash.slice(1)), encode = new TextEncoder();
  for (const [name, text] of Object.entries(LESSONS)) disk.set(`desk/lessons/${name}.txt`, encode.encode(text));
  session(["fresh 24 8"]);
  showRole();
  el("words").textContent = T.welcome;
  if (LESSONS[wanted]) openLesson(wanted, LESSONS[wanted]);
  requestAnimationFrame(() => (document.documentElement.dataset.ready = performance.now().toFixed(0)));
}

start().catch((error) => (el("words").textContent = fill(T.cannot_run, error.message)));
