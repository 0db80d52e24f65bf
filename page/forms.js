"use strict";
// A form for each command, made from the arguments as the console lists them: SHEET is a field, from is a word, [..]
// may be left out, a|b is a choice, and " | " stands between different uses of the command.
const WORD = /^[a-z]+$/;

function parsed(tokens) {
  const nodes = [];
  while (tokens.length > 0) {
    const token = tokens.shift();
    if (token === "]") return nodes;
    if (token === "[") nodes.push({ group: parsed(tokens) });
    else if (WORD.test(token)) nodes.push({ word: token });
    else if (token !== "..") nodes.push({ slot: token, choices: token.split("|").filter((one) => WORD.test(one)) });
  }
  return nodes;
}

const uses = (command) =>
  command.arguments.split(" | ").map((use) => parsed(use.match(/\[|\]|[^\s[\]]+/g) || []));

const DAY = 86400000;
const day = (ahead) => new Date(Date.now() + ahead * DAY).toISOString().slice(0, 10);

// Which standings a call does not admit, by the numbers of its rows.
const NOT_ADMITTED = { Absent: 5, Paused: 6, Open: 7, Complete: 8 };

// The sheet that is pointed at, if the call admits how it stands; else the lowest that it admits.
function sheetFor(command) {
  const refused = new Set((command.rows || []).map((row) => row[0]));
  const standing = new Map(state.list.map((one) => [one.sheet, one.standing]));
  const admits = (sheet) => !refused.has(NOT_ADMITTED[standing.get(sheet) || "Absent"]);
  const held = [chosen.sheet, ...standing.keys()].filter((sheet) => sheet !== null && sheet < state.sheets);
  const first = held.find((sheet) => admits(sheet) && standing.get(sheet));
  if (first !== undefined) return first;
  for (let sheet = 0; sheet < state.sheets; sheet++) if (admits(sheet)) return sheet;
  return chosen.sheet || 0;
}

function placeFor(sheet) {
  const found = sheet < state.sheets ? asked("data sheet " + sheet) : { blank: 0 };
  return found.blank || 0;
}

// A value to begin with, for a field that has to be filled.
function first(slot, command) {
  switch (slot) {
    case "SHEET": return sheetFor(command);
    case "PLACE": return command.name === "put" || command.name === "count" ? placeFor(sheetFor(command)) : 0;
    case "COUNT": case "DAYS": return command.name === "break" ? state.free : 3;
    case "BLOCKS": return state.blocks || 24;
    case "SHEETS": return state.sheets || 8;
    case "BLOCK": case "START": return chosen.block || 0;
    case "BYTE": return 17;
    case "FIRST": case "YYYY-MM-DD": return day(0);
    case "LAST": return day(13);
    case "TEXT": return T.text_first;
    case "DOSE": return "2.50";
    default: return /^FILE/.test(slot) ? "card" + slot.slice(4).toLowerCase() : 0;
  }
}

// A value to begin with, for a field that may be left out: a text and a dose to put, and for whom the day is asked.
const firstOrNone = (slot, command) => /^(TEXT|WHICH|DOSE)$/.test(slot) ||
  (slot === "YYYY-MM-DD" && state.who !== offered.roles[0]) ? first(slot, command) : "";

const kind = (slot) => /^(FIRST|LAST|YYYY.*)$/.test(slot) ? "date" :
  /^(TEXT|DOSE|FILE.*)$|\|/.test(slot) ? "text" : "number";

function field(node, command, needed, number) {
  const id = "field-" + number, lower = node.choices.length > 0 && !/[A-Z]/.test(node.slot);
  const named = T["slot_" + node.slot] || node.slot.toLowerCase();
  const label = make("label", { htmlFor: id, textContent: (node.before ? node.before + " " : "") + named });
  const input = lower ? make("select", { id }) : make("input", { id, type: kind(node.slot), autocomplete: "off" });
  if (lower) input.append(...(needed ? [] : [make("option", { value: "", textContent: T.left_out })]),
    ...node.choices.map((one) => make("option", { value: one, textContent: one })));
  else input.value = (needed ? first : firstOrNone)(node.slot, command);
  if (!needed) input.placeholder = T.left_out;
  if (kind(node.slot) === "number") input.min = 0;
  node.input = input;
  return [label, input];
}

// The fields of a use of a command. A word stands before the field behind it.
function fields(nodes, command, needed, into) {
  let word = "";
  for (const node of nodes) {
    if (node.word) word = (word + " " + node.word).trim();
    else if (node.group) fields(node.group, command, false, into);
    else into.push(...field(Object.assign(node, { before: word }), command, needed, into.length)), word = "";
  }
  return into;
}

// The words of a use as they are filled in. What may be left out is left out where its first field is empty.
function filled(nodes) {
  const words = [];
  for (const node of nodes) {
    if (node.word) words.push(node.word);
    else if (node.slot) words.push(node.input.value.trim());
    else if (firstInput(node.group).value.trim() !== "") words.push(...filled(node.group));
  }
  return words;
}

function firstInput(nodes) {
  const node = nodes.find((one) => one.slot);
  return node ? node.input : firstInput(nodes.find((one) => one.group).group);
}

// The rows that can refuse a call, in their order.
const refusals = (command) => !command.rows ? [] : [make("details", {}, [
  make("summary", { textContent: T.can_refuse }),
  ...command.rows.map(([number, sentence]) => make("p", { textContent: `${number}: ${sentence}` }))])];

function showForm(command, which) {
  const all = uses(command), nodes = all[which], form = el("form");
  const line = () => [command.name, ...filled(nodes)].join(" ").trim();
  const rest = fields(nodes, command, true, []);
  const preview = make("code", { className: "preview" });
  const run = make("button", { textContent: T.run, className: "main" });
  form.replaceChildren(make("h3", { textContent: command.name }), make("p", { textContent: command.text }));
  if (all.length > 1) {
    const choice = make("select", { id: "use", "aria-label": T.use });
    command.arguments.split(" | ").forEach((use, i) => choice.append(make("option", { value: i, textContent: use })));
    choice.value = which;
    choice.onchange = () => (showForm(command, Number(choice.value)), el("use").focus());
    form.append(choice);
  }
  form.append(make("div", { className: "fields" }, rest), preview, run, ...refusals(command));
  preview.textContent = line();
  form.oninput = () => ((preview.textContent = line()), (form.current.changed = true));
  form.onsubmit = (event) => (event.preventDefault(), (form.current.changed = false), tell(line()));
  form.current = { command, which, changed: false };
  for (const button of el("panel-calls").querySelectorAll("button[name]"))
    button.setAttribute("aria-pressed", String(button.name === command.name));
}

// After a call a form that nobody has begun to fill gets the values that are sensible now. The focus stays.
function refreshForm() {
  const { command, which, changed } = el("form").current, controls = () => [...el("form").elements];
  const at = controls().indexOf(document.activeElement);
  if (changed) return;
  showForm(command, which);
  if (at >= 0 && controls()[at]) controls()[at].focus();
}

// A button for each command: those that the role may make, the console's own, and those that the library turns away.
function showCalls() {
  const groups = { calls_mine: [], calls_console: [], calls_others: [] };
  for (const command of offered.commands) {
    if (OWN_CONTROLS.has(command.name)) continue;
    const group = !command.rows ? "calls_console" : command.roles.includes(state.role) ? "calls_mine" : "calls_others";
    const onclick = () => (showForm(command, 0), el("form").querySelector("input, select, .main").focus());
    groups[group].push(make("button", { type: "button", name: command.name, textContent: command.name,
      title: command.text, onclick }));
  }
  for (const [name, all] of Object.entries(groups)) {
    el(name).hidden = all.length === 0;
    el(name).replaceChildren(make("h3", { textContent: T[name] }), ...all);
  }
  const before = el("form").current, command = before ? before.command : offered.commands.find((one) => one.rows);
  showForm(command, before ? before.which : 0);
}
