"use strict";
// Lessons and scripts, step by step. A step is what is said, the command, and what the lesson expects of its answer.
let lesson = null;

function steps(text) {
  const all = [];
  let said = [], paragraph = [];
  const end = () => (paragraph.length > 0 && said.push(paragraph.join(" ")), (paragraph = []));
  for (const line of text.split(/\r?\n/)) {
    if (line.startsWith("#") && line.slice(1).trim()) paragraph.push(line.slice(1).trim());
    else if (line.startsWith("#") || !line.trim()) end();
    else if (/^\s*expect\s/.test(line) && all.length > 0 && said.length + paragraph.length === 0)
      all[all.length - 1].expects.push(line);
    else end(), all.push({ said, line, expects: [] }), (said = []);
  }
  end();
  if (said.length > 0) all.push({ said, line: "", expects: [] });
  return all;
}

function openLesson(name, text) {
  lesson = { name, steps: steps(text), at: 0, lines: 0, guess: null };
  backToLesson();
  openTab("lesson");
  focusNext();
}

// The next thing to press: with Enter alone a lesson goes on to its end.
function focusNext() {
  const next = el("lesson").querySelector(".main");
  if (next) next.focus();
}

// The card as the lesson has it at this step, whatever was tried since.
function backToLesson() {
  const lines = lesson.steps.slice(0, lesson.at).flatMap((step) => [step.line, ...step.expects]).filter((line) => line);
  session(lines);
  lesson.lines = told;
  lesson.result = null;
  lesson.guess = null;
  showLesson();
}

const wandered = () => lesson !== null && told !== lesson.lines;

// The numbers that the rows of the command can give, each with its sentence: what a class chooses from.
function guesses(line) {
  const command = offered.commands.find((one) => one.name === line.trim().split(/\s+/)[0]);
  if (!command || !command.rows) return [];
  const seen = new Map([[0, T.done]]);
  for (const [number, sentence] of command.rows)
    if (!seen.has(number)) seen.set(number, sentence.replace(/^0[12][^:]*: /, ""));
  return [...seen];
}

function guessFields(line) {
  const all = guesses(line);
  if (all.length === 0) return [];
  const box = make("fieldset", { className: "guess" }, [make("legend", { textContent: T.what_answer })]);
  for (const [number, text] of all) {
    const input = make("input", { type: "radio", name: "guess", value: number, id: "guess-" + number });
    input.onchange = () => (lesson.guess = number);
    box.append(make("div", {}, [input, make("label", { htmlFor: input.id, textContent: `${number}: ${text}` })]));
  }
  return [box];
}

// Runs the command of the step and what the lesson expects of it. The guess is held to the number that came.
function runStep() {
  const step = lesson.steps[lesson.at], guess = lesson.guess;
  desk.exports.page_script(1);
  tell(step.line);
  const said = state.said, shown = answered, marks = marked;
  const unmet = step.expects.map((line) => quietly(line)).join("").trim();
  desk.exports.page_script(0);
  if (unmet) refresh(), showAnswer(shown);
  marked = marks;
  lesson.at++;
  lesson.lines = told;
  lesson.guess = null;
  lesson.result = { line: step.line, words: shown.words, unmet,
    guess: guess === null || !said ? "" : guess === said.number ? T.guess_right : fill(T.guess_wrong, guess) };
  showLesson();
  focusNext();
}

// All steps up to the next that says something.
function runToText() {
  const silent = (step) => step && step.line && step.said.length === 0;
  do runStep(); while (silent(lesson.steps[lesson.at]));
}

function goTo(step) {
  lesson.at = Math.max(0, Math.min(lesson.steps.length, step));
  backToLesson();
}

function lessonButtons(step) {
  const button = (text, onclick, className) => make("button", { type: "button", textContent: text, onclick,
    className: className || "" });
  const after = step && lesson.steps[lesson.at + 1], more = after && after.line && after.said.length === 0;
  return [step && step.line ? button(guesses(step.line).length > 0 ? T.see : T.run, runStep, "main") : "",
    step && step.line && more ? button(T.to_text, runToText) : "",
    step && step.line ? button(T.to_end, () => goTo(lesson.steps.length)) : "",
    lesson.at > 0 ? button(T.step_back, () => goTo(lesson.at - 1)) : "",
    lesson.at > 0 ? button(T.restart, () => goTo(0)) : ""].filter((one) => one);
}

function resultOf({ line, words, guess, unmet }) {
  return make("div", { className: "result" }, [make("p", { className: "command", textContent: "> " + line }),
    make("p", { className: "words", textContent: words }), ...[guess, unmet].filter((one) => one).map((text) =>
      make("p", { className: text === unmet ? "unmet" : "", textContent: text }))]);
}

function showLesson() {
  if (!lesson) return;
  const step = lesson.steps[lesson.at], ended = !step || !step.line, parts = [];
  const count = lesson.steps.length, now = fill(T.step_of, Math.min(lesson.at + 1, count), count);
  parts.push(make("p", { className: "progress", textContent: now }),
    make("progress", { max: count, value: lesson.at, "aria-label": T.progress }));
  if (wandered()) {
    const back = make("button", { type: "button", className: "main", textContent: T.come_back, onclick: backToLesson });
    parts.push(make("p", { textContent: T.tried }), back);
  } else {
    if (lesson.result) parts.push(resultOf(lesson.result));
    if (step) parts.push(...step.said.map((text) => make("p", { className: "said", textContent: text })));
    if (step && step.line) parts.push(make("p", { className: "next" }, [make("code", { textContent: step.line })]),
      ...guessFields(step.line));
    if (ended) parts.push(make("p", { className: "end", textContent: state.failed ? T.lesson_failed : T.lesson_end }));
    parts.push(make("div", { className: "buttons" }, lessonButtons(step)));
    const about = COURSE.find((one) => one.lesson === lesson.name);
    if (ended && about) parts.push(make("p", { textContent: T.exercise + " " + about.exercise }));
  }
  el("lesson-name").value = lesson.name;
  el("lesson").replaceChildren(...parts);
}

// The course: for whom, in which order, how long, to what end.
function showCourse() {
  const known = new Set(COURSE.map((one) => one.lesson));
  const others = Object.keys(LESSONS).filter((name) => !known.has(name)).map((name) => ({ lesson: name, for: "" }));
  const all = [...COURSE, ...others];
  for (const group of new Set(all.map((one) => one.for))) {
    const list = make("ol");
    for (const one of all.filter((other) => other.for === group && LESSONS[other.lesson])) {
      const open = make("button", { type: "button", textContent: titled(one.lesson) });
      open.onclick = () => openLesson(one.lesson, LESSONS[one.lesson]);
      const texts = one.aim ? [fill(T.minutes, one.minutes) + " " + one.aim, T.exercise + " " + one.exercise] : [];
      list.append(make("li", {}, [open, ...texts.map((text) => make("p", { textContent: text }))]));
      el("lesson-name").append(make("option", { value: one.lesson, textContent: titled(one.lesson) }));
    }
    el("course").append(make("h3", { textContent: T["for_" + group] || T.for_others }), list);
  }
  el("lesson-name").onchange = () => openLesson(el("lesson-name").value, LESSONS[el("lesson-name").value]);
}

// The number of a lesson and the first sentence of its text.
const titled = (name) => `${name.slice(0, 2)} ${(steps(LESSONS[name])[0].said[0] || name).split(/[.] /)[0]}`;
