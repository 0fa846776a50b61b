// The page: opens texts, checks them as they are changed, asks their queries and shows the answers.
import { makeEditor } from "./editor.js";
import { makePicture } from "./picture.js";
import * as server from "./server.js";
import { makeStepping } from "./stepping.js";
import { causeOf, historyTable, make, paragraph, sureTable, valueOf } from "./views.js";

const $ = (id) => document.getElementById(id);
const FIRST = 100; // histories that are listed at first
const PAGE = 100; // histories on one page of the list
const SIZES = [100, 115, 130, 150, 175, 200];
const LEFT_OPEN = "This may begin in a state that is never reached: then a claim that says more can settle it. Else ask for more steps.";
const HISTORIES = new Set(["history", "counterexample", "example", "without", "induction"]); // kinds of events
const JUDGES = { list: "check", sure: "surecheck", forever: "forevercheck" }; // of each mode with a log, the one that judges it

const state = { name: null, changed: null, ends: "\n", saved: "", drafts: new Map(), queries: [], modes: {}, answer: null, checking: null };
let editor = null;

// ---- runs

const GONE = "the server does not answer; is tools/page still running?";
const runs = new Set(); // what Stop ends

function stop() {
  for (const controller of runs) controller.abort();
}

function note(controller, isUnderWay) {
  if (isUnderWay) runs.add(controller);
  else runs.delete(controller);
  $("running").hidden = runs.size === 0;
}

async function running(job, controller, onEvents) {
  try {
    return await server.run(job, onEvents, controller.signal);
  } catch (error) {
    const stopped = error.name === "AbortError";
    return { kind: "end", code: null, reason: stopped ? "stopped" : "lost", text: stopped ? `stopped${countText()}` : GONE, refusal: null };
  } finally {
    note(controller, false);
  }
}

const showTime = (tick) => { $("progress").textContent = `${tick.seconds.toFixed(1)} s${countText()}`; };
const countText = () => (state.answer && state.answer.histories.length ? `, ${state.answer.histories.length} listed so far` : "");
const lastTick = (events) => events.filter((event) => event.kind === "tick").pop();

// Runs what the answer section waits for, and ends what runs before.
function ask(job, onEvents) {
  stop();
  const controller = new AbortController();
  note(controller, true);
  $("progress").textContent = "asking ..";
  return running(job, controller, (events) => {
    const tick = lastTick(events);
    onEvents(events);
    if (tick) showTime(tick);
  });
}

// Runs what stands beside an answer: causes, pictures, steps. The text is the editor's own where the job names none.
function besides(job, onEvents) {
  const controller = new AbortController();
  return running({ name: state.name, text: editor.get(), ...job }, controller, (events) => {
    const tick = lastTick(events);
    if (tick && tick.seconds > 0.9) {
      note(controller, true);
      showTime(tick);
    }
    onEvents(events);
  });
}

// ---- the text

function noteText() {
  const isChanged = editor.get() !== state.saved;
  $("saved").textContent = isChanged ? "not saved" : "";
  $("stale").hidden = !state.answer || state.answer.text === editor.get();
}

let timer = null;
function onChange() {
  noteText();
  clearTimeout(timer);
  timer = setTimeout(check, editor.get().length > 300000 ? 2000 : 400);
}

async function check() {
  if (state.checking) state.checking.abort();
  const controller = new AbortController();
  state.checking = controller;
  let checked = null;
  let end = null;
  try {
    end = await server.run({ kind: "check", name: state.name, text: editor.get() }, (events) => {
      checked = events.find((event) => event.kind === "checked") || checked;
    }, controller.signal);
  } catch (error) {
    if (error.name === "AbortError") return;
    end = { text: GONE };
  }
  if (state.checking !== controller) return;
  if (checked) {
    state.queries = checked.queries;
    showQueries();
  }
  showProblems(checked ? checked.problems : [], end.text);
}

// Puts elements into a place; what had the focus there has it again, by its spoken name or its words.
function replaceIn(place, elements) {
  const nameOf = (one) => one.getAttribute("aria-label") || one.textContent;
  const name = place.contains(document.activeElement) ? nameOf(document.activeElement) : null;
  place.replaceChildren(...elements);
  if (name !== null) [...place.querySelectorAll("button")].find((one) => nameOf(one) === name)?.focus();
}

function showProblems(problems, text) {
  editor.clear("wrong");
  const shown = problems.map((problem) => {
    const isHere = problem.file === state.name && problem.line;
    if (isHere) editor.mark("wrong", problem.line, problem.column ? problem.line : problem.last, `${problem.number || ""} ${problem.name}`, problem.column);
    const column = problem.column ? `, column ${problem.column}` : "";
    const place = problem.file ? `${isHere ? "" : `${problem.file}, `}line ${problem.line}${column}` : "no place";
    const button = isHere ? make("button", { type: "button", onclick: () => editor.go(problem.line, problem.column || 1) }, place) : make("span", {}, place);
    const words = problem.words.map(paragraph);
    const name = problem.number ? `${problem.number} ${problem.name}` : problem.name;
    return make("div", { class: problem.is_warning ? "problem warning" : "problem" }, button, " ", make("span", { class: "place" }, name), ...words);
  });
  if (text) shown.push(make("div", { class: "problem" }, text));
  replaceIn($("problems"), shown.length ? shown : [make("span", { class: "fine" }, "Nothing is refused.")]);
}

async function openFile(name) {
  if (state.name && editor.get() !== state.saved) state.drafts.set(state.name, editor.get());
  try {
    const found = await server.open(name);
    Object.assign(state, { name, changed: found.changed, ends: found.ends, saved: found.text, queries: [] });
    clearAnswer();
    $("queries").replaceChildren(make("li", { class: "none" }, "looking .."));
    $("problems").replaceChildren();
    editor.clear("law");
    editor.set(state.drafts.get(name) ?? found.text);
    state.drafts.delete(name);
    if (found.note) $("saved").textContent = found.note;
    $("file").value = name;
    document.title = `${name} - CCalc`;
    location.hash = encodeURIComponent(name);
  } catch (error) {
    $("file").value = state.name ?? "";
    $("saved").textContent = error.message;
  }
}

async function saveFile() {
  const text = editor.get();
  try {
    const found = await server.save({ name: state.name, text, ends: state.ends, changed: state.changed });
    Object.assign(state, { changed: found.changed, saved: text });
    noteText();
    if (editor.get() === text) $("saved").textContent = "saved";
  } catch (error) {
    $("saved").textContent = error.message;
  }
}

// ---- queries

function showQueries() {
  const items = state.queries.map((query) => {
    const name = query.label ?? "without a label";
    const button = (words, action, strong) => make("button", { type: "button", class: strong ? "strong" : null, "aria-label": `${words}: ${name}`, onclick: action }, words);
    const canBeAsked = query.label !== null || query === state.queries[0];
    const buttons = canBeAsked
      ? [button("Ask", () => askQuery(query), true), query.claim ? null : button("Certain?", () => askSure(query)), button("Ever?", () => askForever(query)), button("Judge its log", () => judge(query))]
      : [make("span", { class: "none" }, "give it a label, to ask it")];
    const where = query.file ? `${query.file}, line ${query.line}` : `line ${query.line}${query.claim ? ", a claim" : ""}`;
    return make("li", {}, make("span", { class: "name" }, name), ...buttons, make("span", { class: "none" }, where));
  });
  replaceIn($("queries"), items.length ? items : [make("li", { class: "none" }, "This text has no query.")]);
}

function clearAnswer() {
  stop();
  state.answer = null;
  for (const id of ["verdict", "history", "list", "sure", "drawing"]) $(id).replaceChildren();
  for (const id of ["walker", "why", "picture", "stale"]) $(id).hidden = true;
  $("verdict").append(make("p", { class: "none" }, "Ask a query to see its answer here."));
}

function newAnswer(query, kind) {
  clearAnswer();
  $("verdict").replaceChildren();
  state.answer = { text: editor.get(), name: state.name, query, kind, histories: [], atoms: [], lines: [], parts: [], shown: -1, all: false, causes: new Map(), end: null, extra: null };
  return state.answer;
}

function take(answer, events) {
  for (const event of events) {
    if (HISTORIES.has(event.kind)) answer.histories.push(event);
    else if (event.kind === "atom") answer.atoms.push(event);
    else if (event.kind === "part") answer.parts.push(event);
    else if (event.kind === "line") answer.lines.push(event.text);
  }
}

async function askQuery(query) {
  const answer = newAnswer(query, "list");
  await listed(answer, { count: FIRST });
  if (state.answer === answer && answer.histories.length) drawAnswer("histories");
}

// Lists histories into an answer, from its beginning or after a key.
async function listed(answer, more) {
  const job = { kind: "list", name: answer.name, text: answer.text, ...more };
  if (answer.query.label !== null) job.label = answer.query.label;
  const before = answer.histories.length;
  answer.lines = [];
  const end = await ask(job, (events) => {
    if (state.answer !== answer) return;
    take(answer, events);
    if (answer.shown < 0 && answer.histories.length) showHistory(0);
    showCount();
  });
  if (state.answer !== answer) return;
  answer.end = end;
  if (more.after && answer.histories.length === before && end.reason === "ended" && !end.refusal) answer.lines = [`complete, ${before} listed`];
  else if (more.after) answer.lines = answer.lines.slice(-1).map((line) => line.replace(/(horizon \d+: .*, )\d+ listed/, `$1${answer.histories.length} listed`));
  showVerdict();
  showCount();
}

function showVerdict() {
  const { answer } = state;
  const { end } = answer;
  const isWhole = end.reason === "ended" && !end.refusal;
  const last = isWhole ? answer.lines[answer.lines.length - 1] || end.text : end.text;
  const isFurther = answer.histories.length > 0 && answer.kind === "list" && answer.histories[0].kind === "history";
  const tone = !isWhole ? "bad" : end.code === 0 || end.code === 7 || isFurther ? "good" : end.code === 1 ? "bad" : "";
  const parts = [make("p", { class: `ending ${tone}` }, last || "ended")];
  if (end.refusal) showProblems([end.refusal], "");
  const others = isWhole ? answer.lines.slice(0, -1) : answer.lines;
  if (others.length) parts.push(make("p", { class: "lines" }, others.slice(0, 12).join("; ") + (others.length > 12 ? `; and ${others.length - 12} more` : "")));
  if (answer.kind === "list" && end.code === 1 && last === "no history") {
    parts.push(make("button", { type: "button", onclick: () => askWhyNot(answer.query) }, "Why is there none?"));
  }
  $("verdict").replaceChildren(...parts);
}

async function askSure(query) {
  const answer = newAnswer(query, "sure");
  const job = { kind: "sure", name: answer.name, text: answer.text };
  if (query.label !== null) job.label = query.label;
  const end = await ask(job, (events) => take(answer, events));
  if (state.answer !== answer) return;
  answer.end = end;
  showVerdict();
  if (answer.atoms.length) $("sure").replaceChildren(sureTable(answer.atoms, (example) => showHistory(example - 1)));
  if (answer.histories.length) showHistory(0);
}

async function askForever(query) {
  const answer = newAnswer(query, "forever");
  const job = { kind: "forever", name: answer.name, text: answer.text };
  if (query.label !== null) job.label = query.label;
  const end = await ask(job, (events) => take(answer, events));
  if (state.answer !== answer) return;
  answer.end = end;
  showVerdict();
  if (!answer.histories.length) return;
  if (answer.histories[0].kind === "induction") $("verdict").append(make("p", {}, LEFT_OPEN));
  showHistory(0);
  drawAnswer("histories");
}

async function askWhyNot(query) {
  const answer = newAnswer(query, "whynot");
  $("answer").focus(); // the button that asked is gone
  const job = { kind: "whynot", name: answer.name, text: answer.text };
  if (query.label !== null) job.label = query.label;
  const end = await ask(job, (events) => take(answer, events));
  if (state.answer !== answer) return;
  answer.end = end;
  showVerdict();
  editor.clear("law");
  for (const part of answer.parts) {
    if (part.line && part.file === answer.name) editor.mark("law", part.line, part.last, part.text);
  }
  if (answer.parts.length) {
    const items = answer.parts.map((part) => make("li", {}, part.text, part.law ? make("code", {}, part.law) : ""));
    $("verdict").append(make("p", {}, "These exclude each other, and without any one of them the others do not:"), make("ul", {}, ...items));
  }
  if (answer.histories.length) showHistory(0);
}

async function judge(query) {
  const isShown = state.answer && state.answer.query.label === query.label && state.answer.text === editor.get();
  if (!isShown) newAnswer(query, "judge");
  const { answer } = state;
  const of = answer.kind in JUDGES ? answer.kind : "list";
  const job = { kind: "judge", name: answer.name, text: answer.text, of };
  if (query.label !== null) job.label = query.label;
  let log = null;
  let verdict = null;
  const end = await ask(job, (events) => {
    log = events.find((event) => event.kind === "log") || log;
    verdict = events.find((event) => event.kind === "verdict") || verdict;
  });
  if (state.answer !== answer) return;
  const said = verdict
    ? [make("p", { class: `ending ${verdict.code === 0 ? "good" : "bad"}`, id: "judged" }, verdict.text), make("p", { class: "lines" }, `The log has ${log.bytes} bytes; ${JUDGES[of]} mode judged it.`)]
    : [make("p", { class: "ending bad", id: "judged" }, `there is no log to judge: ${end.text || log?.answer || "the run did not end by itself"}`)];
  $("judgement")?.remove();
  $("verdict").append(make("div", { id: "judgement" }, ...said));
  if (end.refusal) showProblems([end.refusal], "");
}

// ---- histories

function asTitle(history, index) {
  const titles = { counterexample: "Counterexample", example: `Example ${history.number}`, without: `Without ${history.part}`, induction: "What the induction leaves open" };
  return titles[history.kind] || `History ${index + 1}`;
}

function showCount() {
  const { answer } = state;
  const many = answer.histories.length;
  $("walker").hidden = !many;
  $("number").max = many;
  $("of").textContent = `of ${many}${answer.end && answer.end.reason === "ended" ? "" : " so far"}`;
  $("previous").disabled = answer.shown <= 0;
  $("next").disabled = answer.shown + 1 >= many && !hasMore(answer);
  $("all").disabled = many < 2 && !hasMore(answer);
}

// Whether the listing ended by its count, or was stopped, so that the program may know of further histories.
const hasMore = (answer) =>
  answer.kind === "list" && answer.histories.length > 0 && answer.histories[0].kind === "history" && answer.end !== null && (answer.end.code === 7 || answer.end.reason !== "ended");

// The step at which a claim fails; an induction asks for a claim at maxstep alone.
function failsAt(answer, history) {
  const { claim } = answer.query;
  if (claim === "maxstep" && (history.kind === "counterexample" || history.kind === "induction")) return history.horizon;
  return claim && history.kind === "counterexample" ? Number(claim) : null;
}

async function showHistory(index) {
  const { answer } = state;
  const history = answer.histories[index];
  if (!history) return;
  answer.shown = index;
  answer.extra = null;
  $("number").value = index + 1;
  $("key").value = history.key;
  showCount();
  await showRows(answer, history, asTitle(history, index));
}

// Shows the rows of a history as a table; the focus goes to the button that folds and unfolds where that was used.
async function showRows(answer, history, title, focus) {
  const full = answer.all ? rowsOf(await causesOf(answer.text, answer.name, history.key)) : null;
  if (state.answer !== answer) return;
  const words = full ? "Fold false and none away" : "Show false and none too";
  const toggle = make("button", { type: "button", onclick: () => { answer.all = !answer.all; showRows(answer, history, title, true); } }, words);
  const table = historyTable(history.rows, {
    caption: `${title}, ${history.horizon} ${history.horizon === 1 ? "step" : "steps"}.`,
    hint: " A click on a value asks why.",
    all: full && full.length ? full : null,
    fails: failsAt(answer, history),
    onValue: (step, constant, value, button) => why(answer.text, answer.name, history.key, step, constant, button),
    onStep: (step) => stepping.begin(answer.name, answer.text, history.key, step, history.rows[2 * step]),
  });
  $("history").replaceChildren(table, make("p", { class: "bar" }, toggle));
  if (focus) toggle.focus();
  picture.markStates(history.rows);
}

async function nextHistory() {
  const { answer } = state;
  if (answer.shown + 1 >= answer.histories.length && hasMore(answer)) {
    await listed(answer, { after: answer.histories[answer.histories.length - 1].key, count: 1 });
  }
  if (state.answer === answer) await showHistory(Math.min(answer.shown + 1, answer.histories.length - 1));
}

async function allHistories() {
  const { answer } = state;
  showList(0);
  if (hasMore(answer)) {
    await listed(answer, { after: answer.histories[answer.histories.length - 1].key });
    if (state.answer === answer) showList(0);
  }
}

// The list of all histories, a page at a time; the focus goes to its first one where a page was turned.
function showList(from, isTurned) {
  const { answer } = state;
  const words = wordsOf(answer.histories.slice(from, from + PAGE).map((history) => history.rows));
  const items = words.map((text, at) =>
    make("li", {}, make("button", { type: "button", onclick: () => showHistory(from + at) }, `${from + at + 1}: ${text}`)));
  const bar = make("p", { class: "bar" });
  if (from > 0) bar.append(make("button", { type: "button", onclick: () => showList(Math.max(0, from - PAGE), true) }, "Page before"));
  if (from + PAGE < answer.histories.length) bar.append(make("button", { type: "button", onclick: () => showList(from + PAGE, true) }, "Page after"));
  bar.append(make("button", { type: "button", onclick: closeList }, "Close the list"));
  $("list").replaceChildren(make("ol", { "aria-label": "All histories" }, ...items), bar);
  if (isTurned && items.length) items[0].firstChild.focus();
}

// Of each of these histories the actions, between what is otherwise in its first state than in those of others, and so in its last one.
function wordsOf(histories) {
  const differing = (rows) => {
    const seen = new Map();
    for (const part of rows.flat()) seen.set(part, (seen.get(part) || 0) + 1);
    const some = new Set([...seen].filter(([, count]) => count < rows.length).map(([part]) => part));
    return rows.map((row) => (some.size ? [row.filter((part) => some.has(part)).join(" ") || "nothing is true"] : []));
  };
  const firsts = differing(histories.map((rows) => rows[0]));
  const lasts = differing(histories.map((rows) => rows[rows.length - 1]));
  return histories.map((rows, at) => {
    const actions = rows.filter((row, index) => index % 2).map((row) => row.filter((part) => !part.endsWith("=none")).join(" ") || "nothing");
    return actions.length ? [...firsts[at], actions.join("; "), ...lasts[at]].join(" \u2192 ") : rows[0].join(" ") || "nothing is true";
  });
}

function closeList() {
  $("list").replaceChildren();
  $("number").focus();
}

async function findKey() {
  const { answer } = state;
  const key = $("key").value.trim().replace(/^key /, "");
  const index = answer.histories.findIndex((history) => history.key === key);
  if (index >= 0) {
    await showHistory(index);
    return;
  }
  const causes = await causesOf(answer.text, answer.name, key);
  if (!causes.length) {
    $("history").replaceChildren(make("p", { class: "note" }, "This is the key of no history: neither of the listing so far, nor of the description."));
    return;
  }
  const rows = rowsOf(causes).map((row) => row.filter((part) => !["false", "none"].includes(valueOf(part)[1])).map((part) => part.replace(/=true$/, "")));
  await showRows(answer, { kind: "history", rows, key, horizon: (rows.length - 1) / 2 }, "A history that is not in the listing so far");
}

// ---- causes

const known = new Map();

async function causesOf(text, name, key) {
  const cached = known.get(key);
  if (cached && cached.text === text && cached.name === name) return cached.causes;
  const causes = [];
  const end = await besides({ kind: "why", key, name, text }, (events) => causes.push(...events.filter((event) => event.kind === "cause")));
  if (end.code === 0) {
    if (known.size > 200) known.clear();
    known.set(key, { text, name, causes });
  }
  return causes;
}

// The rows of a history from its causes, with all values.
function rowsOf(causes) {
  if (!causes.length) return [];
  const last = causes[causes.length - 1].step;
  const fluents = new Set(causes.filter((cause) => cause.step === last).map((cause) => cause.constant));
  const rows = Array.from({ length: 2 * last + 1 }, () => []);
  for (const cause of causes) rows[2 * cause.step + (fluents.has(cause.constant) ? 0 : 1)].push(`${cause.constant}=${cause.value}`);
  return rows;
}

// Tells why a constant has its value at a step of a history, which is shown as the step `shown`.
async function why(text, name, key, step, constant, button, shown = step) {
  for (const other of document.querySelectorAll(".value[aria-pressed=true]")) other.setAttribute("aria-pressed", "false");
  button.setAttribute("aria-pressed", "true");
  $("why").hidden = false;
  $("cause").replaceChildren(make("p", { class: "none" }, "asking .."));
  const causes = await causesOf(text, name, key);
  const cause = causes.find((one) => one.step === step && one.constant === constant);
  editor.clear("law");
  if (!cause) {
    $("cause").replaceChildren(make("p", {}, "Why mode gave no answer for this value."));
    return;
  }
  const isHere = cause.line && cause.file === state.name && text === editor.get();
  const onLaw = () => (isHere ? editor.go(cause.line, 1) : cause.file !== state.name && openFile(cause.file));
  $("cause").replaceChildren(...causeOf(cause, shown, name, onLaw).filter(Boolean));
  if (isHere) {
    editor.mark("law", cause.line, cause.last, "the law that causes it");
    editor.show(cause.line);
  }
}

// ---- pictures and steps

const picture = makePicture({ section: $("picture"), drawing: $("drawing"), drawn: $("drawn") }, besides);
let seenByHand = [];
const stepping = makeStepping(
  { section: $("stepping"), walk: $("walk"), choices: $("choices"), back: $("back"), walked: $("walked") },
  besides, why, (histories) => { seenByHand = histories; });

async function drawAnswer(shape) {
  const { answer } = state;
  if (!answer || !answer.histories.length) return;
  await picture.draw(answer.histories.slice(0, 301).map((history) => history.rows), shape);
  if (state.answer === answer && answer.shown >= 0) picture.markStates(answer.histories[answer.shown].rows);
}

// ---- the page itself

function letters(change) {
  const now = Number(localStorage.getItem("letters")) || 100;
  const at = Math.min(SIZES.length - 1, Math.max(0, SIZES.indexOf(now) + change));
  localStorage.setItem("letters", SIZES[at]);
  document.documentElement.style.fontSize = `${SIZES[at]}%`;
  document.documentElement.classList.toggle("large", SIZES[at] >= 150);
  editor.fresh();
}

// The text for the printer, with the numbers of its lines.
function setPrinted() {
  const lines = editor.get().slice(0, 300000).replace(/\n$/, "").split("\n");
  const width = String(lines.length).length;
  $("printed").textContent = lines.map((line, index) => `${String(index + 1).padStart(width)}  ${line}`).join("\n");
  $("printed-name").textContent = `of ${state.name}`;
}

function onKey(event) {
  if (event.key === "Escape") stop();
  if (!(event.ctrlKey || event.metaKey)) return;
  if (event.key === "Enter") {
    event.preventDefault();
    if (state.queries.length) askQuery(state.queries[0]);
  } else if (event.key === "s") {
    event.preventDefault();
    saveFile();
  }
}

const clicks = {
  save: saveFile, stop, smaller: () => letters(-1), larger: () => letters(1), print: () => window.print(),
  previous: () => showHistory(state.answer.shown - 1), next: nextHistory, all: allHistories, find: findKey,
  "draw-histories": () => drawAnswer("histories"), "draw-transitions": () => drawAnswer("transitions"),
  closer: () => picture.scaled(1.25), farther: () => picture.scaled(0.8), whole: () => picture.scaled(0),
  states: () => stepping.states(state.name, editor.get()), back: () => stepping.back(),
  walked: async () => { await picture.draw(seenByHand, "transitions"); picture.markStates(stepping.rows().slice(-1)); },
};

async function begin() {
  editor = makeEditor($("editor"), onChange);
  for (const [id, action] of Object.entries(clicks)) $(id).addEventListener("click", action);
  $("file").addEventListener("change", () => openFile($("file").value));
  $("number").addEventListener("change", () => showHistory(Number($("number").value) - 1));
  $("key").addEventListener("keydown", (event) => { if (event.key === "Enter" && !event.ctrlKey) findKey(); });
  document.addEventListener("keydown", onKey);
  window.addEventListener("beforeprint", setPrinted);
  window.addEventListener("beforeunload", (event) => { if (editor.get() !== state.saved) event.preventDefault(); });
  letters(0);
  const found = await server.about();
  state.modes = found.modes;
  $("missing").hidden = !found.missing.length;
  $("missing").textContent = found.missing.map((part) => `${part.part} is not there, so ${part.without}; install it by: ${part.install}`).join(". ");
  $("file").replaceChildren(...found.files.map((name) => make("option", { value: name }, name)));
  const wanted = decodeURIComponent(location.hash.slice(1));
  if (found.files.length) {
    $("file").value = found.files.includes(wanted) ? wanted : found.files[0];
    await openFile($("file").value);
  } else {
    $("saved").textContent = `${found.folder} has no file that ends with .cc or .ccalc`;
  }
}

begin();
