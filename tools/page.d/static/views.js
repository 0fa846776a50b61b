// The elements that show answers.

export function make(tag, attributes = {}, ...children) {
  const element = document.createElement(tag);
  for (const [name, value] of Object.entries(attributes)) {
    if (name.startsWith("on")) element.addEventListener(name.slice(2), value);
    else if (value === true) element.setAttribute(name, "");
    else if (value !== false && value !== null && value !== undefined) element.setAttribute(name, value);
  }
  element.append(...children.filter((child) => child !== null && child !== undefined));
  return element;
}

// A value as it is printed, `c` for a true Boolean or `c=v`, as a constant and its value.
export function valueOf(part) {
  const at = part.lastIndexOf("=");
  return at < 0 ? [part, "true"] : [part.slice(0, at), part.slice(at + 1)];
}

// As the language has it: c, -c or c=v.
const spelled = (constant, value) => (value === "true" ? constant : value === "false" ? `-${constant}` : `${constant}=${value}`);
const isFolded = (value) => value === "false" || value === "none";

// The values of a row in order, each with what it was before and whether it is folded away.
function valuesOf(row, before, all) {
  const now = new Map(row.map(valueOf));
  const was = before ? new Map(before.map(valueOf)) : null;
  const found = [];
  for (const [constant, value] of now) {
    if (isFolded(value) && !all) continue;
    const old = was ? was.get(constant) ?? "false" : null;
    found.push({ constant, value, was: old !== null && old !== value ? old : null });
  }
  if (was) {
    for (const [constant, value] of was) {
      if (!now.has(constant) && value === "true") found.push({ constant, value: "false", was: value });
    }
  }
  return found;
}

// A button for a value; a click asks why.
function valueButton(step, one, pressed, onValue) {
  const gone = one.was !== null && one.value === "false";
  const classes = ["value", one.was !== null ? "changed" : "", gone ? "gone" : "", one.was === null && isFolded(one.value) ? "false" : ""];
  const text = spelled(one.constant, one.value);
  const said = gone ? `${one.constant} is false now` : one.was !== null ? `${text}, changed` : text;
  const small = one.was !== null && one.was !== "false" && !gone ? make("span", { class: "was" }, ` was ${one.was}`) : null;
  return make("button", {
    type: "button", class: classes.filter(Boolean).join(" "), "aria-label": `${said}, why?`, title: "Why?",
    "aria-pressed": pressed === `${step}:${one.constant}` ? "true" : "false", "data-step": step, "data-constant": one.constant,
    onclick: (event) => onValue(step, one.constant, one.value, event.currentTarget),
  }, text, small);
}

function rowOf(head, values, step, options, attributes, empty) {
  const buttons = values.map((one) => valueButton(step, one, null, options.onValue));
  const cell = buttons.length ? make("div", { class: "values" }, ...buttons) : make("span", { class: "none" }, empty);
  const failed = attributes.class === "fails" ? make("strong", { class: "failed" }, "The claim fails here.") : null;
  const step_on = options.onStep && !attributes.actions
    ? make("td", { class: "narrow screen" }, make("button", { type: "button", onclick: () => options.onStep(step) }, "Step on"))
    : null;
  return make("tr", { class: attributes.class }, make("th", { scope: "row" }, head), make("td", options.onStep && attributes.actions ? { colspan: 2 } : {}, failed, cell), step_on);
}

// A history as a table: a row for each state, and between them one for what is done.
// options: caption, hint (what a click does), all (the full rows, or null), fails (a step or null), onValue, onStep.
export function historyTable(rows, options) {
  const shown = options.all || rows;
  const body = make("tbody");
  for (let index = 0; index < shown.length; index += 1) {
    const step = Math.floor(index / 2);
    const isAction = index % 2 === 1;
    const before = isAction || index === 0 ? null : shown[index - 2];
    const values = valuesOf(shown[index], before, Boolean(options.all));
    const fails = !isAction && options.fails === step;
    const head = isAction ? "does" : `${step}`;
    body.append(rowOf(head, values, step, options, { class: isAction ? "actions" : fails ? "fails" : "", actions: isAction }, isAction ? "nothing" : "nothing is true"));
  }
  const heads = make("tr", {}, make("th", { scope: "col" }, "Step"), make("th", { scope: "col", colspan: options.onStep ? 2 : null }, "Values"));
  return make("div", { class: "scroll" }, make("table", {}, make("caption", {}, options.caption, make("span", { class: "screen" }, options.hint)), make("thead", {}, heads), body));
}

// What sure mode says of each fluent and action.
export function sureTable(atoms, onExample) {
  const places = new Map();
  for (const atom of atoms) {
    const name = `${atom.step}: ${atom.constant}`;
    if (!places.has(name)) places.set(name, { step: atom.step, constant: atom.constant, certain: [], possible: [], impossible: [] });
    places.get(name)[atom.answer].push(atom);
  }
  const body = make("tbody");
  for (const place of places.values()) {
    const certain = place.certain.map((atom) => make("span", { class: "certain" }, atom.value));
    const possible = place.possible.map((atom) =>
      make("button", { type: "button", class: "value", onclick: () => onExample(atom.example) }, `${atom.value} (example ${atom.example})`));
    const impossible = place.impossible.map((atom) => make("span", { class: "impossible" }, atom.value));
    const cells = [certain, possible, impossible].map((parts) => make("td", {}, make("div", { class: "values" }, ...parts)));
    body.append(make("tr", {}, make("th", { scope: "row" }, `${place.step}`), make("td", {}, place.constant), ...cells));
  }
  const heads = ["Step", "Fluent or action", "Certain", "Possible", "Impossible"].map((head) => make("th", { scope: "col" }, head));
  const caption = make("caption", {}, "What all histories have, what some have, and what none has");
  return make("div", { class: "scroll" }, make("table", {}, caption, make("thead", {}, make("tr", {}, ...heads)), body));
}

// A paragraph with what stands between backquotes as code.
export function paragraph(text) {
  return make("p", {}, ...text.split("`").map((part, index) => (index % 2 ? make("code", {}, part) : part)));
}

// The cause of a value at a step that is shown, in words.
export function causeOf(cause, step, name, onLaw) {
  const what = make("strong", {}, `${step}: ${cause.constant}=${cause.value}`);
  if (cause.why === "initial") return [make("p", {}, what, " is caused by itself: a fluent may begin with any value.")];
  if (cause.why === "one value") return [make("p", {}, what, " is the only value that there is.")];
  const where = cause.file === name ? `line ${cause.line}` : `${cause.file}, line ${cause.line}`;
  const button = make("button", { type: "button", onclick: onLaw }, where);
  return [make("p", {}, what, " is caused by ", button), cause.law ? make("code", {}, cause.law) : null];
}
