// Stepping by hand: from a state, the histories of one step that begin in it; each choice leads on.
import { historyTable, make } from "./views.js";

// `askRun` runs a job over a text; `onWhy(text, name, key, step, constant, button, shown)` tells why; `onSeen(histories)` hears of what was seen.
export function makeStepping(places, askRun, onWhy, onSeen) {
  let walk = null; // { name, text, frames: [{ key, step, row, actions }] }
  let seen = [];
  let asked = 0;

  const rowsOf = () => walk.frames.flatMap((frame, index) => (index ? [frame.actions, frame.row] : [frame.row]));

  const why = (step, constant, value, button, isAction) => {
    const frame = walk.frames[isAction ? step + 1 : step];
    onWhy(walk.text, walk.name, frame.key, isAction ? frame.step - 1 : frame.step, constant, button, step);
  };

  const show = () => {
    const table = historyTable(rowsOf(), {
      caption: ["The first state", "1 step by hand"][walk.frames.length - 1] || `${walk.frames.length - 1} steps by hand`,
      onValue: (step, constant, value, button) => why(step, constant, value, button, Boolean(button.closest("tr.actions"))),
    });
    places.walk.replaceChildren(table);
    places.section.classList.add("used");
    places.back.hidden = walk.frames.length < 2;
  };

  const choiceText = (history, before) => {
    const [, actions, after] = history.rows;
    const old = new Set(before);
    const changed = after.filter((part) => !old.has(part));
    const gone = before.filter((part) => !part.includes("=") && !after.includes(part)).map((part) => `${part} is false`);
    const effect = [...changed, ...gone].join("  ") || "nothing changes";
    return [make("span", { class: "does" }, actions.filter((part) => !part.endsWith("=none")).join("  ") || "nothing"), make("span", {}, `→ ${effect}`)];
  };

  const listChoices = async (focus) => {
    const mine = (asked += 1);
    const frame = walk.frames[walk.frames.length - 1];
    const found = [];
    places.choices.replaceChildren(make("p", { class: "none" }, "looking for what can be done .."));
    const end = await askRun({ kind: "step", key: frame.key, step: frame.step, name: walk.name, text: walk.text }, (events) => {
      found.push(...events.filter((event) => event.kind === "history"));
    });
    if (mine !== asked) return;
    const old = new Set(seen.map((rows) => JSON.stringify(rows)));
    seen = seen.concat(found.map((history) => history.rows).filter((rows) => !old.has(JSON.stringify(rows))));
    onSeen(seen);
    places.walked.hidden = !seen.length;
    const buttons = found.map((history) =>
      make("li", {}, make("button", { type: "button", class: "choice", onclick: () => go(history) }, ...choiceText(history, frame.row))));
    const said = buttons.length ? `What can be done at step ${walk.frames.length - 1}, and what comes of it:` : end.text || "Nothing can be done here, and nothing can stay as it is.";
    places.choices.replaceChildren(make("p", {}, said), make("ul", {}, ...buttons));
    if (focus && buttons.length) buttons[0].firstChild.focus();
  };

  const go = (history) => {
    walk.frames.push({ key: history.key, step: 1, row: history.rows[2], actions: history.rows[1] });
    show();
    listChoices(true);
  };

  // Begins at a state of a history with a key.
  const begin = (name, text, key, step, row) => {
    walk = { name, text, frames: [{ key, step, row, actions: [] }] };
    seen = [];
    show();
    return listChoices(true);
  };

  const back = () => {
    walk.frames.pop();
    show();
    listChoices(true);
  };

  // Lists all states, to begin in one of them.
  const states = async (name, text) => {
    const mine = (asked += 1);
    const found = [];
    places.walk.replaceChildren();
    places.back.hidden = true;
    places.choices.replaceChildren(make("p", { class: "none" }, "looking for the states .."));
    const end = await askRun({ kind: "states", name, text }, (events) => {
      found.push(...events.filter((event) => event.kind === "history"));
    });
    if (mine !== asked) return;
    const buttons = found.map((history) => make("li", {}, make("button", {
      type: "button", class: "choice", onclick: () => begin(name, text, history.key, 0, history.rows[0]),
    }, history.rows[0].join("  ") || "nothing is true")));
    const said = buttons.length ? "Begin in one of these states:" : end.refusal ? end.text : "This description has no state.";
    places.choices.replaceChildren(make("p", {}, said), make("ul", {}, ...buttons));
    if (buttons.length) buttons[0].firstChild.focus();
  };

  return { begin, back, states, rows: () => (walk ? rowsOf() : []) };
}
