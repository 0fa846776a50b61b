// The text: CodeMirror where it is there, a plain text area where it is not. Lines are counted from 1.
import { define } from "./highlight.js";

function withCodeMirror(place, onChange) {
  const { CodeMirror } = window;
  define(CodeMirror);
  const editor = CodeMirror(place, {
    mode: "ccalc", lineNumbers: true, lineWrapping: true, matchBrackets: true, gutters: ["signs", "CodeMirror-linenumbers"],
    extraKeys: { Tab: false, "Shift-Tab": false }, screenReaderLabel: "Text of the description",
  });
  editor.on("change", onChange);
  let marked = [];
  const clear = (kind) => {
    marked = marked.filter((mark) => {
      if (mark.kind !== kind) return true;
      if (mark.word) mark.word.clear();
      editor.removeLineClass(mark.line, "background", kind);
      editor.setGutterMarker(mark.line, "signs", null);
      return false;
    });
  };
  // The word at a column, which counts characters from 1.
  const word = (kind, line, column) => {
    const text = editor.getLine(line - 1) ?? "";
    const at = [...text].slice(0, column - 1).join("").length;
    const length = (/^(\w+|[^\w\s]+|.)/.exec(text.slice(at)) || [" "])[0].length;
    return editor.markText({ line: line - 1, ch: at }, { line: line - 1, ch: at + length }, { className: `${kind}-word` });
  };
  const mark = (kind, first, last, title, column) => {
    for (let line = first; line <= Math.min(last, editor.lineCount()); line += 1) {
      const handle = editor.addLineClass(line - 1, "background", kind);
      const sign = document.createElement("span");
      sign.className = `${kind}-mark`;
      sign.textContent = kind === "law" ? "→" : "!";
      sign.title = title;
      editor.setGutterMarker(handle, "signs", sign);
      marked.push({ kind, line: handle, word: column && line === first ? word(kind, line, column) : null });
    }
  };
  return {
    get: () => editor.getValue("\n"),
    set: (text) => { editor.setValue(text); editor.clearHistory(); },
    clear,
    mark,
    show: (line) => editor.scrollIntoView({ line: line - 1, ch: 0 }, 80),
    go: (line, column) => { editor.setCursor(line - 1, Math.max(0, column - 1)); editor.focus(); },
    fresh: () => editor.refresh(),
  };
}

function plain(place, onChange) {
  const area = document.createElement("textarea");
  area.id = "plain";
  area.setAttribute("aria-label", "Text of the description");
  area.spellcheck = false;
  area.addEventListener("input", onChange);
  place.append(area);
  const go = (line, column) => {
    const before = area.value.split("\n").slice(0, line - 1).join("\n").length + (line > 1 ? 1 : 0);
    area.focus();
    area.setSelectionRange(before + column - 1, before + column - 1);
  };
  return {
    get: () => area.value,
    set: (text) => { area.value = text; onChange(); },
    clear: () => {},
    mark: () => {},
    show: () => {},
    go,
    fresh: () => {},
  };
}

export function makeEditor(place, onChange) {
  return window.CodeMirror ? withCodeMirror(place, onChange) : plain(place, onChange);
}
