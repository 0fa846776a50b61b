// Highlighting of descriptions in CodeMirror, by the tokens of docs/language.md.
const set = (words) => new Set(words.split(" "));
const LAWS = set("caused if after default inertial exogenous constraint always nonexecutable causes may cause where noconcurrency");
const DIRECTIVES = set("maxstep label claim sorts objects variables constants query include of");
const KINDS = set("simpleFluent inertialFluent sdFluent rigid action exogenousAction attribute");
const VALUES = set("true false none");

function styleOf(word) {
  if (LAWS.has(word)) return "keyword";
  if (DIRECTIVES.has(word)) return "def";
  if (KINDS.has(word)) return "type";
  return VALUES.has(word) ? "atom" : "variable";
}

function token(stream) {
  if (stream.eatSpace()) return null;
  if (stream.match(/^%.*/)) return "comment";
  if (stream.match(/^'[\x20-\x26\x28-\x7e]+'/)) return "string";
  const word = stream.match(/^[A-Za-z][A-Za-z0-9_]*/);
  if (word) return styleOf(word[0]);
  if (stream.match(/^[0-9]+/)) return "number";
  if (stream.match(/^(:-|::|\.\.|\/\\|\\\/|\\=|\+\+|->>|<->|=<|>>|>=|[:;,.()[\]|&+\-<=>])/)) return "operator";
  stream.next();
  return "error";
}

export function define(CodeMirror) {
  CodeMirror.defineMode("ccalc", () => ({ token, lineComment: "%" }));
}
