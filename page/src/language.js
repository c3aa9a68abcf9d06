// The words of scenes and listings, for the editor: their colours, and what may be completed at the cursor.
import CodeMirror from "codemirror/lib/codemirror.js";
import {NAMES} from "./passes.js";
import {KEYWORDS, isListing, namesIn} from "./scene.js";

const LISTING = ["pxlist", "grid", ...NAMES, "end"];
const WORDS = new Set([...KEYWORDS, ...LISTING]);

// The kind of a word by the first word of its line: keyword, number, name, bracket, sign or comment; `odd` is none of them.
function kindOf(word, first, at) {
  if (at === 0) return WORDS.has(word) ? "keyword" : "odd";
  if (/^[()]$/.test(word)) return "bracket";
  if (/^[+*^-]$/.test(word)) return "sign";
  if (first === "show" || first === "solid" && at === 1) return "name";
  return /^-?\d+$/.test(word) ? "number" : "odd";
}

CodeMirror.defineMode("pxplanes", () => ({
  startState: () => ({first: "", at: 0}),
  token(stream, state) {
    if (stream.sol()) Object.assign(state, {first: "", at: 0});
    if (stream.eatSpace()) return null;
    if (stream.peek() === "#") {
      stream.skipToEnd();
      return "comment";
    }
    const [word] = stream.match(state.first === "show" ? /^([A-Za-z0-9_]+|.)/u : /^[^\s#]+/u);
    if (state.at === 0) state.first = word;
    return kindOf(word, state.first, state.at++);
  }
}));

// What may be written at the cursor and begins as the word there does: the first word of a line, or in an expression the name of a solid.
export function completions(editor) {
  const cursor = editor.getCursor(), line = editor.getLine(cursor.line), [word] = /[\w-]*$/.exec(line.slice(0, cursor.ch));
  const before = line.slice(0, cursor.ch - word.length), isFirst = !before.trim(), text = editor.getValue();
  const shown = /^\s*show\b/.test(before) ? namesIn(text) : isFirst ? isListing(text) ? LISTING : KEYWORDS : [];
  return {list: [...new Set(shown)].filter(each => each.startsWith(word)), from: CodeMirror.Pos(cursor.line, cursor.ch - word.length), to: cursor};
}

// Red, green and blue that a line gives, or null.
export function colourOf(line) {
  const words = line.split("#")[0].trim().split(/\s+/), numbers = words.slice(-3).map(Number);
  const has = {solid: 5, front: 7, back: 7}[words[0]] === words.length;
  return has && numbers.every(part => Number.isInteger(part) && part >= 0 && part <= 255) ? numbers : null;
}
