// The editor: CodeMirror, with the colours of solids and faces next to their lines, and a mark and what is wrong at the line that is refused.
import CodeMirror from "codemirror/lib/codemirror.js";
import "codemirror/addon/dialog/dialog.js";
import "codemirror/addon/edit/matchbrackets.js";
import "codemirror/addon/hint/show-hint.js";
import "codemirror/addon/search/searchcursor.js";
import "codemirror/addon/search/search.js";
import {colourOf, completions} from "./language.js";
import {css} from "./palette.js";
import {chip} from "./show.js";

const COLOURS = "colours";

export class Editor {
  constructor(root) {
    this.root = root;
    this.onInput = this.onLine = this.onCursor = () => {};
    this.lit = this.bad = null;
    this.code = CodeMirror(root, {
      mode: "pxplanes", inputStyle: "contenteditable", lineNumbers: true, gutters: [COLOURS, "CodeMirror-linenumbers"], matchBrackets: true,
      screenReaderLabel: "the text of the scene", spellcheck: false, autocorrect: false, autocapitalize: false, undoDepth: 10000,
      hintOptions: {hint: completions, completeSingle: true},
      // (a no-break space looks like a space, and the library refuses it)
      specialChars: /[\0-\x1f\x7f-\xa0\xad\u200b-\u200f\u2028\u2029\ufeff]/,
      // (Tab leaves the editor, as it leaves every other field)
      extraKeys: {"Ctrl-Space": "autocomplete", "Tab": false, "Shift-Tab": false, "Esc": () => this.code.getInputField().blur(), "Cmd-S": false, "Ctrl-S": false}
    });
    this.code.on("change", (code, {origin}) => {
      if (origin === "swap") return;
      this.mark(0, null);
      this.onInput();
    });
    this.code.on("cursorActivity", () => {
      this.onCursor();
      if (this.code.hasFocus()) this.onLine(this.code.getCursor().line + 1);
    });
    for (const event of ["viewportChange", "changes", "swapDoc"]) this.code.on(event, () => this.chips());
    const lines = this.code.getWrapperElement();
    lines.addEventListener("mousemove", event => this.onLine(this.placeOf(event).line + 1));
    lines.addEventListener("mouseleave", () => this.onLine(0));
    new ResizeObserver(() => this.code.refresh()).observe(root);
  }

  // A text that is not shown yet, with an undo history and a cursor of its own.
  make(text) { return CodeMirror.Doc(text, "pxplanes", 0, "\n"); }

  // Shows a text in the place of the one that is shown.
  choose(doc) {
    this.mark(0, null);
    this.code.swapDoc(doc);
    this.light(0);
    this.onCursor();
  }

  get text() { return this.code.getValue(); }

  get rows() { return this.text.split("\n"); }

  focus() { this.code.focus(); }

  // Replaces a text; the old one comes back by undoing.
  replace(doc, text) {
    doc.setValue(text);
    doc.setCursor(0, 0);
  }

  // The line, from 0 on, and the column of the letter under the pointer.
  placeOf({clientX, clientY}) { return this.code.coordsChar({left: clientX - this.code.defaultCharWidth() / 2, top: clientY}, "window"); }

  // Marks the line that a refusal names, or none; the span has the columns of what is wrong there, and `said` is shown below the line.
  mark(line, span, said = null) {
    this.bad?.();
    this.bad = null;
    if (!line || line > this.code.lineCount()) return;
    const {code} = this, handle = code.getLineHandle(line - 1), length = handle.text.length, [from, to] = span ?? [0, 0];
    const wrong = span && code.markText({line: line - 1, ch: Math.min(from, length - 1)}, {line: line - 1, ch: to}, {className: "wrong"});
    const widget = said && code.addLineWidget(handle, said, {noHScroll: true});
    for (const where of ["wrap", "gutter"]) code.addLineClass(handle, where, "bad");
    this.bad = () => {
      wrong?.clear();
      widget?.clear();
      for (const where of ["wrap", "gutter"]) code.removeLineClass(handle, where, "bad");
    };
  }

  // Lights a line, or none where it is 0.
  light(line) {
    if (this.lit) this.code.removeLineClass(this.lit, "wrap", "lit");
    this.lit = line && line <= this.code.lineCount() ? this.code.addLineClass(line - 1, "wrap", "lit") : null;
  }

  go(line) {
    this.code.setCursor(line - 1, 0);
    this.code.scrollIntoView(null, this.root.clientHeight / 3);
    this.focus();
  }

  // Puts words in the place of some columns of a line; changes of one `origin` that follow each other are undone together.
  write(row, [from, to], words, origin = "+input") { this.code.replaceRange(words, {line: row, ch: from}, {line: row, ch: to}, origin); }

  // The colours that the lines in sight give, each next to its number.
  chips() {
    const {code} = this, {from, to} = code.getViewport(), last = Math.min(to, code.lineCount());
    code.operation(() => {
      for (let line = from; line < last; line++) {
        const rgb = colourOf(code.getLine(line)), own = rgb && chip(css(rgb)), known = code.lineInfo(line).gutterMarkers?.[COLOURS];
        if (known?.style.background !== own?.style.background) code.setGutterMarker(line, COLOURS, own);
      }
    });
  }
}
