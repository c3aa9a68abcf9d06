// The texts that are open, each in a tab of the editor with its own undo history. What is written is kept as a draft until it is saved.
import * as drafts from "./drafts.js";
import {at, made} from "./show.js";

// At most so many tabs are in sight; the texts that were shown longest ago are in a list next to them.
const KEPT_AFTER = 400, IN_SIGHT = 8;

// How the lines of a text end: an editor knows line feeds alone.
class Endings {
  constructor(text) {
    this.lines = text.split(/\r\n|\r|\n/);
    this.ends = text.match(/\r\n|\r|\n/g) ?? [];
    this.usual = this.ends.filter(end => end === "\r\n").length * 2 > this.ends.length ? "\r\n" : "\n";
  }

  // What was written, each line with the end that it had; a new one with that which most have.
  joined(text) {
    const lines = text.split("\n"), {ends, usual} = this, alike = (one, other) => one < this.lines.length && other >= 0 && this.lines[one] === lines[other];
    let first = 0, last = 0;
    while (first < lines.length && alike(first, first)) first += 1;
    while (last < lines.length - first && last < this.lines.length - first && alike(this.lines.length - 1 - last, lines.length - 1 - last)) last += 1;
    const endOf = number => {
      if (number < first && number < ends.length) return ends[number];
      const own = ends.length - (lines.length - 1 - number);
      return number >= lines.length - 1 - last && own >= 0 ? ends[own] ?? usual : usual;
    };
    return lines.map((line, number) => line + (number < lines.length - 1 ? endOf(number) : "")).join("");
  }
}

export class Texts {
  // `onChange` is called when the text that is shown is another one, by keys or by choosing a tab.
  constructor(editor, onChange, tell) {
    // `found` are the drafts that were found and are not open yet.
    Object.assign(this, {editor, tell, open: [], now: null, found: []});
    editor.onInput = () => {
      clearTimeout(this.timer);
      this.timer = setTimeout(() => this.keep(), KEPT_AFTER);
      this.label();
      onChange(false);
    };
    this.onChange = onChange;
    addEventListener("pagehide", () => this.keep());
    document.addEventListener("visibilitychange", () => { if (document.hidden) this.keep(); });
    at("texts").addEventListener("keydown", event => this.key(event));
  }

  // What is written, with the ends of lines that the file has.
  textOf({endings, doc}) { return endings.joined(doc.getValue()); }

  get text() { return this.textOf(this.now); }

  // Whether a text is not the saved one; that is looked at once for each change.
  isChanged(each = this.now) {
    const generation = each.doc.changeGeneration(), {looked} = each;
    if (looked?.generation !== generation || looked.saved !== each.saved)
      each.looked = {generation, saved: each.saved, isChanged: this.textOf(each) !== each.saved};
    return each.looked.isChanged;
  }

  async begin() { this.found = await drafts.begin(); }

  // Opens a text in a tab of its own, or the tab that has it; `more` is what the page knows of it. A draft of that text is given back.
  add(name, text, more = {}) {
    const known = this.open.find(each => each.name === name && each.base === text);
    if (known) return this.choose(Object.assign(known, more));
    this.choose(this.opened(name, text, more));
  }

  // Opens a text in a tab that is not shown.
  addAside(name, text) {
    this.opened(name, text, {});
    this.label();
  }

  opened(name, text, more) {
    const place = this.found.findIndex(each => each.name === name && each.base === text), [draft] = place < 0 ? [] : this.found.splice(place, 1);
    const own = {name: this.free(name), base: text, saved: text, endings: new Endings(text), ...more};
    own.doc = this.editor.make(draft?.text ?? own.endings.lines.join("\n"));
    own.isDraft = this.isChanged(own);
    // (the draft is kept under the name that the text has now)
    if (draft && own.name !== name) drafts.forget(name);
    this.open.push(own);
    return own;
  }

  // Opens the drafts of texts that are not open; one whose name is taken by another text gets a name of its own.
  restore() {
    for (const draft of this.found.filter(({base, text}) => text !== new Endings(base).lines.join("\n"))) {
      if (this.open.some(each => each.name === draft.name)) {
        drafts.forget(draft.name);
        draft.name = this.free(`${draft.name} draft`);
      }
      this.add(draft.name, draft.base);
    }
    this.keep();
  }

  // A name that no other text has.
  free(name) {
    const isTaken = each => this.open.some(own => own.name === each);
    let free = name;
    for (let number = 2; isTaken(free); number++) free = `${name} ${number}`;
    return free;
  }

  choose(own) {
    this.now = own;
    own.shownAs = this.count = (this.count ?? 0) + 1;
    this.editor.choose(own.doc);
    this.label();
    this.onChange(true);
  }

  close(own) {
    const place = this.open.indexOf(own);
    if (this.open.length === 1 || this.isChanged(own) && !confirm(`${own.name} was changed and is not saved. Close it?`)) return;
    drafts.forget(own.name);
    this.open.splice(place, 1);
    if (own === this.now) this.choose(this.open[Math.max(0, place - 1)]); else this.label();
  }

  // The text was saved: it is what the file has now.
  isSaved(own, text) {
    own.saved = own.base = text;
    own.endings = new Endings(text);
    own.isDraft = false;
    this.keep();
    this.label();
  }

  // Takes what was there before the draft.
  asItWas(own = this.now) {
    own.isDraft = false;
    this.editor.replace(own.doc, own.endings.lines.join("\n"));
  }

  keep() {
    for (const own of this.open) if (this.isChanged(own)) this.draft(own); else drafts.forget(own.name);
  }

  draft({name, base, doc}) {
    const isKept = drafts.keep(name, base, doc.getValue());
    if (!isKept && !this.isWarned) this.tell(new Error("This browser keeps no drafts here: save before you close the page"));
    this.isWarned = !isKept;
  }

  label() {
    const shown = JSON.stringify(this.open.map(own => [own.name, this.isChanged(own), own === this.now]));
    at("draft").hidden = !this.now.isDraft;
    if (shown === this.labelled) return;
    this.labelled = shown;
    const inSight = new Set([...this.open].sort((one, other) => (other.shownAs ?? 0) - (one.shownAs ?? 0)).slice(0, IN_SIGHT));
    const others = this.open.filter(own => !inSight.has(own)), more = made("select", "", "", new Option(`${others.length} more`, ""));
    more.setAttribute("aria-label", "the other texts that are open");
    more.append(...others.map(own => new Option((this.isChanged(own) ? "* " : "") + own.name)));
    more.addEventListener("change", () => this.choose(others[more.selectedIndex - 1]));
    at("texts").replaceChildren(...this.open.filter(own => inSight.has(own)).map(own => {
      const isNow = own === this.now, tab = made("button", "text-tab", (this.isChanged(own) ? "* " : "") + own.name);
      tab.setAttribute("role", "tab");
      tab.setAttribute("aria-selected", String(isNow));
      tab.tabIndex = isNow ? 0 : -1;
      tab.addEventListener("click", () => this.choose(own));
      const close = made("button", "close", "\u00d7");
      close.setAttribute("aria-label", `close ${own.name}`);
      close.addEventListener("click", () => this.close(own));
      return made("span", "text-place" + (isNow ? " now" : ""), "", tab, ...this.open.length > 1 ? [close] : []);
    }), ...others.length ? [more] : []);
  }

  key(event) {
    const way = {ArrowLeft: -1, ArrowRight: 1}[event.key];
    if (!way || this.open.length === 1) return;
    this.choose(this.open[(this.open.indexOf(this.now) + way + this.open.length) % this.open.length]);
    at("texts").querySelector("[aria-selected=true]").focus();
    event.preventDefault();
    event.stopPropagation();
  }
}
