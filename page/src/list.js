// The list of scenes that the page offers, with a search and small pictures: nothing opens but by a click or Enter.
import {ask} from "./ask.js";
import {at, made, put} from "./show.js";

const SMALL = 32, FOLDED = /^the suite/;

// What a new scene begins as.
export const BOX = `pxscene 1
picture 48 32
depth 9
solid box 200 120 60
side 1 0 -12        # x - 12 >= 0: right of x 12
side -1 0 35
side 0 1 -8
side 0 -1 23
front 0 0 100       # from depth 100
back 0 0 400        # to depth 399
show box
end
`;

export class List {
  // `open` is called with a name and a text; `begin` makes a new scene. What the chosen one teaches is below the list.
  constructor(scenes, open, begin, tell) {
    Object.assign(this, {entries: [], tell});
    const close = call => () => { at("gallery").open = false; call(); };
    this.entry(at("scenes"), "new", "a new scene", close(begin));
    for (const [group, name, text, teaches] of scenes)
      this.entry(this.groupOf(group), group, name.replaceAll("_", " "), close(() => open(name, text)), text, teaches);
    at("search").addEventListener("input", () => this.search(at("search").value.trim().toLowerCase()));
    at("gallery").addEventListener("keydown", event => this.key(event));
    at("gallery").addEventListener("toggle", () => {
      if (!at("gallery").open) return;
      at("search").focus();
      this.draw().catch(tell);
    });
    at("scenes").addEventListener("toggle", () => this.draw().catch(tell), true);
  }

  // The part of the list that has a group; those of the suite are folded.
  groupOf(group) {
    const known = [...at("scenes").children].find(each => each.dataset.group === group);
    if (known) return known;
    const isFolded = FOLDED.test(group), own = made(isFolded ? "details" : "div", "group-of-scenes", "", made(isFolded ? "summary" : "h2", "", group));
    own.dataset.group = group;
    at("scenes").append(own);
    return own;
  }

  entry(root, group, words, call, text = null, teaches = []) {
    const canvas = made("canvas"), button = made("button", "", "", ...text === null ? [] : [canvas], words);
    button.addEventListener("click", call);
    for (const way of ["focus", "pointerenter"])
      button.addEventListener(way, () => at("taught").replaceChildren(...teaches.map(line => made("li", "", line))));
    this.entries.push({button, canvas, text, said: [group, words, ...teaches].join(" ").toLowerCase(), isDrawn: text === null});
    root.append(button);
  }

  // Leaves the scenes whose names, groups or lessons have all words that are sought.
  search(sought) {
    const words = sought.split(/\s+/);
    for (const {button, said} of this.entries) button.hidden = !words.every(word => said.includes(word));
    for (const group of at("scenes").querySelectorAll(".group-of-scenes")) {
      group.hidden = !group.querySelector("button:not([hidden])");
      if (group.matches("details")) group.open = Boolean(sought) && !group.hidden;
    }
    at("none-found").hidden = this.entries.some(({button}) => !button.hidden);
  }

  // Draws the small pictures that are in the list and not drawn yet, one after the other.
  async draw() {
    if (this.isDrawing) return;
    this.isDrawing = true;
    try {
      for (let next = this.undrawn(); next && at("gallery").open; next = this.undrawn()) {
        const {pixels, width, height} = await ask("small", {most: SMALL}, next.text);
        next.isDrawn = true;
        if (!pixels) continue;
        Object.assign(next.canvas, {width, height});
        put(next.canvas, pixels);
      }
    } finally {
      this.isDrawing = false;
    }
  }

  undrawn() { return this.entries.find(({isDrawn, button}) => !isDrawn && !button.hidden && !button.closest("details.group-of-scenes:not([open])")); }

  key(event) {
    const entries = [at("search"), ...at("scenes").querySelectorAll("button, summary")].filter(each => each.checkVisibility?.() ?? true);
    const place = entries.indexOf(document.activeElement), isWritten = event.target === at("search");
    const way = {ArrowDown: 1, ArrowUp: -1, ...isWritten ? {} : {Home: -place, End: entries.length - 1 - place}}[event.key];
    if (event.key === "Escape") at("gallery").open = false;
    if (event.key === "Escape") at("gallery").querySelector("summary").focus();
    if (way === undefined) return;
    entries[Math.max(0, Math.min(entries.length - 1, place + way))].focus();
    event.preventDefault();
    event.stopPropagation();
  }
}
