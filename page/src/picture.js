// The picture next to the text: drawn again at each change, with a pixel and its ray.
import {Trouble, ask, latest} from "./ask.js";
import {css, greys, hue} from "./palette.js";
import {choice} from "./rove.js";
import {Screen, at, chip, made, painted} from "./show.js";

const MOST_NAMED = 12;
const NO_PIXEL = "Point at a pixel, or click one to keep it.";
export const IMAGES = ["colours", "depths", "faces"];

const counted = (number, word) => `${number.toLocaleString("en")} ${word}${number === 1 ? "" : "s"}`;

export class Picture {
  // `onDrawn` is called with the text, what it is, and its maps (null for a listing), once it is accepted; `onRefused` with the text.
  constructor(editor, tell, onDrawn, onRefused) {
    Object.assign(this, {editor, tell, onDrawn, onRefused, text: null, drawnText: null, head: null, maps: null, image: "colours", rayOf: null});
    this.onPoint = this.onGo = () => {};
    this.screen = new Screen(at("picture"), pixel => { this.onPoint(pixel); this.point(pixel); });
    this.ray = latest((x, y) => this.rayShown(x, y).catch(tell));
    this.mark = choice(at("image"), "image", IMAGES, image => this.choose(image));
    this.choose("colours");
  }

  // Whether what is shown is of the text in the editor.
  get isFresh() { return this.drawnText !== null && this.drawnText === this.text; }

  // The text is another one, after keys or in another tab: it is drawn, unless that is under way.
  changed(text, isOther) {
    // (what is shown belongs to another tab until the text of this one is accepted)
    this.isOther ||= isOther;
    if (text === this.text && document.body.dataset.drawn === "no") return;
    this.text = text;
    document.body.dataset.drawn = "no";
    this.draw(text).catch(this.tell);
  }

  async draw(text) {
    const began = performance.now(), head = await ask("draw", {}, text);
    if (text !== this.text) return;
    if (head.trouble) throw new Trouble(head.trouble);
    if (head.refused) this.refuse(text, head.refused);
    else this.accept(text, head, performance.now() - began);
  }

  refuse(text, refusal) {
    document.body.classList.toggle("nothing", this.isOther);
    this.editor.mark(refusal.line, refusal.span, refusal.line ? this.said(refusal) : null);
    document.body.classList.add("refused");
    for (const words of document.querySelectorAll(".refusal")) words.replaceChildren(...this.refusalWords(refusal, words.closest("section")));
    const go = made("button", "note", refusal.note);
    go.disabled = !refusal.line;
    go.addEventListener("click", () => this.editor.go(refusal.line));
    at("verdict").className = "bad";
    at("verdict").replaceChildren(go, made("div", "", refusal.says), made("div", "quiet", "", made("code", "", "pxplanes explain"), " says more."));
    document.body.dataset.drawn = "refused";
    this.onRefused(text);
  }

  // What is shown below the bad line: what is wrong, and the change as an action if exactly one mends it.
  said({says, fix}) {
    if (!says && !fix) return null;
    const said = made("div", "cure", says);
    if (!fix) return said;
    const button = made("button", "", `Write ${fix.words}`);
    button.addEventListener("click", () => this.editor.write(fix.row, fix.columns, fix.words));
    said.prepend(button, " ");
    return said;
  }

  // What is shown over the parts that are not of the text.
  refusalWords({note, line}, part) {
    const go = made("button", "", line ? `Go to line ${line}` : "Go to the text");
    go.addEventListener("click", () => this.onGo(line));
    const shown = this.isOther || part.classList.contains("empty") ? "There is nothing to show of it." : "What is pale is of the text before.";
    return [made("b", "", `This text is refused: ${note}.`), ` ${shown} `, go];
  }

  accept(text, head, took) {
    const {width, height} = head, isScene = head.kind === "scene";
    this.editor.mark(0, null);
    this.head = head;
    this.drawnText = text;
    this.isOther = false;
    at("write").classList.remove("old", "empty");
    document.body.classList.remove("refused", "nothing");
    document.body.classList.toggle("listing", !isScene);
    at("verdict").className = "good";
    at("verdict").textContent = isScene
      ? `accepted: ${width} by ${height} pixels, ${counted(head.facesOf.length, "face")}`
      : `accepted: a listing, a grid of ${width} by ${height}, ${counted(head.clocks, "clock")}`;
    at("facts").textContent = isScene ? `${counted(head.operations, "operation")}, ${counted(head.clocks, "clock")}`
      : "a listing has no picture; the machine shows what it leaves";
    at("facts").title = `asked, drawn and here in ${Math.max(1, Math.round(took))} ms`;
    const {depths, faces, rgb} = head;
    this.maps = isScene ? {depths, faces, rgb} : null;
    this.paint();
    document.body.dataset.drawn = "yes";
    document.body.dataset.pictureTook = Math.round(took);
    this.onDrawn(text, head, this.maps);
  }

  choose(image) {
    this.image = image;
    this.mark(image);
    if (this.maps) this.paint();
  }

  // What the canvas shows, in words.
  inWords() {
    const {head, image, maps} = this, shown = maps.faces.reduce((count, face) => count + (face ? 1 : 0), 0);
    const seen = new Set(maps.faces), solids = [...new Set(head.facesOf.filter(([number]) => seen.has(number)).map(([, name]) => name))];
    return `the picture as ${image}, ${head.width} by ${head.height} pixels, ${shown} of them show a solid: ${
      solids.slice(0, MOST_NAMED).join(", ") || "none"}${solids.length > MOST_NAMED ? " and others" : ""}; arrow keys choose a pixel`;
  }

  nextImage(way) { this.choose(IMAGES[(IMAGES.indexOf(this.image) + way + IMAGES.length) % IMAGES.length]); }

  paint() {
    if (!this.maps) return this.screen.draw(1, 1, painted(() => [0, 0, 0]));
    const {depths, faces, rgb} = this.maps, grey = greys(depths, this.head.far);
    const paints = {
      colours: place => [rgb[3 * place], rgb[3 * place + 1], rgb[3 * place + 2]],
      depths: place => grey(depths[place]), faces: place => hue(faces[place])};
    const {width, height} = this.head;
    this.screen.draw(width, height, painted(paints[this.image]));
    at("picture").setAttribute("aria-label", this.inWords());
    this.point(this.screen.kept);
  }

  // What is seen at a pixel; the ray follows.
  point(pixel) {
    if (!this.maps || !pixel) {
      at("readout").textContent = this.maps ? NO_PIXEL : "";
      this.rayOf = null;
      return at("ray").replaceChildren();
    }
    const [x, y] = pixel, place = y * this.head.width + x, number = this.maps.faces[place];
    const face = this.head.facesOf.find(each => each[0] === number);
    const said = (name, value, ...words) => made("span", "", "", made("span", "label", name), made("b", "", String(value)), ...words);
    const words = face ? [chip(css(face[3])), `${face[1]}, ${face[2]}, line ${face[4]}`] : [", the background"];
    at("readout").replaceChildren(
      said("pixel", `${x}, ${y}`), said("depth", this.maps.depths[place]), said("face", number, ...words));
    this.rayOf = `${x} ${y}`;
    if (this.isFresh) this.ray(x, y); else at("ray").replaceChildren();
  }

  async rayShown(x, y) {
    const text = this.drawnText, head = await ask("ray", {x, y}, text);
    if (!head.solids || this.rayOf !== `${x} ${y}` || text !== this.text) return;
    const bar = (run, colour) => barOf(run, head.far, colour), cells = run => `${run[0]} to ${run[1] - 1}`;
    const met = head.solids.filter(each => each.run).map(({name, colour, run, ends}) =>
      rowOf(name, [bar(run, colour)], `${cells(run)}: from ${ends[0]}, to ${ends[1]}`));
    const words = head.shown?.map(cells).join(", ") || "nothing: the background";
    const shown = head.shown ? rowOf("shown", head.shown.map(run => bar(run)), words, "shown") : made("p", "quiet", "The scene is too large for the rest.");
    const scale = rowOf("", [made("span", "", "the eye, 0"), made("span", "", String(head.far))], "", "scale");
    const missed = head.solids.filter(each => !each.run).map(({name}) => name);
    at("ray").replaceChildren(scale, ...met, shown, ...missed.length ? [made("p", "quiet missed", `Not met here: ${missed.join(", ")}.`)] : []);
  }
}

function rowOf(name, runs, words, kind = "") {
  const track = made("span", "track", "", ...runs);
  return made("div", "ray-row " + kind, "", made("b", "", name), track, made("span", "quiet", words));
}

// A run of cells as a bar, between the eye and the far limit.
function barOf(run, far, colour) {
  const own = made("i", "run");
  own.style.left = 100 * run[0] / far + "%";
  own.style.width = `max(3px, ${100 * (run[1] - run[0]) / far}%)`;
  if (colour) own.style.background = css(colour);
  return own;
}
