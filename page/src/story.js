// The story that the page shows when it is opened for the first time: six steps, each a state of this page with one thing lit.
import {at, made} from "./show.js";

// Of each step: a scene of the page or the number of an exercise whose text it shows, where that is opened, the part that is lit, and
// the words. A word in braces is put in when the scene is known.
const STEPS = [
  {scene: "letters", place: {share: 0.55, view: "best colours", pixel: [60, 180], isPlayed: "pass"}, lit: "#stages",
    title: "A processor in every pixel",
    words: "This page simulates Pixel-Planes, a graphics machine that was built at the University of North Carolina, and described in 1985. "
      + "Every pixel has a processor of one bit, and all of them take the same step in each clock. Here they draw the words PIXEL PLANES."},
  {scene: "triangle", place: {clock: 321, view: "enable", pixel: [7, 8]}, lit: "#stages", title: "One edge",
    words: "An edge asks every pixel at once on which side of a line it lies. Those on the wrong side are switched off. Of the 256 pixels 207 "
      + "are still enabled: the white ones."},
  {scene: "triangle", place: {clock: 419, view: "enable", pixel: [7, 8]}, lit: "#stages", title: "Three edges make a triangle",
    words: "Two more edges follow, and 112 pixels are left: a triangle. Each edge takes 49 clocks on this array, however "
      + "long it is and however many pixels it switches off."},
  {exercise: 1, place: {clock: 210, view: "leaf", pixel: [2, 1]}, lit: "#tree-part", title: "One tree gives every pixel its depth",
    words: "A depth is A·x + B·y + C. A tree of one-bit adders takes A, B and C from above, bit by bit. Each clock brings every pixel one "
      + "bit of its own sum."},
  {scene: "first", place: {clock: 2283, view: "par", beside: "alive", pixel: [24, 16]}, lit: "#stages", title: "A solid cut out by counting",
    words: "A shaft is cut out of a pyramid. Each white pixel of the second image holds a point of the pyramid. It turns one bit over, shown in "
      + "the first image, for each face of the shaft in front of that point. Where the bit is 1 the point is inside the shaft, and is dropped "
      + "(Goldfeather, Hultquist and Fuchs, 1986)."},
  {scene: "letters", place: {clock: Infinity, view: "best colours", pixel: [60, 180]}, lit: ".transport", title: "The letters",
    words: "They take {operations} operations, which are {clocks} clocks. Move the slider to see the machine at any of them, or write a scene of your own "
      + "under Picture."}];

export class Story {
  // `show` is called with a step, and `end` when the story is closed.
  constructor(show, end) {
    Object.assign(this, {show, end, now: null});
    at("story-back").addEventListener("click", () => this.go(-1));
    at("story-next").addEventListener("click", () => this.go(1));
    at("story-close").addEventListener("click", () => this.close());
    // (before the keys of the machine, which move by clocks)
    document.addEventListener("keydown", event => this.key(event), true);
  }

  get isOpen() { return this.now !== null; }

  // Begins at a step, counted from 1; whether there is such a one.
  begin(number) {
    if (!Number.isInteger(number) || number < 1 || number > STEPS.length) return false;
    this.now = number - 1;
    const {title, words, lit} = STEPS[this.now];
    at("story").hidden = false;
    at("story-place").textContent = `${number} of ${STEPS.length}`;
    at("story-title").textContent = title;
    at("story-words").replaceChildren(...words.split(/(\{\w+\})/).map(part => /^\{/.test(part) ? made("b", part.slice(1, -1), "…") : part));
    at("story-back").disabled = number === 1;
    at("story-next").textContent = number === STEPS.length ? "To the page" : "Next";
    this.light(lit);
    history.replaceState(null, "", `#story-${number}`);
    this.show(STEPS[this.now]);
    document.body.dataset.story = number;
    return true;
  }

  // Puts in what is known of the scene that is drawn.
  tell(counts) {
    for (const [name, count] of Object.entries(counts))
      for (const each of at("story-words").querySelectorAll("." + name)) each.textContent = count.toLocaleString("en");
  }

  light(selector) {
    document.body.classList.toggle("telling", Boolean(selector));
    for (const each of document.querySelectorAll(".spot")) each.classList.remove("spot");
    if (selector) document.querySelector(selector).classList.add("spot");
  }

  go(way) {
    const next = this.now + 1 + way;
    if (next > STEPS.length) this.close(); else this.begin(next);
  }

  close() {
    this.now = null;
    at("story").hidden = true;
    this.light(null);
    history.replaceState(null, "", location.href.split("#")[0]);
    delete document.body.dataset.story;
    this.end();
  }

  key(event) {
    const isOwn = event.target.closest(".CodeMirror, input, select, canvas, dialog, [role=tab]") || event.ctrlKey || event.altKey || event.metaKey;
    const call = {ArrowLeft: () => this.go(-1), ArrowRight: () => this.go(1), Escape: () => this.close()}[event.key];
    if (!this.isOpen || isOwn || !call) return;
    event.preventDefault();
    event.stopPropagation();
    call();
  }
}
