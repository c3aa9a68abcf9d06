// The machine at any clock of a scene: by a slider, by moves and by play; as images of its planes, and what one pixel holds.
import {State} from "../library/pxplanes.mjs";
import {Trouble, ask, latest} from "./ask.js";
import {Course, KINDS} from "./course.js";
import {PixelLife} from "./life.js";
import {coloursOf} from "./palette.js";
import {Edges, saidOf} from "./edges.js";
import {NAMES, formOf} from "./passes.js";
import {Inside} from "./inside.js";
import {Player} from "./play.js";
import {Predict} from "./predict.js";
import {Lines, Screen, at, made, passChip, set, write} from "./show.js";
import {fieldsOf, isAnyOf, onesOf, planesIn, putPlanes, viewsOf} from "./state.js";
import {Strip} from "./strip.js";
import {isShown, treeOf} from "./tree.js";
import {Triangle} from "./triangle.js";
import {Wall} from "./wall.js";

// The marks of the time line move by so many pixels at once where it plays too fast to be read.
const COARSE = 8;
const GAP = 4, PICTURE = "best colours", FIRST_VIEW = "enable";

export class Machine {
  constructor(tell) {
    Object.assign(this, {tell, text: null, head: null, course: null, state: null, before: null, pixel: null, fields: []});
    // What is shown large, and what next to it: names of views; none next to it is "".
    Object.assign(this, {view: PICTURE, beside: "", wanted: 0, frames: 0});
    this.player = new Player(this);
    this.strip = new Strip(clock => this.go(clock), tell);
    this.wall = new Wall(at("planes"), (name, isBeside) => this.choose(name, isBeside));
    this.life = new PixelLife(clock => this.go(clock), tell);
    this.strip.onView = () => this.life.draw();
    this.screens = ["array", "array-beside"].map(name => new Screen(at(name), pixel => this.point(pixel), pixel => this.keep(pixel)));
    // Whether the machine's text is the one in the editor, as the page knows it.
    this.isCurrent = () => true;
    // What the page does when another pixel is pointed at, and when another state is shown.
    this.onPoint = this.onShow = () => {};
    // What it does with the text of a scene that was made here.
    this.onScene = () => {};
    this.lines = new Lines(at("quick"));
    this.parts = new Inside(this);
    this.edges = new Edges(this.screens[0]);
    this.predict = new Predict(this, this.screens[0]);
    this.triangle = new Triangle(this, this.screens[0], text => this.onScene(text));
    at("edges").addEventListener("click", () => this.turnEdges());
    this.fetchState = latest(() => this.take().catch(tell));
    at("view").addEventListener("change", () => this.choose(at("view").value, false));
    at("beside").addEventListener("change", () => this.choose(at("beside").value, true));
    at("clock").addEventListener("input", () => this.go(Number(at("clock").value)));
    at("clock").addEventListener("keydown", () => { at("clock").value = this.wanted; });
    at("until").addEventListener("change", () => this.until());
    at("until").addEventListener("keydown", event => {
      if (event.key === "Escape") at("until").value = this.wanted;
      if (event.key === "Escape" || event.key === "Enter") at("until").blur();
    });
    at("stop").addEventListener("keydown", event => {
      if (event.key === "Enter") this.stopAt(event.shiftKey ? -1 : 1).catch(tell);
      if (event.key === "Escape" || event.key === "Enter") at("stop").blur();
    });
    at("stops").append(...["enable", "face", ...NAMES].map(name => new Option(name)));
    const calls = {move: name => this.move(name.replace("pace", at("pace").value)), stop: way => this.stopAt(Number(way)).catch(tell), zoom: way => this.zoom(Number(way))};
    for (const [word, call] of Object.entries(calls))
      for (const button of document.querySelectorAll(`[data-${word}]`)) button.addEventListener("click", () => call(button.dataset[word]));
    for (const [kind, words] of Object.entries(KINDS))
      at("legend").append(made("span", "", "", passChip(kind), words + " "));
    new ResizeObserver(() => { this.strip.drawPasses(); this.life.draw(); this.inside(); }).observe(at("machine"));
    new ResizeObserver(() => { if (this.state) this.arrange(); }).observe(at("stages"));
  }

  // Takes another text, at a clock or after a share of its passes, with views and a pixel if they are given; if `isPlayed`
  // says by what, it plays from there.
  async load(text, head, {clock = 0, share, view, beside, pixel, isPlayed}) {
    if (this.player.isQuick) this.stop();
    this.text = text;
    this.course = this.before = null;
    const course = await ask("program", {}, text);
    if (this.text !== text) return;
    if (course.trouble || course.refused) throw new Trouble(course.trouble ?? course.refused.note);
    this.head = head;
    this.course = new Course(course);
    this.fields = fieldsOf(head.layout);
    this.of = JSON.stringify([head.layout, head.layout ? head.facesOf : text]);
    at("clock").max = this.course.clocks;
    at("of").textContent = `of ${course.clocks.toLocaleString("en")}`;
    if (view) Object.assign(this, {view, beside: beside ?? ""});
    if (pixel) this.screens[0].keep(this.pixel = pixel);
    this.strip.load(text, this.course, head.layout && head);
    this.life.load(text, this.course);
    this.goTo(share ? this.course.startOfPass(Math.round(share * course.passes.length)) : clock);
    if (isPlayed) this.player.begin(isPlayed);
  }

  // Goes to a clock that the user chose: what plays stops.
  go(clock) { this.player.stop(); this.goTo(clock); }

  goTo(clock) {
    if (!this.course) return;
    this.wanted = Math.max(0, Math.min(this.course.clocks, clock));
    this.fetchState();
  }

  // Whether what is wanted is shown, and may be explained.
  get isShown() { return this.course !== null && this.state !== null && this.stateOf === this.text && this.state.clock === this.wanted; }

  // Goes to the clock that is written; what is no number of a clock is said, and changes nothing.
  until() {
    const word = at("until").value.trim(), number = Number(word);
    if (this.course && /^\d+$/.test(word) && number <= this.course.clocks) return this.go(number);
    at("until").value = this.wanted;
    if (this.course) this.tell(new Trouble(`${word || "nothing"} is no clock from 0 to ${this.course.clocks}`));
  }

  // Goes on to where what is written in the field comes about, or back to where it last did.
  async stopAt(way) {
    const {course, text, pixel, wanted: now} = this, words = at("stop").value.trim().split(/\s+/), [what, bit] = words;
    if (!course) return;
    const isOperation = words.length === 1 && NAMES.includes(what);
    if (!isOperation && !(words.length === 1 && ["enable", "face"].includes(what)) && !(words.length === 2 && what === "bit" && /^\d+$/.test(bit)))
      throw new Trouble("a stop is enable, face, bit and its number, or an operation as keep-sign");
    if (!isOperation && !pixel) throw new Trouble("point at a pixel, or choose one by the arrow keys, and then stop");
    const {clock, trouble} = isOperation ? {clock: course.named(what, now, way)}
      : await ask("stop", {what, bit: Number(bit), x: pixel[0], y: pixel[1], clock: now, back: way < 0}, text);
    if (text !== this.text) return;
    if (trouble) throw new Trouble(trouble);
    if (clock === null) throw new Trouble(`${words.join(" ")}: ${way > 0 ? "it does not come again" : "it did not come before"}`);
    this.go(clock);
  }

  move(name) { this.player.stop(); this.goOn(name); }

  goOn(name) { if (this.course) this.goTo(this.course.moved(name, this.wanted)); }

  stop() { this.player.stop(); }

  async take() {
    const text = this.text, clock = this.wanted, began = performance.now();
    if (!this.course) return;
    const before = this.stateOf === text ? this.state : null, {words, changed, ...fields} = await this.answerAt(clock, before?.clock);
    if (text !== this.text || !this.course) return;
    const state = new State(fields, changed ? this.moved(changed, words) : words);
    // (`changed` is what the move to this state changed; null if all is new)
    Object.assign(this, {before, state, changed, stateOf: text});
    at("machine").classList.remove("empty");
    at("machine").classList.toggle("old", !this.isCurrent());
    this.show();
    document.body.dataset.shown = clock;
    document.body.dataset.took = Math.round(performance.now() - began);
    document.body.dataset.frames = this.frames += 1;
  }

  show() {
    const {state} = this;
    if (this.viewsOf !== this.of) {
      this.viewsOf = this.of;
      this.fillViews();
    }
    const unknown = [this.view, this.beside].filter(name => name && !this.viewNamed(name));
    if (unknown.length) this.tell(new Trouble(`There is nothing named ${unknown.join(" or ")} to show of this text.`));
    this.paint(this.changed);
    if (isAnyOf(this.changed, this.planesOfFaces())) this.onShow();
    document.body.dataset.read = this.wall.show(state, this.changed);
    this.showEdges();
    this.predict.offer(state);
    this.tellPlace();
    this.inside();
  }

  turnEdges() {
    this.edges.turn();
    at("edges").setAttribute("aria-pressed", String(this.edges.isOn));
    if (this.isShown) this.showEdges();
  }

  // The numbers along the edges, while the tree makes their sums; a clear takes a clock, and each level of the tree one more.
  showEdges() {
    const {state, course, edges: {isOn}} = this, operation = course.operations[state.operation], found = isOn && operation ? formOf(operation[1]) : null;
    const {width, height} = state, now = state.operationClock - 1 - state.levels;
    this.edges.show(found && {...found, width, height, now});
    const isSaid = found && this.pixel;
    write(at("sum"), isSaid ? saidOf({...found, now}, this.pixel) : "");
    set(at("sum"), "hidden", !isSaid);
  }

  // The clock on the time line and the slider, and what comes next, in words: as an image while they cannot be read.
  tellPlace() {
    const {state, course, player: {isQuick}, screens: [{said: ones}]} = this;
    at("machine").classList.toggle("quick", isQuick);
    if (!state || !course || this.stateOf !== this.text) return;
    const isDone = state.clock === state.clocks, count = course.operations.length;
    const operation = isDone ? count - 1 : state.operation;
    const [pass, line, words, first] = course.operations[operation] ?? [0, "", "", 0], {said, kind} = course.pass(pass);
    const place = isDone ? `${count.toLocaleString("en")} operations in ${state.clocks.toLocaleString("en")} clocks`
      : `operation ${operation} (of 0 to ${count - 1}), next its clock ${state.operationClock} (of 0 to ${course.startOf(operation + 1) - first - 1})`;
    const own = isDone ? {line: "", words: this.head.layout ? "all is done: key B has the picture" : "all is done"} : {line, words};
    const micro = state.micro ?? "nothing", does = state.micro ? treeWords(state.micro) : "";
    this.markClock(state.clock, isQuick);
    if (isQuick) return this.lines.write([`clock ${state.clock}   operation ${operation} (of 0 to ${count - 1})   ${ones}`, `pass ${pass + 1}: ${said}`, own.words]);
    at("until").value = state.clock;
    write(at("count"), ones);
    if (this.told?.course !== course || this.told.pass !== pass)
      at("pass").replaceChildren(passChip(kind), made("span", "label", `pass ${pass + 1} of ${course.passes.length}`), ...worded(said));
    if (this.told?.words !== own.words) at("operation").replaceChildren(...worded(own.words));
    this.told = {course, pass, words: own.words};
    const parts = {"#line code": own.line, "#line .quiet": place, "#micro code": micro, "#micro .quiet": does};
    for (const [selector, said] of Object.entries(parts)) write(document.querySelector(selector), said);
  }

  // The clock on the time line and the slider, where it is quick seldom, as a browser paints all that lies between what moves.
  markClock(clock, isQuick) {
    const [from, to] = this.course.view, marked = clock - (clock - Math.ceil(from)) % (isQuick && Math.ceil(COARSE * (to - from) / innerWidth) || 1);
    if (isQuick && this.strip.clock === marked) return;
    this.strip.at(marked);
    // (the slider stays under a hand that moved on)
    if (this.isShown) at("clock").value = marked;
  }

  fillViews() {
    this.views = viewsOf(this.head.layout, this.state.bits, coloursOf(this.head.facesOf ?? []));
    this.wall.load(this.views, this.used());
    const groupsOf = () => {
      const groups = {};
      for (const {group, label, name} of this.views) (groups[group] ??= Object.assign(made("optgroup"), {label: group})).append(new Option(label, name));
      return Object.values(groups);
    };
    at("view").replaceChildren(...groupsOf());
    at("beside").replaceChildren(new Option("nothing next to it", ""), ...groupsOf());
  }

  // The bits of the memory that a text uses: the fields of a scene, or what the operations of a listing name.
  used() {
    const fields = this.fields.length ? this.fields.map(({at: first, length}) => [first, length]) : this.course.bitsNamed();
    return new Set(fields.flatMap(([first, length]) => Array.from({length}, (_, bit) => first + bit)));
  }

  // The words of the state that is shown with the planes that changed since, in the place of those of the state before it.
  moved(changed, planes) {
    const {state: {words, perPlane}, before} = this;
    const own = before ? putPlanes(before.words, perPlane, this.changed, planesIn(words, perPlane, this.changed)) : words.slice();
    return putPlanes(own, perPlane, changed, planes);
  }

  async answerAt(clock, from) {
    const answer = await ask("state", {clock, from}, this.text);
    if (answer.trouble || answer.refused) throw new Trouble(answer.trouble ?? answer.refused.note);
    return answer;
  }

  // The state at a clock, which is not shown.
  async stateAt(clock) {
    const {words, ...fields} = await this.answerAt(clock);
    return new State(fields, words);
  }

  // What is shown large, after each of some clocks, picture by picture.
  async pictures(clocks, onEach) {
    const {text, head} = this, view = this.viewNamed(this.view), out = [];
    for (const clock of clocks) {
      const state = await this.stateAt(clock);
      if (text !== this.text) throw new Trouble("the text is another one now: there is no film");
      const pixels = new Uint32Array(state.width * state.height);
      view.fill(state, pixels);
      out.push(cut(pixels, state.width, head.layout ? head : state));
      onEach(out.length);
    }
    return out;
  }

  viewNamed(name) { return this.views.find(view => view.name === name); }

  // Shows a view large, or next to the one that is.
  choose(name, isBeside) {
    this[isBeside ? "beside" : "view"] = isBeside && name === this.beside ? "" : name;
    this.paint();
  }

  nextView(way) {
    if (!this.views) return;
    const now = this.views.findIndex(view => view.name === this.view);
    this.choose(this.views[(now + way + this.views.length) % this.views.length].name, false);
  }

  zoom(way) { for (const screen of this.screens) if (!screen.stage.hidden) screen.zoomed(way); }

  // Paints what is shown large, where one of its planes is among those that changed; all of it where `changed` is null.
  paint(changed = null) {
    if (!this.state) return;
    const isSame = changed && !this.triangle.isOn && `${this.view} ${this.beside}` === this.painted;
    if (!isSame) this.arrangeViews();
    [this.view, this.beside].forEach((name, place) => {
      const view = name && this.viewNamed(name);
      if (view) this.paintOne(this.screens[place], view, !isSame || isAnyOf(changed, view.planes));
    });
    this.painted = `${this.view} ${this.beside}`;
    if (!this.player.isQuick) write(at("count"), this.screens[0].said);
  }

  // Makes room for what is shown large.
  arrangeViews() {
    if (this.triangle.isOn) this.triangle.show(false);
    this.view = (this.viewNamed(this.view) ?? this.viewNamed(FIRST_VIEW)).name;
    this.beside = this.viewNamed(this.beside)?.name ?? "";
    at("view").value = this.view;
    at("beside").value = this.beside;
    this.screens[1].stage.hidden = !this.beside;
    const arranged = `${this.beside !== ""} ${this.state.width} ${this.state.height}`;
    if (arranged !== this.arranged) this.arrange();
    this.arranged = arranged;
    this.wall.mark([this.view, this.beside]);
  }

  // Two images are one above the other if that makes them larger.
  arrange() {
    const {clientWidth: wide, clientHeight: high} = at("stages"), {width, height} = this.state;
    const scale = (columns, rows) => Math.min(wide / columns / width, high / rows / height);
    at("stages").classList.toggle("stacked", scale(1, 2) > scale(2, 1));
    at("machine").classList.toggle("square", width <= height && !this.beside && !isShown(this.state));
  }

  paintOne(screen, view, isChanged) {
    const {state, head} = this, {width, height} = state;
    if (isChanged) screen.draw(width, height, pixels => view.fill(state, pixels), head.layout ? [head.width, head.height] : null);
    if (isChanged) screen.said = this.onesSaid(view);
    screen.canvas.setAttribute("aria-label", `the array at clock ${state.clock}, ${view.label}${screen.said && `: ${screen.said}`}; arrow keys choose a pixel`);
  }

  onesSaid({plane}) {
    const {state} = this;
    return plane === undefined ? "" : `${onesOf(state, plane).toLocaleString("en")} of ${(state.width * state.height).toLocaleString("en")} are 1`;
  }

  // The planes of the faces in key B: the first, and the one after the last.
  planesOfFaces() {
    const {at: first = 0, length = 0} = this.fields.find(each => each.name === "best face") ?? {};
    return [first, first + length];
  }

  // The numbers of the faces in key B, row by row; null where there are none.
  faces() {
    const [first, end] = this.planesOfFaces();
    return this.isShown && end ? this.state.numbers(first, end - first) : null;
  }

  faceAt(x, y) {
    const [first, end] = this.planesOfFaces();
    return this.state.number(first, end - first, x, y);
  }

  point(pixel) {
    this.pixel = pixel;
    this.onPoint(pixel);
    if (this.isShown) this.showEdges();
    this.inside();
  }

  // Both images mark the pixel that is kept in one of them.
  keep(pixel) {
    for (const screen of this.screens) if (String(screen.kept) !== String(pixel)) screen.keep(pixel);
    if (String(this.life.pixel) !== String(pixel)) this.life.show(pixel);
  }

  // What is next to the array and below it: the pixel and the tree.
  inside() {
    const {state} = this;
    if (!state || at("machine").hidden) return;
    const pixel = this.pixel && this.pixel[0] < state.width && this.pixel[1] < state.height ? this.pixel : null;
    set(at("tree-part"), "hidden", !isShown(state));
    const width = isShown(state) ? at("tree-part").parentElement.clientWidth - GAP : 0;
    if (width > 0) at("tree").replaceChildren(treeOf(state, pixel, width));
    this.parts.show();
  }

  // The bits of the memory that a waveform shows: the one that is shown large, that which the operation writes last, or alive.
  bitsOfWave() {
    const view = this.viewNamed(this.view), alive = this.fields.find(field => field.name === "alive");
    return view.group === "memory" ? [[`bit ${view.plane}`, view.plane]] : alive ? [["alive", alive.at]] : [];
  }
}

// The part of an image of the array that is the picture.
function cut(pixels, wide, {width, height}) {
  const out = new Uint32Array(width * height);
  for (let y = 0; y < height; y++) out.set(pixels.subarray(y * wide, y * wide + width), y * width);
  return {width, height, pixels: out};
}

// Words in which names are between backticks.
function worded(text) {
  const node = (part, number) => number % 2 ? made("b", "solid-name", part) : document.createTextNode(part);
  return text.split("`").map(node);
}

// What a microinstruction has the tree do.
function treeWords(micro) {
  const [tree, lines] = micro.split(" ");
  if (tree === "feed") return `the tree takes bits c ${lines[2]}, a ${lines[0]}, b ${lines[1]}`;
  return tree === "clear" ? "the tree is cleared" : "the tree holds";
}
