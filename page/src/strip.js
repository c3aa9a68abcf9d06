// The time line: small pictures of key B at their own clocks, the passes in their colours, and what lies under the pointer.
import {ask, latest} from "./ask.js";
import {KINDS} from "./course.js";
import {rove} from "./rove.js";
import {css} from "./palette.js";
import {at, fitted, made, passChip, put} from "./show.js";

const MOST = 40, FEW = 10, WIDE = 30, PAUSE = 150, SMALL = 64, LARGER = 160, GAP = 4, ROWS = 5, CLOSER = .8;
// An operation or a clock is drawn if it has at least so many pixels.
const FEWEST = 3;

export class Strip {
  // `go` is called with a clock.
  constructor(go, tell) {
    Object.assign(this, {go, tell, text: null, course: null, thumbs: [], picture: null, lit: 0, clock: 0, wide: 0});
    // (called when another stretch of clocks is shown)
    this.onView = () => {};
    // (called with the number of the face that the pass under the pointer is about)
    this.onFace = () => {};
    this.under = latest((clock, x) => this.previewed(clock, x).catch(tell));
    const line = at("line-of-passes"), clockAt = event => {
      const {left, width} = line.getBoundingClientRect(), share = Math.max(0, Math.min(1, (event.clientX - left) / width));
      const [from, to] = this.course.view;
      return Math.round(from + share * (to - from));
    };
    line.addEventListener("pointerdown", event => {
      if (!this.course) return;
      line.setPointerCapture(event.pointerId);
      this.go(clockAt(event));
    });
    line.addEventListener("pointermove", event => {
      if (!this.course) return;
      if (event.buttons & 1) this.go(clockAt(event));
      this.over(clockAt(event), event.clientX);
    });
    line.addEventListener("wheel", event => {
      if (!this.course) return;
      event.preventDefault();
      this.zoom(Math.sign(event.deltaY), clockAt(event));
    }, {passive: false});
    for (const element of [line, at("strip")]) element.addEventListener("pointerleave", () => this.left());
    // (arrow keys go from picture to picture, and the machine with them)
    rove(at("strip"), ".thumb", true);
  }

  // Takes another text with its course; `picture` has the size of its picture, and is null for a listing.
  load(text, course, picture) {
    Object.assign(this, {text, course, picture});
    this.left();
    at("strip").hidden = !picture;
    this.arranged = null;
    this.drawPasses();
  }

  // Small pictures over the stretch that is shown, each of the last end of a pass in its part of the stretch, or of that part's end. They are hatched until they are
  // made, the last one first, as it says most.
  arrange() {
    const {course, picture} = this, many = picture ? Math.max(FEW, Math.min(MOST, Math.floor(at("strip").clientWidth / WIDE))) : 0;
    const [from, to] = course.view, key = `${from} ${to} ${many}`, wide = (to - from) / many;
    if (key === this.arranged || !at("strip").clientWidth) return;
    this.arranged = key;
    this.thumbs = Array.from({length: many}, (_, place) => this.thumb(from + place * wide, from + (place + 1) * wide));
    at("strip").replaceChildren(...this.thumbs.map(each => each.button));
    clearTimeout(this.soon);
    this.soon = setTimeout(() => this.fill(this.text, this.thumbs).catch(this.tell), PAUSE);
  }

  thumb(from, to) {
    const {course} = this, end = course.passStarts.findLast(start => start <= to), clock = to >= course.clocks ? course.clocks : end > from ? end : Math.round(to);
    // (an image, as a browser takes long to lay many canvases over each other)
    const image = Object.assign(made("img"), {alt: ""}), button = made("button", "thumb", "", image);
    button.setAttribute("aria-label", `clock ${clock}: ${course.pass(course.passAt(Math.max(0, clock - 1))).said.replaceAll("`", "")}`);
    button.addEventListener("click", () => this.go(clock));
    button.addEventListener("pointerenter", event => this.over(clock, event.clientX));
    image.style.aspectRatio = `${this.picture.width} / ${this.picture.height}`;
    return {clock, image, button};
  }

  async fill(text, thumbs) {
    const order = [...thumbs.slice(-1), ...thumbs.slice(0, -1)], canvas = made("canvas");
    for (const [place, each] of order.entries()) {
      const head = await this.asked(each.clock, SMALL, text);
      if (!head || thumbs !== this.thumbs) return;
      shown(canvas, head);
      each.image.src = canvas.toDataURL();
      each.button.classList.add("made");
      document.body.dataset.thumbs = `${place + 1} of ${order.length}`;
    }
  }

  async asked(clock, most, text) {
    const head = await ask("thumb", {clock, most}, text);
    if (text !== this.text || !head.pixels) return null;
    return head;
  }

  // What lies under the pointer, with the pass that it is in.
  over(clock, x) {
    this.wanted = clock;
    const {said, kind, face} = this.course.pass(this.course.passAt(Math.max(0, clock - 1)));
    at("under-words").replaceChildren(passChip(kind), `clock ${clock}: ${said.replaceAll("`", "")}`);
    this.onFace(face);
    at("under").hidden = false;
    this.placed(x);
    if (this.picture) this.under(clock, x);
  }

  placed(x) {
    const room = at("machine").getBoundingClientRect(), wide = at("under").offsetWidth;
    at("under").style.left = Math.max(GAP, Math.min(room.width - wide - GAP, x - room.left - wide / 2)) + "px";
    at("under").style.bottom = at("machine").getBoundingClientRect().bottom - at("strip").parentElement.getBoundingClientRect().top + "px";
  }

  async previewed(clock, x) {
    const head = await this.asked(clock, LARGER, this.text);
    if (!head || this.wanted !== clock) return;
    shown(at("under-picture"), head);
    document.body.dataset.under = clock;
    this.placed(x);
  }

  left() {
    this.wanted = null;
    this.onFace(0);
    at("under").hidden = true;
  }

  // Shows fewer clocks on the time line, or more, about one of them.
  zoom(way, clock = this.clock) {
    if (!this.course) return;
    this.course.zoom(clock, CLOSER ** -way);
    this.drawPasses();
    this.onView();
  }

  // The clock that is shown now.
  at(clock) {
    this.clock = clock;
    const [from] = this.course.view;
    this.course.reveal(clock);
    if (this.course.view[0] !== from) {
      this.drawPasses();
      this.onView();
    }
    this.mark();
    const now = this.thumbs.findLastIndex(each => each.clock <= clock);
    this.thumbs.forEach(({button}, place) => button.classList.toggle("now", place === now));
  }

  // Lights the passes of a face, or none if it is 0.
  light(face) {
    this.lit = face;
    this.drawPasses();
  }

  // The time line above the slider: in rows the solids whose faces are made, the literals, the passes with a colour for what each is for, and
  // the operations and clocks if there is room for them.
  drawPasses() {
    const canvas = at("line-of-passes"), {course} = this;
    if (!course || !canvas.clientWidth) return;
    this.arrange();
    this.wide = canvas.clientWidth;
    const rows = new Rows(canvas, fitted(canvas), course.view), {passStarts, operations} = course;
    const ink = rows.named("--ink"), colours = Object.fromEntries(Object.keys(KINDS).map(kind => [kind, rows.named("--pass-" + kind)]));
    const shades = ["--shade", "--line"].map(name => rows.named(name)), begun = [0, 0];
    passStarts.forEach((start, number) => {
      const {said, kind, face, literal, solid} = course.pass(number), end = course.startOfPass(number + 1), next = course.pass(number + 1);
      rows.bar(2, start, end, colours[kind], said.replaceAll("`", ""));
      if (this.lit && face === this.lit) rows.bar(2, start, end, ink, "", .5);
      // (of passes that follow each other with the same solid, or the same literal, one bar is made)
      [next.solid?.name !== solid?.name, next.literal !== literal].forEach((isOther, row) => {
        if (!isOther && number < passStarts.length - 1) return;
        if (solid) rows.bar(row, passStarts[begun[row]], end, row ? shades[literal % 2] : css(solid.colour), row ? solid.literal : solid.name);
        begun[row] = number + 1;
      });
    });
    const [from, to] = course.view.map(clock => course.operationAt(clock));
    const each = (row, first, last, startOf, wordsOf, name) => {
      if (last - first > canvas.width / FEWEST) return rows.bar(row, 0, course.clocks, shades[0], `the wheel, or c, shows the ${name}`);
      for (let at = first; at <= last; at++) rows.bar(row, startOf(at), startOf(at + 1), shades[at % 2], wordsOf(at));
    };
    each(3, from, to, operation => course.startOf(operation), operation => operations[operation]?.[1] ?? "", "operations");
    each(4, Math.floor(course.view[0]), Math.min(course.clocks - 1, Math.ceil(course.view[1])), clock => clock, String, "clocks");
    this.mark();
  }

  // Marks the clock that is shown, by whole pixels.
  mark() {
    const [from, to] = this.course.view;
    at("now").style.transform = `translateX(${Math.round(this.wide * (this.clock - from) / Math.max(1, to - from))}px)`;
  }
}

// The rows of the time line, which show a stretch of clocks.
class Rows {
  constructor(canvas, pen, [from, to]) {
    Object.assign(this, {canvas, pen, from, scale: canvas.width / Math.max(1, to - from), high: canvas.height / ROWS});
    this.pen.font = `${Math.floor(this.high * .78)}px system-ui, "DejaVu Sans", sans-serif`;
    this.pen.textBaseline = "middle";
  }

  // A colour of the page by its name.
  named(name) { return getComputedStyle(document.documentElement).getPropertyValue(name); }

  // A bar over some clocks, of a share of its row's height, and its words if they have room.
  bar(row, start, end, colour, words = "", share = 1) {
    const {pen, from, scale, high, canvas} = this, left = Math.max(0, (start - from) * scale), right = Math.min(canvas.width, (end - from) * scale);
    if (right < left || left >= canvas.width) return;
    const wide = right - left;
    pen.fillStyle = colour;
    pen.fillRect(left, row * high, Math.max(1, wide > GAP ? wide - 1 : wide), (high - 1) * share);
    if (!words || wide < high * 2 || pen.measureText(words).width > wide - 2 * GAP) return;
    const parts = pen.fillStyle.match(/\w\w/g).map(part => parseInt(part, 16));
    pen.fillStyle = .3 * parts[0] + .59 * parts[1] + .11 * parts[2] > 120 ? "#000" : "#fff";
    pen.fillText(words, left + GAP, (row + .5) * high);
  }
}

function shown(canvas, {width, height, pixels}) {
  Object.assign(canvas, {width, height});
  put(canvas, pixels);
}
