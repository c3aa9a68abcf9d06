// The whole life of the pixel that is kept: its enable as bars over the passes, what put it out in each, and which faces win there.
import {ask, latest} from "./ask.js";
import {rove} from "./rove.js";
import {at, fitted, made, passChip} from "./show.js";

export class PixelLife {
  // `go` is called with a clock.
  constructor(go, tell) {
    Object.assign(this, {go, text: null, course: null, pixel: null, life: null});
    rove(at("lives"), "button");
    this.fetch = latest(() => this.take().catch(tell));
    at("life").addEventListener("pointerdown", event => {
      if (!this.course) return;
      const [first, last] = this.course.view;
      this.go(Math.round(first + event.offsetX / at("life").clientWidth * (last - first)));
    });
  }

  load(text, course) {
    Object.assign(this, {text, course, life: null});
    this.show(this.pixel);
  }

  // Takes another pixel, or none.
  show(pixel) {
    this.pixel = pixel;
    this.life = null;
    this.draw();
    if (pixel && this.text) this.fetch();
  }

  async take() {
    const {text, pixel} = this;
    if (!pixel) return;
    const head = await ask("life", {x: pixel[0], y: pixel[1]}, text);
    if (text !== this.text || pixel !== this.pixel || !head.enable) return;
    this.life = head;
    this.draw();
    document.body.dataset.life = pixel.join(" ");
  }

  draw() {
    at("life").hidden = !this.life;
    at("life-words").textContent = "Click a pixel of the array: here is what put it out in each pass, and which face won.";
    if (!this.life) return at("lives").replaceChildren();
    this.drawBars();
    const rows = this.rows();
    at("lives").replaceChildren(...rows.map(row => this.rowOf(row)));
    at("life-words").textContent = rows.length ? "What put it out in each pass, and which face won:" : "Nothing put it out.";
  }

  drawBars() {
    const canvas = at("life"), {course, life: {enable}} = this;
    const [first, last] = course.view, pen = fitted(canvas), scale = canvas.width / Math.max(1, last - first), style = getComputedStyle(document.documentElement);
    pen.fillStyle = style.getPropertyValue("--mark");
    for (let place = 0; place < enable.length; place++) {
      const from = course.startOf(place), until = course.startOf(place + 1);
      if (enable[place]) pen.fillRect((from - first) * scale, 0, Math.max(.5, (until - from) * scale), canvas.height);
    }
    const count = enable.reduce((sum, bit) => sum + bit, 0);
    canvas.setAttribute("aria-label", `enable of pixel ${this.pixel.join(", ")}: 1 after ${count} of ${enable.length - 1} operations`);
  }

  // Of each pass that put the pixel out, or in which a face wins there: the pass, the operation that did it, and whether a face won.
  rows() {
    const {course: {operations}, life: {enable, faces}} = this, out = [];
    operations.forEach(([pass], operation) => {
      const isOut = enable[operation] && !enable[operation + 1], wins = faces[operation] !== faces[operation + 1];
      if (isOut) out.push({pass, operation, face: 0});
      if (wins) out.push({pass, operation, face: faces[operation + 1]});
    });
    return out;
  }

  rowOf({pass, operation, face}) {
    const {course} = this, [, , words] = course.operations[operation], {said, kind} = course.pass(pass), clock = course.startOf(operation + 1);
    const button = made("button", "event" + (face ? " wins" : ""), "", passChip(kind),
      made("span", "", face ? `face ${face} wins here` : said.replaceAll("`", "")), made("span", "quiet", face ? "" : `out: not ${words.replaceAll("`", "").replace(/^keep the pixels /, "")}`),
      made("span", "number", String(clock)));
    button.addEventListener("click", () => this.go(clock));
    return button;
  }
}
