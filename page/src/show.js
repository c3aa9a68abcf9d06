// Images on the page: a canvas with a pixel for each of the image's, as large as there is room for or by a whole number, and a mark on
// one of them.
import {packed} from "./palette.js";

// Where arrow keys lead.
export const STEPS = {ArrowLeft: [-1, 0], ArrowRight: [1, 0], ArrowUp: [0, -1], ArrowDown: [0, 1]};
const SCALES = [1, 2, 3, 4, 6, 8, 12, 16, 24, 32, 48, 64], DRAGGED = 4, LINED = 12, LIT = 0xb000d6ff;
// Lines of words do not touch where they are so many times as high apart.
const APART = 1.25;

export class Screen {
  // `onPixel` is called with x and y of the pixel under the pointer, or chosen by a click or the arrow keys; or with null. `onKeep` is
  // called when a pixel is kept, or none is any more.
  constructor(canvas, onPixel, onKeep = () => {}) {
    this.canvas = canvas;
    this.pen = canvas.getContext("2d", {alpha: false});
    this.stage = canvas.parentElement;
    this.onPixel = onPixel;
    this.onKeep = onKeep;
    this.kept = null;
    this.inner = null;
    // The scale that was chosen; null where the image is as large as there is room for.
    this.zoom = null;
    // What stays free next to and above the image, and what is called each time it was placed.
    this.margins = [0, 0];
    this.whenPlaced = [];
    [this.mark, this.frame] = ["mark", "frame"].map(name => this.stage.appendChild(made("div", name)));
    this.lit = this.stage.appendChild(made("canvas", "lit"));
    // (lines between the pixels of a small image)
    this.lines = this.stage.appendChild(made("div", "lines"));
    this.mark.hidden = this.frame.hidden = this.lit.hidden = this.lines.hidden = true;
    new ResizeObserver(() => this.place()).observe(this.stage);
    canvas.addEventListener("mousemove", event => this.point(this.under(event)));
    canvas.addEventListener("mouseleave", () => this.point(this.kept));
    canvas.addEventListener("click", event => {
      if (this.wasDragged) return;
      const pixel = this.under(event);
      this.keep(same(pixel, this.kept) ? null : pixel);
      this.point(pixel);
    });
    canvas.addEventListener("keydown", event => this.key(event));
    canvas.addEventListener("wheel", event => this.wheel(event), {passive: false});
    canvas.addEventListener("pointerdown", event => this.drag(event));
  }

  // Draws an image: `fill` is given its places, row by row, to write colours there as `packed` gives them. `inner` is the size of the
  // picture in it, where that is another one.
  draw(width, height, fill, inner = null) {
    const isOther = this.canvas.width !== width || this.canvas.height !== height, isPlaced = !isOther && this.scale && String(inner) === String(this.inner);
    if (isOther) Object.assign(this.canvas, {width, height});
    if (isOther) this.zoom = null;
    if (isOther || !this.image) this.image = new ImageData(width, height);
    this.inner = inner;
    fill(new Uint32Array(this.image.data.buffer));
    this.pen.putImageData(this.image, 0, 0);
    if (this.kept && (this.kept[0] >= width || this.kept[1] >= height)) this.keep(null);
    if (!isPlaced) this.place();
  }

  place() {
    const {width, height} = this.canvas, box = this.stage.getBoundingClientRect();
    if (!box.width || !box.height) return;
    const [left, top] = this.margins, room = Math.min((box.width - 2 - left) / width, (box.height - 2 - top) / height);
    this.fit = room >= 4 ? Math.floor(room) : room;
    this.scale = this.zoom ?? this.fit;
    this.stage.classList.toggle("zoomed", this.scale > room);
    this.canvas.style.width = width * this.scale + "px";
    this.canvas.style.height = height * this.scale + "px";
    this.canvas.style.margin = `${top}px 0 0 ${left}px`;
    this.drawMark();
    const part = this.inner && (this.inner[0] < width || this.inner[1] < height);
    this.frame.hidden = !part;
    if (part) this.lay(this.frame, 0, 0, ...this.inner);
    if (!this.lit.hidden) this.lay(this.lit, 0, 0, width, height);
    this.lines.hidden = this.scale < LINED;
    this.lines.style.backgroundSize = `${this.scale}px ${this.scale}px`;
    if (!this.lines.hidden) this.lay(this.lines, 0, 0, width, height);
    for (const call of this.whenPlaced) call();
  }

  // Lights the pixels that have a number, of those that `numbers` has row by row; none where it is null.
  glow(numbers, number) {
    const {width, height} = this.canvas;
    // (an image that was never shown has no pixels yet)
    this.lit.hidden = numbers?.length !== width * height;
    if (this.lit.hidden) return;
    Object.assign(this.lit, {width, height});
    put(this.lit, Uint32Array.from({length: numbers.length}, (_, place) => numbers[place] === number ? LIT : 0));
    this.lay(this.lit, 0, 0, width, height);
  }

  // The next larger scale, or the next smaller one, by whole numbers; what is smaller than all that there is room for is that again.
  // What is at x, y of the stage stays there; without them, the pixel that is kept comes to its middle.
  zoomed(way, x = null, y = null) {
    const {stage, scale, canvas} = this, next = way > 0 ? SCALES.find(each => each > scale) : SCALES.findLast(each => each < scale);
    const [before, left, top] = [scale, stage.scrollLeft, stage.scrollTop];
    this.zoom = next === undefined ? this.zoom : next <= this.fit ? null : next;
    this.place();
    const factor = this.scale / before, [ownX, ownY] = this.kept ?? [canvas.width / 2, canvas.height / 2];
    stage.scrollLeft = x === null ? (ownX + .5) * this.scale - stage.clientWidth / 2 : (left + x) * factor - x;
    stage.scrollTop = y === null ? (ownY + .5) * this.scale - stage.clientHeight / 2 : (top + y) * factor - y;
    this.place();
  }

  wheel(event) {
    if (!event.ctrlKey && !event.metaKey) return;
    const box = this.stage.getBoundingClientRect();
    event.preventDefault();
    this.zoomed(-Math.sign(event.deltaY), event.clientX - box.left, event.clientY - box.top);
  }

  // An image that is larger than its place follows the pointer.
  drag(event) {
    const {stage, canvas} = this, from = [event.clientX, event.clientY], [left, top] = [stage.scrollLeft, stage.scrollTop];
    this.wasDragged = false;
    if (!stage.classList.contains("zoomed")) return;
    follow(canvas, event, ({clientX, clientY}) => {
      const [x, y] = [clientX - from[0], clientY - from[1]];
      this.wasDragged ||= Math.abs(x) + Math.abs(y) > DRAGGED;
      if (this.wasDragged) Object.assign(stage, {scrollLeft: left - x, scrollTop: top - y});
    });
  }

  // Where the image begins in the window: inside the border of its canvas.
  inside() {
    const {left, top} = this.canvas.getBoundingClientRect(), {clientLeft, clientTop} = this.canvas;
    return {left: left + clientLeft, top: top + clientTop};
  }

  lay(element, x, y, wide, high) {
    const {stage} = this, box = stage.getBoundingClientRect(), own = this.inside();
    element.style.left = own.left - box.left + stage.scrollLeft + x * this.scale + "px";
    element.style.top = own.top - box.top + stage.scrollTop + y * this.scale + "px";
    element.style.width = wide * this.scale + "px";
    element.style.height = high * this.scale + "px";
  }

  drawMark() {
    this.mark.hidden = !this.kept;
    if (this.kept) this.lay(this.mark, ...this.kept, 1, 1);
  }

  // The pixel at a pointer, which may be outside of the image.
  near(event) {
    const {left, top} = this.inside();
    return [event.clientX - left, event.clientY - top].map(each => Math.floor(each / this.scale));
  }

  under(event) {
    const [x, y] = this.near(event);
    return x >= 0 && y >= 0 && x < this.canvas.width && y < this.canvas.height ? [x, y] : null;
  }

  point(pixel) { this.onPixel(pixel ?? this.kept); }

  keep(pixel) {
    this.kept = pixel;
    this.drawMark();
    this.onKeep(pixel);
  }

  key(event) {
    const way = STEPS[event.key];
    if (!way || event.ctrlKey || event.altKey || event.metaKey) return;
    const {width, height} = this.canvas, middle = [width >> 1, height >> 1], [x, y] = this.kept ?? middle;
    this.keep([(x + way[0] + width) % width, (y + way[1] + height) % height]);
    if (this.stage.classList.contains("zoomed")) this.mark.scrollIntoView({block: "nearest", inline: "nearest"});
    this.point(this.kept);
    event.preventDefault();
    event.stopPropagation();
  }
}

const same = (one, other) => one && other && one[0] === other[0] && one[1] === other[1];

// Follows a pointer that is pressed on an element until it is let go.
export function follow(element, {pointerId}, moved, ended = () => {}) {
  const stop = new AbortController(), {signal} = stop;
  element.setPointerCapture(pointerId);
  element.addEventListener("pointermove", moved, {signal});
  for (const end of ["pointerup", "pointercancel"]) element.addEventListener(end, () => { ended(); stop.abort(); }, {signal});
}

// Writes the colours of an image, where `paint(at)` is red, green and blue of the pixel at that place.
export const painted = paint => pixels => { for (let at = 0; at < pixels.length; at++) pixels[at] = packed(paint(at)); };

// A canvas with as many pixels as the screen has for it, and its pen.
export function fitted(canvas, form = {}) {
  canvas.width = canvas.clientWidth * devicePixelRatio;
  canvas.height = canvas.clientHeight * devicePixelRatio;
  return canvas.getContext("2d", form);
}

// Lines of words as an image, a long one made narrower. (A browser takes longer to lay out words and to paint them.)
export class Lines {
  constructor(canvas) {
    Object.assign(this, {canvas, lines: [], theme: null});
    new ResizeObserver(() => this.fit()).observe(canvas);
  }

  write(lines) {
    const before = this.lines;
    this.lines = lines;
    if (this.theme !== document.documentElement.dataset.theme) this.fit(); else if (lines.join() !== before.join()) this.draw(before);
  }

  fit() {
    const {canvas} = this, {color, backgroundColor, fontFamily, fontSize} = getComputedStyle(canvas), high = parseFloat(fontSize) * devicePixelRatio;
    Object.assign(this, {pen: fitted(canvas, {alpha: false}), theme: document.documentElement.dataset.theme, colours: [backgroundColor, color], high});
    Object.assign(this.pen, {font: `${high}px ${fontFamily}`, textBaseline: "top"});
    this.draw();
  }

  // Draws the lines that are others than before; all of them where they touch each other.
  draw(before = []) {
    const {pen, colours: [paper, ink], high, lines, canvas: {width, height}} = this;
    // (closer where there is less room)
    const step = Math.floor(Math.min(1.5 * high, height / lines.length)), isAll = before.length !== lines.length || step < APART * high;
    const clear = (top, tall) => { pen.fillStyle = paper; pen.fillRect(0, top, width, tall); };
    if (isAll) clear(0, height);
    lines.forEach((words, row) => {
      if (!isAll && words === before[row]) return;
      if (!isAll) clear(row * step, step);
      pen.fillStyle = ink;
      pen.fillText(words.replaceAll("`", ""), 0, row * step + Math.max(0, step - high) / 2, width);
    });
  }
}

// Gives a canvas an image of its size, of colours as `packed` gives them.
export function put(canvas, pixels) {
  const {width, height} = canvas;
  canvas.getContext("2d").putImageData(new ImageData(new Uint8ClampedArray(pixels.buffer, pixels.byteOffset, 4 * width * height), width, height), 0, 0);
}

// The element of the page that has an id.
export const at = id => document.getElementById(id);

// How large letters are compared with the usual size.
export const unit = () => parseFloat(getComputedStyle(document.documentElement).fontSize) / 16;

// An element with a class, a text and what is in it.
export function made(name, kind = "", text = "", ...inside) {
  const element = document.createElement(name);
  if (kind) element.className = kind;
  if (text !== "") element.textContent = text;
  element.append(...inside);
  return element;
}

// Gives an element words or a property that are not its own yet: a browser lays out again also what is written as it was.
export function write(element, words) {
  if (element.textContent === words) return;
  if (element.firstChild) element.firstChild.data = words; else element.textContent = words;
}

export function set(element, name, value) { if (element[name] !== value) element[name] = value; }

// A small square of a colour, as CSS writes it; and of the colour of a kind of passes.
export const chip = colour => Object.assign(made("i", "chip"), {style: `background: ${colour}`});
export const passChip = kind => chip(`var(--pass-${kind})`);

const SVG = "http://www.w3.org/2000/svg";

export function drawn(name, values, ...inside) {
  const element = document.createElementNS(SVG, name);
  for (const [key, value] of Object.entries(values)) element.setAttribute(key, value);
  element.append(...inside);
  return element;
}
