// Another renderer's map compared with the picture, or with a second map: what differs, in groups, as an image and pixel by pixel.
import {ask, latest} from "./ask.js";
import {rove} from "./rove.js";
import {Screen, at, made, painted} from "./show.js";

export class Compare {
  constructor(tell) {
    Object.assign(this, {tell, map: null, second: null, head: null, only: null});
    this.screen = new Screen(at("differences"), pixel => this.point(pixel));
    this.ask = latest(() => this.compared().catch(tell));
    rove(at("groups"), "button");
    // (a map that is chosen again is read again, so the choice is not kept)
    for (const name of ["map", "second"]) at(name).addEventListener("change", () => {
      const [file] = at(name).files;
      if (file) this.take(file, name).catch(tell).then(() => { at(name).value = ""; });
    });
    at("no-second").addEventListener("click", () => { this.second = null; this.ask(); });
    at("tolerance").addEventListener("change", () => this.ask());
  }

  // Takes a map; `name` says which: the other renderer's, or the second one that it is compared with in place of the picture.
  async take(file, name = "map") {
    this[name] = {name: file.name, bytes: new Uint8Array(await file.arrayBuffer())};
    this.ask();
  }

  // Takes another text of the scene, and compares again if a map is there.
  load(text, head, picture) {
    Object.assign(this, {text, scene: head, picture});
    this.ask();
  }

  async compared() {
    at("no-second").hidden = !this.second;
    at("compare").classList.toggle("maps", Boolean(this.second));
    if (!this.map || !this.second && this.scene?.kind !== "scene") return at("compare").classList.remove("old");
    const {text, map, second, picture, scene} = this, word = at("tolerance").value.trim(), began = performance.now();
    const own = second ? {second: second.bytes} : {picture: {width: scene.width, height: scene.height, depths: picture.depths, faces: picture.faces}};
    this.head = await ask("compare", {tolerance: /^\d+$/.test(word) ? Number(word) : word, map: map.bytes, ...own}, text);
    if (text !== this.text || map !== this.map || second !== this.second) return;
    this.only = this.fixed = null;
    at("compare").classList.remove("old");
    this.show();
    document.body.dataset.comparedTook = Math.round(performance.now() - began);
  }

  show() {
    const {head} = this, trouble = head.trouble ?? head.refused?.note;
    at("map-name").textContent = this.second ? `${this.map.name} and ${this.second.name}` : this.map.name;
    at("drop").hidden = !trouble && Boolean(head.rgb);
    at("differences").hidden = !at("drop").hidden;
    at("groups").replaceChildren();
    at("compare-readout").textContent = "";
    at("compare-says").replaceChildren(...(trouble ? [made("p", "trouble", `${this.map.name}: ${trouble}`)]
      : head.lines.map((line, number) => made("p", number ? "" : "large", line))));
    document.body.dataset.compared = trouble ?? head.lines[0];
    if (trouble || !head.rgb) return;
    at("differences").setAttribute("aria-label", `the differences: ${head.lines[0]}; arrow keys choose a pixel`);
    head.groups.forEach(([count, said], number) => at("groups").append(this.groupButton(count, said, number + 1)));
    this.paint();
  }

  groupButton(count, said, number) {
    const words = ` pixel${count === 1 ? "" : "s"}: ${said}`, button = made("button", "group", "", made("b", "", String(count)), words);
    const only = shown => { this.only = shown; this.paint(); };
    button.setAttribute("aria-pressed", "false");
    button.addEventListener("click", () => {
      const pressed = button.getAttribute("aria-pressed") === "true";
      at("groups").querySelectorAll("button").forEach(each => each.setAttribute("aria-pressed", "false"));
      button.setAttribute("aria-pressed", String(!pressed));
      this.fixed = pressed ? null : number;
      only(this.fixed);
    });
    button.addEventListener("mouseenter", () => only(number));
    button.addEventListener("mouseleave", () => only(this.fixed ?? null));
    return button;
  }

  paint() {
    const {only, head} = this, {rgb: colours, marks} = head;
    this.screen.draw(head.width, head.height, painted(place => {
      const colour = [colours[3 * place], colours[3 * place + 1], colours[3 * place + 2]];
      if (only === null || !marks[place]) return colour;
      return marks[place] === only ? [255, 214, 0] : colour.map(part => Math.round(part / 3));
    }));
  }

  point(pixel) {
    if (!this.head?.rgb || !pixel) return at("compare-readout").replaceChildren();
    const place = pixel[1] * this.head.width + pixel[0], group = this.head.groups[this.head.marks[place] - 1];
    const names = new Map(this.second ? [] : this.scene.facesOf.map(([number, solid, kind]) => [number, `${number}, ${solid} ${kind}`]));
    const faceOf = faces => `face ${names.get(faces[place]) ?? faces[place]}`;
    const side = ({depths, faces}) => [depths && `depth ${depths[place]}`, faces && faceOf(faces)].filter(Boolean).join(", ");
    at("compare-readout").textContent =
      `${pixel[0]}, ${pixel[1]}: ours ${side(this.head.ours)}; theirs ${side(this.head)}${group ? "" : "; alike"}`;
  }
}
