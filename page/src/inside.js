// What is shown of the pixel under the pointer: its bits, its circuit, its way through the tree, a waveform of the operation under way, or its whole life.
import {ask, latest} from "./ask.js";
import {circuitOf} from "./circuit.js";
import {formOf} from "./passes.js";
import {Bits, usedBits} from "./pixel.js";
import {choice} from "./rove.js";
import {at, made, write} from "./show.js";
import {waveform} from "./wave.js";
import {wayOf} from "./way.js";

const GAP = 4, PARTS = ["bits", "circuit", "way", "waveform", "life"];

export class Inside {
  // `machine` has the state, the course and the fields.
  constructor(machine) {
    Object.assign(this, {machine, part: "bits", waves: {}, bits: new Bits()});
    this.none = made("p", "quiet", "Point at a pixel of the array, or click one to keep it.");
    this.fetchWave = latest((x, y) => this.takeWave(x, y).catch(machine.tell));
    this.mark = choice(at("inside-parts"), "inside", PARTS, part => this.choose(part));
    this.choose("bits");
  }

  choose(part) {
    this.part = part;
    // (a name of its own: body has data-inside, and the style's selectors of that name would be matched again at each state)
    at("machine").dataset.part = part;
    this.mark(part);
    at("life-part").hidden = part !== "life";
    at("inside").hidden = part === "life";
    this.machine.wall?.fit();
    this.show();
  }

  show() {
    const {machine: {state, pixel, before, fields, course, player}, part} = this, isIn = pixel && state && pixel[0] < state.width && pixel[1] < state.height;
    if (!state || at("machine").hidden) return;
    write(at("pixel-name"), isIn ? pixel.join(", ") : "");
    if (!isIn) return this.fill([this.none]);
    const used = usedBits(state, fields), isQuick = at("machine").classList.contains("quick"), formNow = () => formOf(course?.operations[state.operation]?.[1] ?? "");
    // (what is asked of the layout takes long, so it is asked only where a part needs it)
    const circuit = high => [circuitOf(state.next, state.pixel(...pixel), used, [at("inside").clientWidth - GAP, high])];
    const room = ({parentElement, offsetTop}) => parentElement.clientHeight - offsetTop + parentElement.offsetTop - GAP;
    // (a wide page has room for the circuit below the bits)
    const shown = {bits: () => [...this.bits.of(state, before, fields, ...pixel, isQuick), ...matchMedia("(min-width: 100rem)").matches ? circuit(0) : []], circuit: () => circuit(room(at("inside"))),
      way: () => [wayOf(state, formNow(), pixel)], life: () => []};
    // (a waveform is asked for where nobody waits for the next state)
    if (part === "waveform") return player.isPlaying || this.fetchWave(...pixel);
    this.fill(shown[part]());
    document.body.dataset.inside = `${pixel.join(" ")} ${state.clock}`;
  }

  // Shows some elements, where they are not those that are shown.
  fill(parts) {
    const known = at("inside").children;
    if (parts.length !== known.length || parts.some((each, place) => each !== known[place])) at("inside").replaceChildren(...parts);
  }

  // The clocks of the operation under way, or of the last one.
  async takeWave(x, y) {
    const {machine} = this, {text, state, course} = machine;
    if (!machine.isShown || !course.operations.length) return;
    const operation = Math.min(state.operation, course.operations.length - 1), key = `${operation} ${x} ${y}`;
    if (this.waves.text !== text || this.waves.key !== key) {
      const head = await ask("wave", {x, y, first: course.startOf(operation), last: course.startOf(operation + 1)}, text);
      if (head.trouble || head.refused || text !== machine.text || !machine.pixel) return;
      this.waves = {text, key, head};
    }
    if (this.part !== "waveform" || !machine.isShown) return;
    at("inside").replaceChildren(waveform(this.waves.head, at("inside").clientWidth - GAP, machine.bitsOfWave(), machine.state.clock, clock => machine.go(clock)));
    document.body.dataset.inside = `${x} ${y} ${machine.state.clock}`;
  }
}
