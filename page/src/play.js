// Playing: the machine goes on by itself, by clocks, operations or passes, so many times a second, and shows each place that it comes by.
import {at} from "./show.js";

// So many images a second flash; words that are others more often a second are not read.
const CALM = 3, READ = 5, USUAL = "2";

export const isStill = () => matchMedia("(prefers-reduced-motion: reduce)").matches;

export class Player {
  constructor(machine) {
    Object.assign(this, {machine, timer: null, isAllowed: false, last: -Infinity});
    at("speed").addEventListener("change", () => { if (this.mayFlash() && this.timer) { this.stop(); this.play(); } });
    at("play").addEventListener("click", () => this.toggle());
  }

  get isPlaying() { return this.timer !== null; }

  get isQuick() { return this.isPlaying && Number(at("speed").value) > READ; }

  // Whether it may go as fast as is chosen: images that change more than three times a second are asked about first.
  mayFlash() {
    if (Number(at("speed").value) <= CALM || this.isAllowed) return true;
    this.isAllowed = confirm("The array then flashes more than three times a second, which can harm people with photosensitive epilepsy. Play so fast?");
    if (!this.isAllowed) at("speed").value = USUAL;
    return this.isAllowed;
  }

  toggle() { if (this.isPlaying) this.stop(); else this.play(); }

  play() {
    const {machine} = this;
    if (!machine.course || !this.mayFlash()) return;
    if (machine.wanted === machine.course.clocks) machine.go(0);
    at("play").textContent = "stop";
    this.timer = setInterval(() => this.tick(), 1000 / Number(at("speed").value));
  }

  // Goes on, where what was wanted before is shown.
  tick() {
    const {machine} = this;
    if (!machine.course) return this.stop();
    if (!machine.isShown || this.isEarly()) return;
    this.last = performance.now();
    machine.goOn(at("pace").value + "-on");
    if (machine.wanted === machine.course.clocks) this.stop();
  }

  // Whether a calm pace would be exceeded, as timers that were late catch up.
  isEarly() {
    const speed = Number(at("speed").value);
    return speed <= CALM && performance.now() - this.last < 900 / speed;
  }

  // Plays without being asked, slowly; not where motion is unwelcome.
  begin(pace) {
    at("pace").value = pace;
    at("speed").value = USUAL;
    if (!isStill()) this.play();
  }

  stop() {
    clearInterval(this.timer);
    this.timer = null;
    at("play").textContent = "play";
    if (!at("machine").classList.contains("quick")) return;
    this.machine.tellPlace();
    this.machine.inside();
  }
}
