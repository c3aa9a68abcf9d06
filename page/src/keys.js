// The keys of the page. They work everywhere but where something is written or chosen.
import {enter} from "./rove.js";
import {at} from "./show.js";

const MOVES = {
  s: "clock-on", b: "clock-back", ArrowRight: "clock-on", ArrowLeft: "clock-back", m: "operation-on", M: "operation-back", p: "pass-on",
  P: "pass-back", r: "run", End: "run", Home: "start"};

const isText = target => target.matches("textarea, input:not([type=range]), select");

// Whether an element of the page has its own use for a key.
function isOwn(target, key) {
  const isMove = /^(Arrow|Home|End)/.test(key);
  return isMove && target.matches("input[type=range], [role=tab]") || key === " " && target.matches("button, summary");
}

// `page` has what the keys do; a move of the machine is one of its names.
export function listen(page) {
  const everywhere = {
    "+": () => page.letters(1), "-": () => page.letters(-1), "?": () => at("keys").showModal(), e: page.write,
    v: () => page.nextImage(1), V: () => page.nextImage(-1)};
  for (let number = 1; number <= page.parts; number++) everywhere[number] = () => page.choose(number - 1);
  const inMachine = {
    " ": () => page.machine.player.toggle(), u: () => { at("until").focus(); at("until").select(); }, t: page.toggleText,
    c: () => page.machine.strip.zoom(-1), C: () => page.machine.strip.zoom(1), z: () => page.machine.zoom(1), Z: () => page.machine.zoom(-1), n: () => page.stop(1), N: () => page.stop(-1), o: () => { at("stop").focus(); at("stop").select(); }, x: () => page.machine.turnEdges(), l: page.teach, Escape: page.teachNoMore, w: () => enter(at("planes")), k: () => enter(at("strip"))};
  for (const [key, move] of Object.entries(MOVES)) inMachine[key] = () => page.machine.move(move);

  document.addEventListener("keydown", event => {
    const {key, target} = event;
    if ((event.ctrlKey || event.metaKey) && key === "s") {
      event.preventDefault();
      return page.save();
    }
    const isModified = event.ctrlKey || event.altKey || event.metaKey;
    if (isModified || isText(target) || isOwn(target, key) || document.querySelector("dialog[open]")) return;
    const call = everywhere[key] ?? (page.isMachine() ? inMachine[key] : null);
    if (!call) return;
    event.preventDefault();
    call();
  });
}
