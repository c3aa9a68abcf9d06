// What the page opens and how it is shown, in the part of an address after its #: a scene of the page by its name, as in
// #s=house&c=40000&v=enable&p=20,20, or a text, packed.
import {Trouble} from "./ask.js";
import * as pack from "./pack.js";

const MOST = 16384;

// The letters of the readable form, and what they mean.
const LETTERS = {s: "scene", t: "tab", i: "image", c: "clock", v: "view", b: "beside", p: "pixel", e: "exercise"}, NUMBERS = ["clock", "exercise"];

const whole = word => /^\d{1,15}$/.test(word) ? Number(word) : word;

// What a readable part names; null where it is packed. What is no number where one is expected stays a word, which the page refuses.
export function read(part) {
  if (!/^[a-z]=/.test(part)) return null;
  const found = {};
  for (const [letter, word] of new URLSearchParams(part)) {
    const name = LETTERS[letter] ?? letter;
    found[name] = name === "pixel" ? word.split(",").map(whole) : NUMBERS.includes(name) ? whole(word) : word;
  }
  return found;
}

// The packed part.
export async function packed(scene) {
  if (new TextEncoder().encode(scene.text).length > MOST) throw new Trouble("a link holds texts of up to 16 KiB: take the page away with this scene");
  const bytes = await pack.packed(new TextEncoder().encode(JSON.stringify(scene)));
  return btoa(String.fromCharCode(...bytes)).replaceAll("+", "-").replaceAll("/", "_").replaceAll("=", "");
}

// The scene of a packed part; null where it is none.
export async function unpacked(part) {
  try {
    const bytes = Uint8Array.from(atob(part.replaceAll("-", "+").replaceAll("_", "/")), letter => letter.charCodeAt(0));
    const scene = JSON.parse(new TextDecoder().decode(await pack.unpacked(bytes)));
    return typeof scene?.text === "string" && scene.text.length <= MOST ? scene : null;
  } catch {
    return null;
  }
}
