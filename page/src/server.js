// The server of pxplanes view --serve, where the page comes from one: it has the file on the disk, and reads models. A page that was opened
// from a disk or another host has none.
import {Trouble} from "./ask.js";

const isNear = location.protocol === "http:" && location.hostname === "127.0.0.1";

async function post(name, words, body) {
  const query = new URLSearchParams(words).toString();
  const response = await fetch(name + (query ? "?" + query : ""), {method: "POST", body}).catch(() => {
    throw new Trouble("`pxplanes view --serve` does not answer; is it still running?");
  });
  if (!response.ok) throw new Trouble((await response.text()).trim());
  const head = await response.json();
  if (head.trouble) throw new Trouble(head.trouble);
  return head;
}

let isThere = false;

// The file that the studio was started with: its name, text and checksum; null where there is no server.
export async function begin() {
  if (!isNear) return null;
  const head = await post("begin", {}, "").catch(() => null);
  isThere = Boolean(head?.studio);
  return isThere ? head : null;
}

// Whether the page comes from a studio, whose address works on this machine only.
export const isServed = () => isThere;

// Saves the text of the file, which had this checksum when it was read; if it has another one, the answer is the text in the file.
export const save = (text, sum) => post("save", {sum}, text);

// The scene of a model's file.
export function model(kind, file) {
  if (!isThere) throw new Trouble("a page alone reads no models: start pxplanes view --serve, or make a scene of it by pxplanes convert");
  return post("model", {kind}, file);
}
