// What the page holds in addition to its modules: packed, the library and what it offers; and a scene of its own.
import {unpacked as opened} from "./pack.js";

const at = id => document.getElementById(id);
// The page as it came, before anything on it was changed: what "save this page" writes again.
const source = document.documentElement.outerHTML, OWN = /(<script type="application\/json" id="own">)[^<]*/;

export const own = JSON.parse(at("own").textContent);

// The bytes of a packed part; they are as they were packed, as their checksum shows, or the page says that it is damaged.
async function unpacked(id) {
  try {
    return await opened(Uint8Array.from(atob(at(id).textContent), letter => letter.charCodeAt(0)), "deflate");
  } catch {
    throw new Error("This page is damaged: get it again");
  }
}

export const library = () => unpacked("library");

// The scenes and exercises that the page offers.
export const offered = async () => JSON.parse(new TextDecoder().decode(await unpacked("offered")));

// The page once more, with a scene of its own.
export function pageWith(scene) {
  const text = JSON.stringify(scene).replaceAll("<", "\\u003c");
  return "<!DOCTYPE html>\n" + source.replace(OWN, (whole, head) => head + text) + "\n";
}

// The script of the workers.
export const code = () => at("worker").textContent;
