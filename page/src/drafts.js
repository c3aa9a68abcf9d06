// Drafts: what was written and is not saved, kept by the browser. Every page that is open keeps its own, under a number of its own, and
// holds a lock of that number while it is open: so a page gives back the drafts of pages that are gone, and touches no other's.

const KEPT = "pxplanes kept ", PAGE = "pxplanes page";
let own = "";

// What a call gives of what the browser keeps; null where it keeps nothing here.
export function stored(call, place = "localStorage") {
  try {
    return call(globalThis[place]);
  } catch {
    return null;
  }
}

const keyOf = name => `${KEPT}${own} ${name}`, lockOf = number => `${PAGE} ${number}`;

// Holds the lock of a number until the page is closed; whether it was free.
const held = number => new Promise(done => {
  navigator.locks.request(lockOf(number), {ifAvailable: true}, lock => {
    done(lock !== null);
    return lock && new Promise(() => {});
  });
});

// The number that the page had before it was loaded again, unless another page has it.
async function numbered() {
  const known = stored(store => store.getItem(PAGE), "sessionStorage");
  own = known && (!navigator.locks || await held(known)) ? known : crypto.getRandomValues(new Uint32Array(2)).join("");
  stored(store => store.setItem(PAGE, own), "sessionStorage");
  if (own !== known && navigator.locks) await held(own);
}

// The numbers of the pages that are open. A browser without locks does not say: then only the page's own drafts are given back.
async function open() {
  if (!navigator.locks) return null;
  const {held: locks} = await navigator.locks.query();
  return new Set(locks.map(({name}) => name).filter(name => name.startsWith(PAGE)).map(name => name.slice(PAGE.length + 1)));
}

// The drafts of this page and of pages that are gone, each with its name, its text and the text that it was made of. They are this
// page's to keep from now on.
export async function begin() {
  await numbered();
  const others = await open();
  return stored(store => Object.keys(store).flatMap(key => {
    const [number, name] = /^pxplanes kept (\d+) (.*)$/s.exec(key)?.slice(1) ?? [];
    if (number === undefined || number !== own && (others === null || others.has(number))) return [];
    const {base, text} = JSON.parse(store.getItem(key));
    store.removeItem(key);
    store.setItem(keyOf(free(store, name)), JSON.stringify({base, text}));
    return [{name, base, text}];
  })) ?? [];
}

// A name that no draft of this page has.
function free(store, name) {
  let found = name;
  for (let number = 2; store.getItem(keyOf(found)) !== null; number++) found = `${name} ${number}`;
  return found;
}

// Keeps a draft; whether the browser did.
export const keep = (name, base, text) => stored(store => (store.setItem(keyOf(name), JSON.stringify({base, text})), true)) === true;

export function forget(name) { stored(store => store.removeItem(keyOf(name))); }
