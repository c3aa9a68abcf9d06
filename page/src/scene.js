// What a scene says, line by line. The library has accepted the text before, so nothing is checked here.

export const KEYWORDS = ["pxscene", "picture", "depth", "solid", "front", "back", "side", "show", "end"];

// Whether a text is a listing, by its first word.
export const isListing = text => /^[ \t\r]*pxlist(?![^ \t\r\n#])/.test(text.replace(/^([ \t\r]*(#[^\n]*)?\n)+/, ""));

export const wordsOf = row => row.split("#")[0].split(/[ \t\r]+/).filter(Boolean);

// The names of its solids.
export const namesIn = text => text.split("\n").map(wordsOf).filter(([first, name]) => first === "solid" && name).map(([, name]) => name);

// Its sizes, its solids with their planes, its shown expression, and its faces in the order of their numbers.
export function readScene(text) {
  const scene = {width: 0, height: 0, depthBits: 0, fractionBits: 0, solids: [], faces: [], show: ""};
  const add = (solid, kind, colour, line) => {
    scene.faces.push({number: scene.faces.length + 1, solid: solid.name, kind, colour, line});
    return scene.faces.length;
  };
  text.split("\n").forEach((row, at) => {
    const [first, ...words] = wordsOf(row), numbers = words.map(Number), solid = scene.solids.at(-1), line = at + 1;
    const plane = numbers.slice(0, 3);
    if (first === "picture") [scene.width, scene.height] = numbers;
    if (first === "depth") [scene.depthBits, scene.fractionBits = 0] = numbers;
    if (first === "show") scene.show = words.join(" ");
    if (first === "side") solid.sides.push({plane});
    if (first === "solid") {
      const own = {name: words[0], colour: numbers.slice(1), line, fronts: [], backs: [], sides: []};
      own.near = add(own, "near", own.colour, line);
      scene.solids.push(own);
    }
    if (first === "front" || first === "back") {
      const ofKind = solid[first + "s"], colour = numbers.length > 3 ? numbers.slice(3) : solid.colour;
      ofKind.push({plane, number: add(solid, `${first} ${ofKind.length + 1}`, colour, line)});
    }
  });
  const greatest = scene.faces.length;
  return {...scene, far: 2 ** scene.depthBits - 1, numberBits: greatest ? Math.floor(Math.log2(greatest)) + 1 : 0};
}
