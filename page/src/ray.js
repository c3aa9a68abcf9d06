// The ray of a pixel: where it is inside each solid, and inside the shown expression. The library answers all of it, each time by a
// picture of that one pixel, in which the planes have their values at the pixel and no slope.

// Past this a plane is farther than any depth, and its value says no more.
const MOST = 2 ** 30;

// A name that no solid has.
function freeName(scene) {
  let name = "cell";
  while (scene.solids.some(solid => solid.name === name)) name += "_";
  return name;
}

// Asks for the depth and the face that a scene of one pixel shows.
class OnePixel {
  constructor(px, {depthBits, fractionBits, far}) {
    this.px = px;
    this.far = far;
    this.cell = 2 ** fractionBits;
    this.head = `pxscene 3\npicture 1 1\ndepth ${depthBits} ${fractionBits}\n`;
  }

  shown(lines, expression) {
    const {depths: [depth], faces: [face]} = this.px.render(`${this.head}${lines.join("\n")}\nshow ${expression}\nend\n`);
    return {depth, face};
  }

  // The lines of a solid that has the cells from one on and before another.
  run(name, first, end = this.far) { return [`solid ${name} 0 0 0`, `front 0 0 ${first * this.cell}`, `back 0 0 ${end * this.cell}`]; }

  // The cells of a solid, from one on and before another, and the faces at both ends; null where the ray meets none of it.
  crossing(solid, x, y) {
    const value = ([a, b, c]) => Math.max(-MOST, Math.min(MOST, a * x + b * y + c));
    const planes = kind => solid[kind + "s"].map(({plane}) => [kind, value(plane)]);
    const sorted = [...planes("front"), ...planes("back"), ...planes("side")].map(([kind, at]) => `${kind} 0 0 ${at}`);
    const own = ["solid own 0 0 0", ...sorted], numbers = [solid.near, ...solid.fronts.map(each => each.number), ...solid.backs.map(each => each.number)];
    const first = this.shown(own, "own");
    if (!first.face) return null;
    // (the first cell after it that is not its own)
    const end = this.shown([...own, "solid rest 0 0 0", `front 0 0 ${first.depth * this.cell}`], "(rest - own)");
    return {run: [first.depth, end.depth], faces: [numbers[first.face - 1], end.face ? numbers[end.face - 1] : 0]};
  }
}

// The cells of the shown expression: from where it begins, and before where it ends. Each end is one of a solid, and the cell there is
// shown or not.
function runsOf(one, scene, met) {
  const solids = scene.solids.flatMap(({name}, at) => met[at] ? one.run(name, ...met[at].run) : [`solid ${name} 0 0 0`, "side 0 0 -1"]);
  const marks = [...new Set(met.flatMap(each => each?.run ?? []))].sort((a, b) => a - b), name = freeName(scene), out = [];
  let first = null;
  for (const mark of marks) {
    const isIn = mark < one.far && one.shown([...solids, ...one.run(name, mark, mark + 1)], `(${scene.show} * ${name})`).face > 0;
    if (isIn) first ??= mark;
    else if (first !== null) {
      out.push([first, mark]);
      first = null;
    }
  }
  return out;
}

// Of each solid its run and the words of its ends; and the runs of the expression, null where the scene has no room for the question.
export function rayOf(px, scene, x, y) {
  const one = new OnePixel(px, scene), met = scene.solids.map(solid => one.crossing(solid, x, y));
  const said = number => {
    const face = scene.faces[number - 1];
    return face ? `${face.kind}, face ${number}${face.kind === "near" ? "" : `, line ${face.line}`}` : "far limit";
  };
  const solids = scene.solids.map(({name, colour}, at) => ({name, colour, run: met[at]?.run ?? null, ends: met[at]?.faces.map(said) ?? null}));
  let shown = null;
  try {
    shown = runsOf(one, scene, met);
  } catch (error) {
    if (!(error instanceof px.Refused)) throw error;
  }
  return {far: scene.far, solids, shown};
}
