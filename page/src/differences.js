// Compares another renderer's map with the picture, pixel by pixel: what differs, in kinds. Why it differs is not said here: that takes the
// evidence that `pxplanes compare --scene` counts.
const SAME = ["same depth", "theirs nearer", "theirs farther"];
const LARGEST = 2 ** 32, MARKS = 65535;

// The depths and the faces of a file's rasters; null for what they do not hold.
export function mapsOf([first, second]) {
  return {width: first.width, height: first.height, depths: first.numbers(), faces: second ? second.numbers() : null};
}

// The greatest depth that is finite.
export const greatest = ({depths}) => Math.max(0, extentOf(depths)[1]);

// Makes what is not finite the background.
export function fill(maps, far) { maps.depths = maps.depths.map(depth => Number.isNaN(depth) ? far : depth); }

// What differs at each pixel: the gaps of depths past the tolerance, whether faces do, and the places where one of both does.
export function differencesOf(ours, theirs, tolerance) {
  const count = ours.width * ours.height, gaps = new Float64Array(count), at = [];
  for (let place = 0; place < count; place++) {
    const gap = Math.abs(ours.depths[place] - theirs.depths[place]);
    if (gap > tolerance) gaps[place] = gap;
    if (gaps[place] || isOtherFace(ours, theirs, place)) at.push(place);
  }
  return {gaps, at};
}

const isOtherFace = (ours, theirs, place) => ours.faces !== null && theirs.faces !== null && ours.faces[place] !== theirs.faces[place];

// Counts the kinds of difference: those of the most pixels first, each with its number of pixels; and of each place its kind.
export function kindsOf(faces, far, ours, theirs, at) {
  const words = new Map(faces.map(({number, solid, kind}) => [number, `${solid} ${kind.split(" ")[0]}`]));
  const side = (whose, maps, place) => {
    if (maps.faces) return `${whose} ${maps.faces[place] === 0 ? "background" : words.get(maps.faces[place]) ?? `face ${maps.faces[place]}`}`;
    return maps.depths[place] === far ? `${whose} background` : null;
  };
  const order = place => theirs.depths[place] < ours.depths[place] ? 1 : theirs.depths[place] > ours.depths[place] ? 2 : 0;
  const counts = new Map(), kinds = at.map(place => {
    const kind = [side("ours", ours, place), side("theirs", theirs, place), SAME[order(place)]].filter(Boolean).join(", ");
    counts.set(kind, (counts.get(kind) ?? 0) + 1);
    return kind;
  });
  const sorted = [...counts].sort(([one, few], [other, many]) => many - few || (one < other ? -1 : 1));
  return {sorted, kinds};
}

function extentOf(numbers) {
  let least = Infinity, most = -Infinity;
  for (const number of numbers) {
    if (number < least) least = number;
    if (number > most) most = number;
  }
  return [least, most];
}

// Red, green and blue of each pixel: grey where both are alike, red where depths differ, blue where only faces do.
export function pictureOf(ours, theirs, {gaps}) {
  const [near, far] = extentOf(ours.depths), [, most] = extentOf(gaps), wide = Math.max(far - near, 1), rgb = new Uint8Array(3 * gaps.length);
  for (let at = 0, to = 0; at < gaps.length; at++, to += 3) {
    const grey = 200 - Math.floor(140 * (ours.depths[at] - near) / wide), isRed = gaps[at] > 0, isBlue = !isRed && isOtherFace(ours, theirs, at);
    rgb[to] = isRed ? 128 + Math.floor(127 * gaps[at] / most) : isBlue ? 64 : grey;
    rgb[to + 1] = isRed ? 32 : isBlue ? 96 : grey;
    rgb[to + 2] = isRed ? 32 : isBlue ? 255 : grey;
  }
  return rgb;
}

// Lines on what differs, and the differences; null if the sizes differ. `faces` are those of the scene, and `far` is the background.
export function compared(ours, theirs, tolerance, faces, far) {
  if (ours.width !== theirs.width || ours.height !== theirs.height)
    return {lines: [`the sizes differ: ${ours.width} by ${ours.height} and ${theirs.width} by ${theirs.height}`], differences: null};
  const differences = differencesOf(ours, theirs, tolerance), {gaps, at} = differences;
  const lines = [`${at.length} of ${gaps.length} pixels differ`], kinds = kindsOf(faces, far, ours, theirs, at);
  if (!at.length) return {lines, differences, kinds};
  if (faces.length) lines.push("pxplanes compare --scene looks for the cause");
  const [, most] = extentOf(gaps), place = gaps.indexOf(most);
  if (most) lines.push(`greatest difference of depths: ${most}, at ${place % ours.width} ${Math.floor(place / ours.width)}`);
  return {lines, differences, kinds};
}

// Numbers of two and of four bytes, as the page keeps them.
export function marksOf(count, at, kinds, groups) {
  const numbers = new Map(groups.map(([kind], which) => [kind, Math.min(which + 1, MARKS)])), marks = new Uint16Array(count);
  at.forEach((place, which) => { marks[place] = numbers.get(kinds[which]); });
  return marks;
}

export const wordsOf = numbers => numbers && Uint32Array.from(numbers, each => Math.min(Math.max(each, 0), LARGEST - 1));
