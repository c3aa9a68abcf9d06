// Reads a map of numbers from PNG, Netpbm, PFM and NPY. A canvas has 8 bits a sample, and some browsers change what it gives back, so PNG is
// read here too. Other forms are refused by name.
import {unpacked} from "./pack.js";

export class Bad extends Error {}

const OTHERS = [[/^(II\*\0|MM\0\*)/, "TIFF"], [/^\x76\x2f\x31\x01/, "EXR"], [/^P[147]\s/, "this kind of Netpbm"], [/^#\?/, "HDR"],
  [/^\xff\xd8/, "JPEG"], [/^\s*[-+.]?\d/, "numbers as text"]];
const CONVERT = "`pxplanes compare` reads it; here it must be PNG, PPM, PGM, PFM or NPY";
const CHANNELS = {P2: 1, P3: 3, P5: 1, P6: 3}, OF_PNG = {0: 1, 2: 3, 4: 2, 6: 4}, LARGEST_PIXELS = 2 ** 26, HEAD = 512, LAST_BITS = 2 ** -22;
const BYTES = 16384;

// The letters of some bytes.
function lettersOf(bytes) {
  let text = "";
  for (let at = 0; at < bytes.length; at += BYTES) text += String.fromCharCode(...bytes.subarray(at, at + BYTES));
  return text;
}

const viewOf = bytes => new DataView(bytes.buffer, bytes.byteOffset, bytes.byteLength);

// Numbers row by row from the top, so many to a pixel, each up to `largest`; null where they have any size, and parts.
class Raster {
  constructor(width, height, channels, largest, samples) { Object.assign(this, {width, height, channels, largest, samples}); }

  // One number a pixel: of greys the sample; of three bytes the first is the highest; the least whole number that is not before one with
  // parts, but for its last bits, and NaN for what is not finite.
  numbers() {
    const {width, height, channels, largest, samples} = this, sample = (pixel, channel) => samples[pixel * channels + channel];
    const isGrey = channels < 3 || largest === null || largest === 65535 && this.isGrey();
    if (!isGrey && largest !== 255) throw new Bad(`a picture of colours with samples up to ${largest} holds no numbers; 255 is expected`);
    return Float64Array.from({length: width * height}, (_, at) => {
      if (!isGrey) return sample(at, 0) << 16 | sample(at, 1) << 8 | sample(at, 2);
      const own = sample(at, 0);
      return largest !== null ? own : Number.isFinite(own) ? Math.ceil(own - Math.abs(own) * LAST_BITS) : NaN;
    });
  }

  isGrey() {
    const {channels, samples} = this;
    for (let at = 0; at < samples.length; at += channels) if (samples[at] !== samples[at + 1] || samples[at] !== samples[at + 2]) return false;
    return true;
  }
}

// The rasters of a file: one, or of Netpbm two, one after the other.
export async function rastersOf(bytes) {
  const head = lettersOf(bytes.subarray(0, HEAD));
  if (head.startsWith("\x93NUMPY")) return [readNpy(bytes, head)];
  if (head.startsWith("\x89PNG\r\n\x1a\n")) return [await readPng(bytes)];
  if (/^P[fF]\s/.test(head)) return [readPfm(bytes, head)];
  if (head.slice(0, 2) in CHANNELS) return imagesOf(bytes);
  const other = OTHERS.find(([pattern]) => pattern.test(head));
  throw new Bad(`the page does not read ${other ? other[1] : "this form of file"}: ${CONVERT}`);
}

// Whether a file begins as a picture does, and not as a text of a scene.
export const isPicture = bytes => [...OTHERS.map(([pattern]) => pattern), /^(P[1-7fF]\s|\x89PNG|\x93NUMPY)/].some(each =>
  each.test(lettersOf(bytes.subarray(0, HEAD))));

function sized(width, height, what) {
  if (!(width * height > 0 && width * height <= LARGEST_PIXELS)) throw new Bad(`the ${what} has no pixels, or more than ${LARGEST_PIXELS}`);
}

// So many numbers of a form, as NumPy names it, with the lowest byte first or last.
function numbersOf(bytes, form, isLittle, count) {
  const size = Number(form.slice(1)), view = viewOf(bytes), found = new Float64Array(count);
  if (bytes.length < count * size) throw new Bad(`the file ends early: ${bytes.length} of ${count * size} bytes`);
  const read = {
    u1: at => view.getUint8(at), b1: at => view.getUint8(at), i1: at => view.getInt8(at), u2: at => view.getUint16(at, isLittle),
    i2: at => view.getInt16(at, isLittle), u4: at => view.getUint32(at, isLittle), i4: at => view.getInt32(at, isLittle),
    u8: at => Number(view.getBigUint64(at, isLittle)), i8: at => Number(view.getBigInt64(at, isLittle)),
    f4: at => view.getFloat32(at, isLittle), f8: at => view.getFloat64(at, isLittle)}[form];
  for (let at = 0; at < count; at++) found[at] = read(size * at);
  return found;
}

// An array of numpy.save, of rows and columns, or of these and channels.
function readNpy(bytes, head) {
  const isFirst = bytes[6] === 1, start = isFirst ? 10 : 12, size = isFirst ? viewOf(bytes).getUint16(8, true) : viewOf(bytes).getUint32(8, true);
  const text = head.slice(start, start + size), kind = /'descr': *'([<>|=])([ui][1248]|b1|f[48])'/.exec(text);
  const sides = (/'shape': *\(([\d, ]*)\)/.exec(text)?.[1] ?? "").split(",").map(each => each.trim()).filter(Boolean).map(Number);
  const [height, width, channels = 1] = sides;
  if (!kind || sides.length < 2 || sides.length > 3 || !/'fortran_order': *False/.test(text) || ![1, 3].includes(channels))
    throw new Bad(`the NPY file has no array of rows and columns whose numbers the page reads: ${CONVERT}`);
  sized(width, height, "NPY file");
  const isWhole = ["u1", "u2", "i1", "i2", "b1"].includes(kind[2]);
  return new Raster(width, height, channels, isWhole ? 256 ** Number(kind[2][1]) - 1 : null,
    numbersOf(bytes.subarray(start + size), kind[2], kind[1] !== ">", height * width * channels));
}

// A float map, whose rows begin at the bottom.
function readPfm(bytes, head) {
  const words = /^P([fF])\s+(\d{1,9})\s+(\d{1,9})\s+([-+.0-9eE]+)\s/.exec(head);
  if (!words) throw new Bad("the head of the float map is damaged");
  const channels = words[1] === "F" ? 3 : 1, [width, height] = [Number(words[2]), Number(words[3])], row = width * channels;
  sized(width, height, "float map");
  const turned = numbersOf(bytes.subarray(words[0].length), "f4", words[4].startsWith("-"), row * height);
  const samples = turned.map((_, at) => turned[(height - 1 - Math.floor(at / row)) * row + at % row]);
  return new Raster(width, height, channels, null, samples);
}

// The images of Netpbm in a file, two at most; blanks may follow the last.
function imagesOf(bytes) {
  const found = [];
  let at = 0;
  const word = () => {
    const [own] = /^(?:\s|#[^\n]*(?:\n|$))*([^\s#]*)/.exec(lettersOf(bytes.subarray(at, at + HEAD)));
    at += own.length;
    return own.replace(/#[^\n]*/g, "").trim();
  };
  const number = most => {
    const own = word();
    if (!/^\d{1,9}$/.test(own) || Number(own) > most) throw new Bad(`${own || "nothing"} is no number up to ${most}`);
    return Number(own);
  };
  for (let kind = word(); kind; kind = word()) {
    if (!(kind in CHANNELS) || found.length === 2) throw new Bad(found.length === 2 ? "there is more after two images" : "the image is damaged");
    const width = number(65536), height = number(65536), largest = number(65535), count = width * height * CHANNELS[kind], form = largest > 255 ? "u2" : "u1";
    sized(width, height, "image");
    let samples = null;
    if (kind === "P2" || kind === "P3") {
      const written = lettersOf(bytes.subarray(at)).replace(/#[^\n]*/g, "").trim().split(/\s+/);
      if (written.length !== count || !written.every(each => /^\d{1,9}$/.test(each))) throw new Bad(`the image has other than ${count} samples`);
      samples = Float64Array.from(written, Number);
      at = bytes.length;
    } else {
      samples = numbersOf(bytes.subarray(at + 1), form, false, count);
      at += 1 + count * Number(form[1]);
    }
    if (samples.some(sample => sample > largest)) throw new Bad(`a sample is greater than ${largest}`);
    found.push(new Raster(width, height, CHANNELS[kind], largest, samples));
  }
  if (found.some(({width, height}) => width !== found[0].width || height !== found[0].height)) throw new Bad("the two images differ in size");
  return found;
}

// A PNG file of 8 or 16 bits a sample, without a palette.
async function readPng(bytes) {
  // (in a worker WebKit reads no blob of the parts)
  const view = viewOf(bytes), packed = new Uint8Array(bytes.length);
  let size = 0;
  for (let at = 8; at + 8 <= bytes.length; at += 12 + view.getUint32(at)) {
    const part = bytes.subarray(at + 8, at + 8 + view.getUint32(at));
    if (lettersOf(bytes.subarray(at + 4, at + 8)) !== "IDAT") continue;
    packed.set(part, size);
    size += part.length;
  }
  if (bytes.length < 29) throw new Bad("the PNG file is damaged");
  const width = view.getUint32(16), height = view.getUint32(20), [bits, kind, , , isWoven] = bytes.subarray(24), channels = OF_PNG[kind];
  if (!channels || isWoven || bits < 8) throw new Bad(`the page reads no PNG that is interlaced, has a palette, or has fewer than 8 bits: ${CONVERT}`);
  sized(width, height, "PNG file");
  const body = await unpacked(packed.subarray(0, size), "deflate").catch(() => { throw new Bad("the PNG file is damaged"); });
  const step = channels * bits / 8, length = width * step, lines = new Uint8Array(height * length);
  if (body.length < height * (length + 1)) throw new Bad("the PNG file ends early");
  for (let y = 0, to = 0; y < height; y++) {
    const filter = body[y * (length + 1)], from = y * (length + 1) + 1;
    for (let x = 0; x < length; x++, to++) {
      const left = x >= step ? lines[to - step] : 0, above = y ? lines[to - length] : 0, corner = x >= step && y ? lines[to - length - step] : 0;
      lines[to] = body[from + x] + [0, left, above, left + above >> 1, nearest(left, above, corner)][filter];
    }
  }
  return new Raster(width, height, channels, 2 ** bits - 1, numbersOf(lines, bits === 8 ? "u1" : "u2", false, width * height * channels));
}

// Which of three bytes is nearest to the first two less the third.
function nearest(left, above, corner) {
  const guess = left + above - corner, [a, b, c] = [left, above, corner].map(near => Math.abs(guess - near));
  return a <= b && a <= c ? left : b <= c ? above : corner;
}
