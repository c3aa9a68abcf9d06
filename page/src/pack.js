// Packs bytes and unpacks them, by the browser's own streams, or by hand if it has none (Firefox before 113, Chromium before 103).
// (WebKit reads no stream of a blob in a worker)
const through = async (bytes, stream) => new Uint8Array(await new Response(new Response(bytes).body.pipeThrough(stream)).arrayBuffer());
const RAW = "deflate-raw", BLOCK = 65535;

// The stream of a form; null if the browser lacks it.
function streamOf(name, form) {
  try {
    return new globalThis[name](form);
  } catch {
    return null;
  }
}

// The bytes as a raw stream of RFC 1951: by hand in blocks that are as they were.
export async function packed(bytes) {
  const stream = streamOf("CompressionStream", RAW), parts = [];
  if (stream) return through(bytes, stream);
  for (let at = 0; at < bytes.length; at += BLOCK) {
    const {length} = bytes.subarray(at, at + BLOCK), turned = length ^ BLOCK;
    parts.push(Number(at + length === bytes.length), length & 255, length >> 8, turned & 255, turned >> 8, ...bytes.subarray(at, at + length));
  }
  return Uint8Array.from(parts);
}

// What was packed as `deflate-raw`, or with a checksum as `deflate`; throws if it is damaged.
export async function unpacked(bytes, form = RAW) {
  const stream = streamOf("DecompressionStream", form);
  if (stream) return through(bytes, stream);
  const out = inflated(form === RAW ? bytes : bytes.subarray(2));
  let [low, high] = [1, 0];
  for (const byte of out) high = (high + (low = (low + byte) % 65521)) % 65521;
  if (form !== RAW && new DataView(bytes.buffer, bytes.byteOffset).getUint32(bytes.length - 4) !== high * 65536 + low) throw new Error("it is damaged");
  return out;
}

// The bases and further bits of lengths and distances (RFC 1951, 3.2.5).
const rising = (first, extra) => extra.map((bits, at) => [first + extra.slice(0, at).reduce((sum, each) => sum + 2 ** each, 0), bits]);
const FURTHER = Array.from({length: 30}, (_, at) => Math.max(0, (at >> 1) - 1));
const LENGTHS = [...rising(3, [...FURTHER.slice(2, 4), ...FURTHER.slice(2, 4), ...Array.from({length: 24}, (_, at) => at >> 2)]), [258, 0]];
const DISTANCES = rising(1, FURTHER), ORDER = [16, 17, 18, 0, 8, 7, 9, 6, 10, 5, 11, 4, 12, 3, 13, 2, 14, 1, 15];

// How many codes have each length, and the symbols in the order of their codes.
function codeOf(lengths) {
  const counts = Array(16).fill(0), order = [...lengths.keys()].filter(symbol => lengths[symbol]).sort((one, other) => lengths[one] - lengths[other] || one - other);
  for (const symbol of order) counts[lengths[symbol]] += 1;
  return {counts, order};
}

function inflated(bytes) {
  const out = [];
  let at = 0, isLast = 0;
  const bit = () => {
    if (at >> 3 >= bytes.length) throw new Error("it ends early");
    return bytes[at >> 3] >> (at++ & 7) & 1;
  };
  const number = count => {
    let found = 0;
    for (let place = 0; place < count; place++) found |= bit() << place;
    return found;
  };
  const symbol = ({counts, order}) => {
    for (let length = 1, code = 0, first = 0, index = 0; length < 16; length++) {
      code |= bit();
      if (code - first < counts[length]) return order[index + code - first];
      index += counts[length];
      first = first + counts[length] << 1;
      code <<= 1;
    }
    throw new Error("it is damaged");
  };
  const codes = () => {
    const [literals, distances, own] = [number(5) + 257, number(5) + 1, number(4) + 4], of = Array(19).fill(0), lengths = [];
    for (let place = 0; place < own; place++) of[ORDER[place]] = number(3);
    for (const code = codeOf(of); lengths.length < literals + distances;) {
      const next = symbol(code), [value, times] = next < 16 ? [next, 1] : next === 16 ? [lengths[lengths.length - 1], number(2) + 3] : [0, next === 17 ? number(3) + 3 : number(7) + 11];
      lengths.push(...Array(times).fill(value));
    }
    return [lengths.slice(0, literals), lengths.slice(literals)].map(codeOf);
  };
  const FIXED = [Array.from({length: 288}, (_, place) => place < 144 ? 8 : place < 256 ? 9 : place < 280 ? 7 : 8), Array(30).fill(5)].map(codeOf);
  while (!isLast) {
    isLast = bit();
    const kind = number(2);
    if (kind === 0) {
      at = at + 7 & ~7;
      const length = number(16), from = (at + 16) >> 3;
      for (const byte of bytes.subarray(from, from + length)) out.push(byte);
      at = from + length << 3;
      continue;
    }
    const [literal, distance] = kind === 1 ? FIXED : codes();
    for (let next = symbol(literal); next !== 256; next = symbol(literal)) {
      if (next < 256) { out.push(next); continue; }
      const [length, more] = LENGTHS[next - 257], count = length + number(more), [far, further] = DISTANCES[symbol(distance)], back = far + number(further);
      for (let times = 0; times < count; times++) out.push(out[out.length - back]);
    }
  }
  return Uint8Array.from(out);
}
