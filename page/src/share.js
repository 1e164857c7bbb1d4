// A link that holds the text: behind its #, compressed. What a link holds is untrusted, and unpacked within bounds.
import { decode } from "./bytes.js";

const MARK = "#t=";
// how many bytes a link's text may have at most, packed and unpacked
const MOST_PACKED = 1 << 19, MOST_UNPACKED = 4 << 20;

async function through(bytes, stream, most) {
  const reader = new Blob([bytes]).stream().pipeThrough(stream).getReader(), pieces = [];
  let length = 0;
  for (;;) {
    const { done, value } = await reader.read();
    if (done) break;
    length += value.length;
    if (length > most) {
      reader.cancel().catch(() => {});
      throw new RangeError("too long");
    }
    pieces.push(value);
  }
  const all = new Uint8Array(length);
  let from = 0;
  for (const it of pieces) { all.set(it, from); from += it.length; }
  return all;
}

function base64Of(bytes) {
  let signs = "";
  for (let at = 0; at < bytes.length; at += 8192) signs += String.fromCharCode(...bytes.subarray(at, at + 8192));
  return btoa(signs).replaceAll("+", "-").replaceAll("/", "_").replace(/=+$/, "");
}

// The part of a link that holds bytes, or null where they are too many for one.
export async function hashOfText(bytes) {
  if (bytes.length > MOST_UNPACKED) return null;
  const packed = await through(bytes, new CompressionStream("deflate-raw"), MOST_PACKED).catch(() => null);
  return packed && `${MARK}${base64Of(packed)}`;
}

// The text that a link holds: {bytes}, or {why} where it can't be read; null where it holds none.
export async function textOfHash(hash) {
  if (!hash.startsWith(MARK)) return null;
  if (hash.length > MOST_PACKED * 1.4) return { why: "The link is too long to be opened." };
  try {
    const signs = atob(hash.slice(MARK.length).replaceAll("-", "+").replaceAll("_", "/"));
    const bytes = await through(Uint8Array.from(signs, (it) => it.charCodeAt(0)),
      new DecompressionStream("deflate-raw"), MOST_UNPACKED);
    decode(bytes);
    return { bytes };
  } catch (why) {
    const isLong = why instanceof RangeError;
    return { why: isLong ? "The link's text unpacks to more than 4 MiB, and was not opened."
      : "The link is broken: its text can't be unpacked." };
  }
}
