// Colours come of names, so that a tile keeps its colour whatever else the text has. A remark `# colour NAME #rrggbb`
// is heeded.
import { encode, hashOf } from "./bytes.js";

// Calm hues that are told apart on light and on dark ground, and with most kinds of colour blindness by their
// lightness.
const HUES = 24, SHADES = [[0.8, 0.085], [0.68, 0.105], [0.88, 0.06]];

// The sRGB colour, as 0xrrggbb, of a lightness, a chroma and a hue in Oklch.
export function oklch(light, chroma, hue) {
  const a = chroma * Math.cos((hue * Math.PI) / 180), b = chroma * Math.sin((hue * Math.PI) / 180);
  const [l, m, s] = [
    light + 0.3963377774 * a + 0.2158037573 * b,
    light - 0.1055613458 * a - 0.0638541728 * b,
    light - 0.0894841775 * a - 1.291485548 * b,
  ].map((it) => it ** 3);
  const linear = [
    4.0767416621 * l - 3.3077115913 * m + 0.2309699292 * s,
    -1.2684380046 * l + 2.6097574011 * m - 0.3413193965 * s,
    -0.0041960863 * l - 0.7034186147 * m + 1.707614701 * s,
  ];
  return linear.reduce((all, it) => all * 256 + channel(it), 0);
}

function channel(linear) {
  const it = Math.min(1, Math.max(0, linear));
  return Math.round(255 * (it <= 0.0031308 ? 12.92 * it : 1.055 * it ** (1 / 2.4) - 0.055));
}

const PALETTE = SHADES.flatMap(([light, chroma], shade) =>
  Array.from({ length: HUES }, (_, at) => oklch(light, chroma, ((at + shade / 3) * 360) / HUES + 20)));

// which of all ways to mix them keeps the colours of the examples apart
const SALT = 34727;

// (bits far apart are mixed, so that names which differ by one sign are far apart too)
function mixed(hash) {
  let it = Math.imul(hash ^ (hash >>> 16) ^ SALT, 0x7feb352d);
  it = Math.imul(it ^ (it >>> 15), 0x846ca68b);
  return (it ^ (it >>> 16)) >>> 0;
}

export function colourOfBytes(bytes) {
  return PALETTE[mixed(hashOf(bytes, 0, bytes.length)) % PALETTE.length];
}

export const colourOf = (name) => colourOfBytes(encode(name));
export const css = (rgb) => `#${rgb.toString(16).padStart(6, "0")}`;

// As a pixel of an ImageData, whose bytes are red, green, blue and alpha.
export const pixel = (rgb) => (0xff000000 | ((rgb & 255) << 16) | (rgb & 0xff00) | (rgb >> 16)) >>> 0;

// Dark ink on light tiles, light ink on dark ones.
export function inkOn(rgb) {
  const light = 0.299 * (rgb >> 16) + 0.587 * ((rgb >> 8) & 255) + 0.114 * (rgb & 255);
  return light < 128 ? "#ffffff" : "#17202a";
}

// What tells tiles apart: the type, or the glue on one side. Kinds have names and colours; `of` has the kind of each
// type.
export class Kinds {
  constructor(system, by) {
    const isType = by === "type", many = isType ? system.types.count : system.glues.count + 1;
    const own = new Map(system.colours.map((it) => [it.name, it.rgb]));
    Object.assign(this, { system, by, isType, count: many, rgb: new Uint32Array(many), pixels: new Uint32Array(many) });
    this.of = Uint16Array.from({ length: system.types.count },
      (_, type) => (isType ? type : system.side(type, Number(by)) + 1));
    for (let kind = 0; kind < many; kind++) {
      const isBare = !isType && kind === 0;
      const names = isType ? system.types : system.glues, at = isType ? kind : kind - 1;
      const kept = own.size && !isBare ? own.get(names.name(at)) : undefined;
      this.rgb[kind] = kept ?? (isBare ? 0xb8c0c8 : colourOfBytes(names.bytesOf(at)));
      this.pixels[kind] = pixel(this.rgb[kind]);
    }
  }

  name(kind) {
    return this.isType ? this.system.nameOf(kind) : this.system.glueName(kind - 1);
  }
}
