// Edits of a system text by lines: what a form does stands in the text. Each takes lines and gives new ones.

const wordsOf = (line) => line.split(" ").filter(Boolean);
const isLine = (line, keyword, name) => {
  const words = wordsOf(line);
  return words[0] === keyword && (name === undefined || words[1] === name);
};
const firstOf = (lines, keyword, name) => lines.findIndex((line) => isLine(line, keyword, name));
const lastOf = (lines, ...keywords) =>
  lines.reduce((found, line, at) => (keywords.includes(wordsOf(line)[0]) ? at : found), -1);
const put = (lines, at, many, ...more) => [...lines.slice(0, at), ...more, ...lines.slice(at + many)];

// A glue has a strength: in its line, or in a new one behind the last glue.
export function withGlue(lines, name, strength) {
  const at = firstOf(lines, "glue", name), line = `glue ${name} ${strength}`;
  if (at >= 0) return wordsOf(lines[at])[2] === String(strength) ? lines : put(lines, at, 1, line);
  const behind = lastOf(lines, "glue", "tau");
  return put(lines, behind + 1, 0, line);
}

// A type has a name and four sides: in place of the type that was named `before`, or in a new line behind the last
// type.
export function withTile(lines, before, name, sides) {
  const at = before === null ? -1 : firstOf(lines, "tile", before), line = `tile ${name} ${sides.join(" ")}`;
  if (at < 0) return put(lines, lastOf(lines, "tile", "glue", "pair", "tau") + 1, 0, line);
  return renamed(put(lines, at, 1, line), before, name);
}

// Seeds and remarks of colours follow a type's name.
function renamed(lines, before, name) {
  if (before === name) return lines;
  return lines.map((line) => {
    const words = wordsOf(line);
    if (words[0] === "seed" && words[3] === before) return `seed ${words[1]} ${words[2]} ${name}`;
    return isColour(words, before) ? `# colour ${name} ${words[3]}` : line;
  });
}

const isColour = (words, name) => words[0] === "#" && /^colou?r$/.test(words[1] ?? "") && words[2] === name
  && words.length === 4;

export function withoutTile(lines, name) {
  return lines.filter((line) => !isLine(line, "tile", name) && !isColour(wordsOf(line), name));
}

// A type has a colour of its own, in a remark above its line; null for the one that comes of its name.
export function withColour(lines, name, colour) {
  const at = lines.findIndex((line) => isColour(wordsOf(line), name)), remark = `# colour ${name} ${colour}`;
  if (at >= 0) return colour === null ? put(lines, at, 1) : put(lines, at, 1, remark);
  return colour === null ? lines : put(lines, Math.max(0, firstOf(lines, "tile", name)), 0, remark);
}

// A box that is twice as large towards a site outside it, and has it; a side has at most 1024 sites.
export function widened([x0, y0, x1, y1], { x, y }) {
  const wide = Math.min(1024, 2 * (x1 - x0 + 1)), high = Math.min(1024, 2 * (y1 - y0 + 1));
  const [left, right] = x < x0 ? [Math.min(x, x1 - wide + 1), x1] : x > x1 ? [x0, Math.max(x, x0 + wide - 1)]
    : [x0, x1];
  const [low, top] = y < y0 ? [Math.min(y, y1 - high + 1), y1] : y > y1 ? [y0, Math.max(y, y0 + high - 1)] : [y0, y1];
  return right - left > 1023 || top - low > 1023 ? null : [left, low, right, top];
}

// A name that no type has yet.
export function freeName(taken, from) {
  const bare = from.replace(/[0-9]+$/, "") || "t";
  for (let n = 1; ; n++) if (!taken.includes(`${bare}${n}`)) return `${bare}${n}`;
}
