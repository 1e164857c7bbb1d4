// The known word that is closest to a misspelled one, by the likeness that Python's difflib has.

// The longest piece that two words share within bounds: where it begins in each, and its length.
function longestShared(one, other, [a0, a1, b0, b1]) {
  let best = [a0, b0, 0];
  let before = new Map();
  for (let a = a0; a < a1; a++) {
    const now = new Map();
    for (let b = b0; b < b1; b++) {
      if (one[a] !== other[b]) continue;
      const length = (before.get(b - 1) ?? 0) + 1;
      now.set(b, length);
      if (length > best[2]) best = [a - length + 1, b - length + 1, length];
    }
    before = now;
  }
  return best;
}

// How many signs two words share, in pieces from left to right.
function shared(one, other, [a0, a1, b0, b1]) {
  const [a, b, length] = longestShared(one, other, [a0, a1, b0, b1]);
  if (!length) return 0;
  return length + shared(one, other, [a0, a, b0, b]) + shared(one, other, [a + length, a1, b + length, b1]);
}

export function likeness(one, other) {
  const [a, b] = [[...one], [...other]], all = a.length + b.length;
  return all ? (2 * shared(a, b, [0, a.length, 0, b.length])) / all : 1;
}

// The closest of the known words, or null where none is close enough.
export function closest(word, known, least = 0.6) {
  let best = null;
  for (const it of known) {
    const found = likeness(it, word);
    if (found >= least && (best === null || found > best[0] || (found === best[0] && it > best[1]))) best = [found, it];
  }
  return best && best[1];
}
