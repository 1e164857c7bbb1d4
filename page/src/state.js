// What the page shows, and who is told when that changes.

export const page = {
  // the kind of the text, its bytes, and of a compiled text the system's bytes
  kind: "system", bytes: new Uint8Array(), systemBytes: new Uint8Array(),
  // what was read of the text and of the answer; how many places are shown, and the kinds of colours
  system: null, growth: null, shown: 0, kinds: null, attaching: null,
  // what the answers mean, and the verdict in short
  meanings: [], verdict: null, answer: null,
  // the kind of colour that is marked, or -1; a test of what was searched, or null; whether the picture is an older
  // text's
  // (one that the caret points at is outlined, and the others stay as they are)
  chosen: -1, isHint: false, found: null, isStale: false,
  // a site to look at, the site of the keyboard's cursor, the row whose meaning is told; each null where there is none
  mark: null, cursor: null, row: null,
  // what tells tiles apart: "type", or the side of a glue; what a click on the picture does: "look", or "hand"
  by: "type", mode: "look",
};

const listeners = new Map();

// Calls back whenever something is told under a name.
export function on(name, call) {
  for (const it of name.split(" ")) {
    if (!listeners.has(it)) listeners.set(it, []);
    listeners.get(it).push(call);
  }
}

export function tell(name, ...given) {
  for (const call of listeners.get(name) ?? []) call(...given);
}
