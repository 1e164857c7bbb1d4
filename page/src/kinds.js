// What kind of text bytes are, by its header and by what stands behind a system: so the page knows which command
// reads it.
import { Lines, joined } from "./bytes.js";

// What the page does with each kind: the command that judges it, and what a reader calls it.
export const KINDS = {
  system: { command: "grow", name: "tile set", file: "system.tiles" },
  growth: { command: "check", name: "tile set with a growth", file: "system.tiles" },
  certificate: { command: "verify", name: "tile set with a certificate", file: "system.tiles" },
  schedule: { command: "schedule", name: "tile set with a schedule", file: "system.tiles" },
  machine: { command: "turing", name: "Turing machine", file: "machine.machine" },
  rule: { command: "quadrant", name: "two-input rule", file: "rule.quadrant" },
  batch: { command: "batch", name: "batch", file: "batch.batch" },
};

const HEADERS = { machine: "machine", quadrant: "rule", batch: "batch" };
const BEHIND = {
  place: "growth", closed: "growth", unique: "growth", frame: "growth", grown: "growth", legal: "growth",
    stuck: "growth",
  mark: "certificate", verified: "certificate", look: "schedule", claim: "schedule", split: "schedule",
    join: "schedule",
};

// The kind of a text, and for one with something behind its system the byte at which the system ends.
export function kindOf(bytes) {
  const lines = new Lines(bytes);
  if (!lines.next()) return { kind: "system", end: bytes.length };
  const header = HEADERS[lines.word(0)];
  if (header) return { kind: header, end: bytes.length };
  while (lines.next()) {
    if (lines.count !== 1 || !lines.is(0, "end")) continue;
    const end = lines.at;
    const kind = lines.next() ? BEHIND[lines.word(0)] ?? "system" : "system";
    return { kind, end };
  }
  return { kind: "system", end: bytes.length };
}

// Of several files, those with a system come first; a file that begins with a place line is a growth.
export function assembled(pieces) {
  const isSystem = (bytes) => {
    const lines = new Lines(bytes);
    return lines.next() && lines.is(0, "tiles");
  };
  return joined(pieces.slice().sort((one, other) => isSystem(other) - isSystem(one)));
}
