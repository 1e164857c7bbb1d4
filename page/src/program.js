// The program: what the page asks of it, each lane by itself. A newer run on a lane ends the older one.
import { createEngine, Failure } from "../engine/engine.js";
import { decode } from "./bytes.js";

const engine = createEngine();

export const lack = engine.lack;
export const isNative = engine.isNative;
export const typing = engine.runner();
export const searching = engine.runner();
export const asking = engine.runner();

// How a run that gave no answer is told. `status` has the program's, or -1.
export class Unanswered extends Error {
  constructor(kind, message, status = -1) {
    super(message);
    Object.assign(this, { kind, status });
  }

  get isEnded() {
    return this.kind === "ended";
  }
}

const STATUSES = {
  4: "The input could not be read.",
  5: "The output could not be written.",
  6: "There was not enough memory for this growth. Take a smaller box, or close other pages.",
};

const FAILURES = {
  slow: "It took more than 10 seconds, and was given up. Take a smaller box, or the program on the command line.",
  memory: "The browser has no memory for this growth. Take a smaller box, or close other pages.",
  trap: "The program in this page came to a halt. The next growth starts afresh.",
};

// What the program answers: its status and its outputs as bytes. A refusal is an answer; all else is Unanswered.
export async function ask(lane, words, bytes, how = {}) {
  let ran;
  try {
    ran = await lane.run(words, bytes, how);
  } catch (why) {
    if (!(why instanceof Failure)) throw why;
    throw new Unanswered(why.kind, FAILURES[why.kind] ?? why.message);
  }
  const said = decode(ran.err).trim();
  if (ran.status > 3 || ran.status < 0) {
    throw new Unanswered("status", STATUSES[ran.status] ?? (said || `The program ended with status ${ran.status}.`),
      ran.status);
  }
  return { ...ran, said };
}
