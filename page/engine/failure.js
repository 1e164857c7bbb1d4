// Why a run gave no answer: its kind, and a sentence to show.
export class Failure extends Error {
  constructor(kind, message) {
    super(message);
    this.name = "Failure";
    this.kind = kind;
  }
}

const WORDS = {
  ended: "the run was ended, as a newer one began",
  memory: "the browser has no memory for this run",
  gone: "tools/live has ended, so nothing is run",
};

export function failure(kind) {
  return new Failure(kind, WORDS[kind]);
}
