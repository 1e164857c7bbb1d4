// Runs the program for the page: in a worker of its own, or by the server of tools/live. Words and bytes go
// in, a status and the bytes of both outputs come out.
import { answerOthers } from "./others.js";
import { Failure, failure } from "./failure.js";
import { Server } from "./native.js";
import { Workers } from "./workers.js";

export { Failure };

// As many bytes as the program reads.
const LONGEST_INPUT = 67108864;
const PATIENCE = 10;

// Runs one thing at a time: a newer run ends the older one.
class Runner {
  constructor(programs) {
    this.programs = programs;
    this.endRunning = null;
  }

  get isBusy() {
    return this.endRunning !== null;
  }

  stop() {
    this.endRunning?.(failure("ended"));
  }

  // What the program answers to words and an input: {status, out, err, ms}, or a Failure.
  async run(words, input, { seconds = PATIENCE } = {}) {
    this.stop();
    const { lack } = this.programs;
    if (lack) throw new Failure("lack", lack);
    if (input.length > LONGEST_INPUT) throw new Failure("long", `the input has more than ${LONGEST_INPUT} bytes`);
    const run = this.programs.begin(words, input);
    let timer, mine;
    const given = new Promise((_, reject) => {
      mine = (why) => { run.end(); reject(why); };
      const slow = new Failure("slow", `the run took more than ${seconds} s, and was given up`);
      if (Number.isFinite(seconds)) timer = setTimeout(() => mine(slow), 1000 * seconds);
    });
    this.endRunning = mine;
    try {
      return await Promise.race([run.answer, given]);
    } finally {
      clearTimeout(timer);
      if (this.endRunning === mine) this.endRunning = null;
    }
  }
}

class Engine {
  constructor() {
    const address = document.documentElement.dataset.live;
    this.programs = address ? new Server(address) : new Workers();
    this.lack = this.programs.lack;
    this.isNative = this.programs.isNative;
  }

  // A runner of its own, whose runs end no run of another one.
  runner() {
    return new Runner(this.programs);
  }
}

export function createEngine() {
  const engine = new Engine();
  answerOthers(engine);
  return engine;
}
