// The worker that runs the program: it is given the module's bytes first, and then one run after another.
// (A page from disk may not hand over a compiled module, so each worker compiles the bytes for itself.)
import { runProgram } from "./host.js";

let program = null;

// A small system, grown once so that the browser has compiled what a growth needs before the first one is
// asked for.
const SMALL = "tiles 1\ntau 1\nglue a 1\ntile S a a a a\nbox 0 0 3 3\nseed 0 0 S\nend\n";

function prepare(bytes) {
  program = new WebAssembly.Module(bytes);
  runProgram(program, ["grow", "--choice", "0"], new TextEncoder().encode(SMALL));
  postMessage({ isReady: true });
}

// A trap is the engine's error for what the module does; any other error is the browser's want of memory.
function kindOf(error) {
  const isStack = error instanceof RangeError && /call stack|recursion/i.test(error.message);
  return error instanceof WebAssembly.RuntimeError || error.name === "InternalError" || isStack ? "trap" : "memory";
}

function run({ words, input }) {
  try {
    const answer = runProgram(program, words, input);
    postMessage({ answer }, [answer.out.buffer, answer.err.buffer]);
  } catch (error) {
    postMessage({ failed: kindOf(error), why: String(error) });
  }
}

onmessage = ({ data }) => {
  if (data.module) prepare(data.module);
  else run(data);
};
