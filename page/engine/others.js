// What other scripts may ask of the program: `tilebench.run(words, text)` in this page, and messages of a
// page that frames it.

// Runs that were asked for one behind another, none of which ends another one.
class Queue {
  constructor(engine) {
    this.runner = engine.runner();
    this.last = Promise.resolve();
  }

  run(words, input, how) {
    const mine = this.last.then(() => this.runner.run(words, input, how));
    this.last = mine.catch(() => {});
    return mine;
  }
}

// A text is answered by texts, bytes by bytes.
async function answered(queue, words, text, how) {
  const areWords = Array.isArray(words) && words.every((it) => typeof it === "string");
  if (!areWords) throw new TypeError("words are a list of strings");
  if (words.some((it) => it.includes("\0"))) throw new TypeError("a word has no byte 0");
  const isText = typeof text === "string";
  // (the bytes may be another window's)
  if (!isText && !ArrayBuffer.isView(text)) throw new TypeError("the text is a string, or a Uint8Array");
  const input = isText ? new TextEncoder().encode(text) : new Uint8Array(text.buffer, text.byteOffset, text.byteLength);
  const { status, out, err } = await queue.run(words, input, how);
  const given = (bytes) => (isText ? new TextDecoder().decode(bytes) : bytes);
  return { status, out: given(out), err: given(err) };
}

// A page that frames this one posts {tilebench: {id, words, text, seconds}} and hears {tilebench: {id,
// status, out, err}}, or {tilebench: {id, failed, kind}}. All that it can ask for is a run, which reads and
// writes nothing of this page.
function answerFrame(queue, event) {
  const asked = event.data?.tilebench;
  if (!asked || event.source === window || !Array.isArray(asked.words)) return;
  const { id, words, text = "", seconds } = asked;
  const say = (answer) => event.source.postMessage({ tilebench: { id, ...answer } }, { targetOrigin: "*" });
  const tellWhy = (error) => say({ failed: error.message, kind: error.kind ?? "asked" });
  answered(queue, words, text, { seconds }).then(say, tellWhy);
}

export function answerOthers(engine) {
  const queue = new Queue(engine);
  window.tilebench = { run: (words, text = "", how = {}) => answered(queue, words, text, how), lack: engine.lack };
  window.addEventListener("message", (event) => answerFrame(queue, event));
  if (window.parent !== window) window.parent.postMessage({ tilebench: { isReady: true, lack: engine.lack } }, "*");
}
