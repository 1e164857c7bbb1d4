// A small form for a binary counter: what the program writes of it becomes the text.
import { decode } from "./bytes.js";
import { $ } from "./dom.js";
import { wordsWhy } from "./command.js";
import { ask, asking, lack, Unanswered } from "./program.js";
import { tell } from "./state.js";

const dialog = $("counter-form");

export const openCounterForm = () => dialog.showModal();

async function made(event) {
  event.preventDefault();
  const bits = $("counter-bits").value.trim(), start = $("counter-start").value.trim();
  $("counter-fault").textContent = lack;
  if (lack) return;
  try {
    const ran = await ask(asking, ["counter", bits, start], new Uint8Array());
    if (ran.status > 1) {
      const why = wordsWhy(ran.said);
      $("counter-fault").textContent = why ? `${why[0].toUpperCase()}${why.slice(1)}.` : ran.said;
      return;
    }
    dialog.close();
    tell("opened", `# A counter of ${bits} bits from ${start} on, as tilebench counter writes it\n${decode(ran.out)}`);
  } catch (why) {
    if (!(why instanceof Unanswered)) throw why;
    $("counter-fault").textContent = why.message;
  }
}

export function beginCounterForm() {
  $("counter-body").addEventListener("submit", made);
  $("counter-cancel").addEventListener("click", () => dialog.close());
}
