// What was typed, to be taken back: texts with where the caret stood. Keys that follow each other are one step.

const MOST_STEPS = 300, MOST_SIGNS = 20e6, PAUSE = 900;

export class History {
  constructor() {
    Object.assign(this, { steps: [], at: -1, time: 0, isOpen: false });
  }

  get current() {
    return this.steps[this.at];
  }

  // Keeps a text. Typed ones replace the step before, where that was typed a moment ago.
  keep(step, isTyped) {
    const now = performance.now(), joins = isTyped && this.isOpen && now - this.time < PAUSE && this.at > 0;
    this.steps.length = this.at + 1;
    if (joins) this.steps[this.at] = step;
    else this.steps.push(step);
    Object.assign(this, { at: this.steps.length - 1, time: now, isOpen: isTyped });
    this.shorten();
  }

  shorten() {
    let signs = this.steps.reduce((all, it) => all + it.text.length, 0);
    while (this.steps.length > 2 && (this.steps.length > MOST_STEPS || signs > MOST_SIGNS)) {
      signs -= this.steps.shift().text.length;
      this.at--;
    }
  }

  // The step before or behind, or nothing.
  move(by) {
    const step = this.steps[this.at + by];
    if (step) Object.assign(this, { at: this.at + by, isOpen: false });
    return step;
  }

  can(by) {
    return this.steps[this.at + by] !== undefined;
  }
}
