// Plays the growth: the first places are shown, as many as the slider says.
import { $ } from "./dom.js";
import { showPlaces } from "./picture.js";
import { on, page, tell } from "./state.js";

let playing = null;

// Shows the first places, and tells it.
export function show(many) {
  if (!page.growth) return;
  showPlaces(many);
  const { growth, shown } = page, slider = $("slider");
  slider.max = growth.count;
  slider.value = shown;
  const frame = growth.frames.filter((it) => it.many <= shown).pop();
  const [some, all] = [shown, growth.count].map((it) => it.toLocaleString("en"));
  const told = `${frame ? `frame ${frame.number}, ` : ""}${some} of ${all} tiles`;
  $("at").textContent = told;
  slider.setAttribute("aria-valuetext", told);
  tell("shown");
}

// All is played within about eight seconds, and no tile or frame stays for more than half a second.
function step() {
  if (!playing) return;
  const now = performance.now(), { stops, since } = playing, { growth } = page;
  const each = Math.min(500, 8000 / Math.max(1, stops ? stops.length : growth.count)),
    due = Math.floor((now - since) / each);
  if (due > 0) {
    playing.since += due * each;
    show(stops ? stops.filter((it) => it > page.shown)[due - 1] ?? growth.count : page.shown + due);
  }
  if (page.shown >= growth.count) stop();
  else requestAnimationFrame(step);
}

export function stop() {
  playing = null;
  $("play").textContent = "Play";
}

export function toggle() {
  const { growth } = page;
  if (!growth || !growth.count) return;
  if (playing) {
    stop();
    return;
  }
  if (page.shown >= growth.count) show(Math.min(growth.count, page.system.seeds.length));
  // (a growth with frames is played frame by frame, and then to its end)
  const stops = growth.frames.length ? [...new Set([...growth.frames.map((it) => it.many), growth.count])] : null;
  playing = { since: performance.now(), stops };
  $("play").textContent = "Stop";
  requestAnimationFrame(step);
}

export function move(many) {
  stop();
  show(page.shown + many);
}

export function beginPlayer() {
  $("slider").addEventListener("input", (event) => { stop(); show(Number(event.target.value)); });
  $("first").addEventListener("click", () => { stop(); show(page.system ? page.system.seeds.length : 0); });
  $("back").addEventListener("click", () => move(-1));
  $("play").addEventListener("click", toggle);
  $("forth").addEventListener("click", () => move(1));
  $("last").addEventListener("click", () => { stop(); show(page.growth?.count ?? 0); });
  on("forgotten", stop);
}
