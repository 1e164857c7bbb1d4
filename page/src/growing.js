// From a text to what is to be shown: compiles, grows and judges it, and reads the answers.
import { Fault, Lines, joined } from "./bytes.js";
import { readGrowth, Growth, placesBytes } from "./growth.js";
import { kindOf } from "./kinds.js";
import { ask, lack, typing } from "./program.js";
import { readSystem } from "./system.js";

// A text that the program refuses: the line, the cause, and the command that read it.
export class Refused extends Error {
  constructor(said, command, bytes) {
    super(said);
    Object.assign(this, { said, command, bytes });
  }
}

async function answered(command, words, bytes, how) {
  const ran = await ask(typing, [command, ...words], bytes, how);
  if (ran.status > 1) throw new Refused(ran.said, command, bytes);
  return ran;
}

// What comes of a text: {kind, systemBytes, system, growth, told, answer}. `told` are the words of the answer's lines.
export async function grown(bytes, words = []) {
  const { kind, end } = kindOf(bytes);
  if (lack) return handedIn(kind, bytes);
  return GROWN[kind]({ kind, bytes, end, words });
}

const GROWN = {
  system: ({ kind, bytes, words }) => grownSystem(kind, bytes, words),
  machine: ({ kind, bytes, words }) => compiled(kind, "turing", bytes, words),
  rule: ({ kind, bytes, words }) => compiled(kind, "quadrant", bytes, words),
  growth: judged,
  certificate: verified,
  schedule: scheduled,
  batch: ranBatch,
};

async function grownSystem(kind, systemBytes, words) {
  const answer = await answered("grow", words, systemBytes);
  const began = performance.now();
  const system = readSystem(systemBytes), growth = readGrowth(system, answer.out, 0, 0);
  return { kind, systemBytes, system, growth, told: growth.told, answer, reading: performance.now() - began };
}

async function compiled(kind, command, bytes, words) {
  const { out } = await answered(command, [], bytes);
  return grownSystem(kind, out, words);
}

// A growth that is handed in: `check` judges its sequence.
async function judged({ kind, bytes, end }) {
  const systemBytes = bytes.slice(0, end), shown = handedIn(kind, bytes);
  const input = shown.growth.frames.length || shown.growth.told.some((it) => !["closed", "unique"].includes(it[0]))
    ? joined([systemBytes, placesBytes(shown.growth)]) : bytes;
  const answer = await answered("check", [], input);
  return { ...shown, answer, told: linesOf(answer.out), handed: shown.told };
}

async function verified({ kind, bytes }) {
  const answer = await answered("verify", [], bytes), shown = handedIn(kind, bytes);
  return { ...shown, answer, told: linesOf(answer.out) };
}

// Events of scouts: a line for each, and then the tiles.
async function scheduled({ kind, bytes, end }) {
  const answer = await answered("schedule", [], bytes);
  const systemBytes = bytes.slice(0, end), system = readSystem(bytes), steps = [];
  const lines = new Lines(answer.out);
  let from = answer.out.length;
  while (lines.next()) {
    if (lines.is(0, "place")) { from = lines.from; break; }
    steps.push(lines.rest());
  }
  const growth = readGrowth(system, answer.out, from, 0), events = [];
  const asked = new Lines(bytes, end, system.lastLine);
  while (asked.next()) events.push({ line: asked.number, words: asked.rest() });
  return { kind, systemBytes, system, growth, told: [], answer, steps, events };
}

async function ranBatch({ kind, bytes }) {
  const answer = await answered("batch", [], bytes);
  const jobs = jobsOf(bytes).map((it, at) => ({ ...it, told: [], at }));
  const lines = new Lines(answer.out);
  let job = -1;
  while (lines.next()) {
    if (lines.is(0, "job")) job++;
    else if (job >= 0 && !lines.is(0, "place") && !lines.is(0, "done")) jobs[job].told.push(lines.rest());
  }
  return { kind, systemBytes: bytes, system: null, growth: null, told: [], answer, jobs };
}

// The systems of a batch: the number of each job, and its bytes.
function jobsOf(bytes) {
  const lines = new Lines(bytes), jobs = [];
  while (lines.next()) {
    if (lines.is(0, "job")) jobs.push({ number: lines.integer(1), line: lines.number, from: lines.at, to: lines.at });
    else if (jobs.length) jobs[jobs.length - 1].to = lines.at;
  }
  return jobs.map(({ number, line, from, to }) => ({ number, line, bytes: bytes.slice(from, to) }));
}

// What a text says by itself, unjudged.
export function handedIn(kind, bytes) {
  if (kind === "machine" || kind === "rule" || kind === "batch" || kind === "schedule") {
    throw new Fault(1, "this text is to be compiled or run by the program, which can't run here");
  }
  const system = readSystem(bytes);
  const growth = kind === "system" ? new Growth(system, 0) : readGrowth(system, bytes);
  return { kind, systemBytes: bytes.slice(0, system.length), system, growth, told: growth.told, answer: null };
}

export function linesOf(bytes) {
  const lines = new Lines(bytes), found = [];
  while (lines.next()) if (!lines.is(0, "place") && !lines.is(0, "mark")) found.push(lines.rest());
  return found;
}
