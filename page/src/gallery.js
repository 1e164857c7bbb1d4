// The examples to begin with: in what order, under which heading, and a line for each.
import { EXAMPLES } from "../generated.js";

const GROUPS = [
  ["First steps", [
    ["chain.tiles", "Three tiles in a row, by bonds of their own"],
    ["square.tiles", "Four tiles: the last is held from two sides"],
    ["single.tiles", "A seed without glues"],
    ["mismatch.tiles", "Two neighbours whose glues differ"],
  ]],
  ["Patterns", [
    ["square20.tiles", "A square of 20 by 20 in 26 types"],
    ["sierpinski.tiles", "The Sierpinski triangle, cut off by its box"],
    ["pascal3.tiles", "Pascal's triangle modulo 3"],
    ["counter.tiles", "A binary counter of five bits"],
    ["spiral.tiles", "A spiral without end in 21 types"],
    ["corners.tiles", "A frame that grows from its four corners"],
    ["complements.tiles", "Ends that bind to their complements, as DNA"],
  ]],
  ["Machines and rules", [
    ["busy_beaver.machine", "A Turing machine: six ones in 14 steps"],
    ["incrementer.machine", "A Turing machine that adds one"],
    ["xor.quadrant", "A rule of two inputs: a triangle that ends"],
    ["adder.quadrant", "A rule that adds two binary numbers"],
    ["sum3.quadrant", "A rule: sums modulo 3"],
    ["stairs.quadrant", "A rule that lacks cases: columns count down"],
    ["busy_beaver.tiles", "The busy beaver, compiled to tiles"],
  ]],
  ["More than one outcome", [
    ["rivals.tiles", "Two types for one site: look for rivals"],
    ["two_paths.tiles", "Two paths race for one site"],
    ["rivals.schedule", "Two scouts at the rivals, step by step"],
  ]],
];

export const FIRST = "square20.tiles";

// To write a set of one's own.
export const NEW_SET = `tiles 1
# A new set: two types in a row, and the temperature 2.
tau 2
glue a 2
tile S - a - -
tile A - - - a
box 0 0 9 9
seed 0 0 S
end
`;

const textOf = (name) => EXAMPLES.find((it) => it.name === name)?.text ?? "";

// The text of an example; a schedule stands behind its system.
export function exampleText(name) {
  const text = textOf(name);
  return name.endsWith(".schedule") ? textOf(name.replace(".schedule", ".tiles")) + text : text;
}

// All examples by groups: [heading, [{name, line}]]. Those that no group names come last.
export function examples() {
  const named = new Set(GROUPS.flatMap(([, list]) => list.map(([name]) => name)));
  const known = new Set(EXAMPLES.map((it) => it.name)), rest = EXAMPLES.filter((it) => !named.has(it.name));
  const groups = GROUPS.map(([heading, list]) =>
    [heading, list.filter(([name]) => known.has(name)).map(([name, line]) => ({ name, line }))]);
  return rest.length ? [...groups, ["More", rest.map(({ name, line }) => ({ name, line }))]] : groups;
}
