// Whether the browser takes a module with 64-bit addresses, as the program's is.

// A module of nothing but a table (section 4) and a memory (section 5), both with 64-bit indices (flag 4).
const LEAST = Uint8Array.of(0, 0x61, 0x73, 0x6d, 1, 0, 0, 0, 4, 4, 1, 0x70, 4, 1, 5, 3, 1, 4, 1);

const NEEDS = "WebAssembly with 64-bit memories and tables, which Chromium has from version 133 and Firefox from 134";

// What the browser lacks, in a sentence, or nothing.
export function lackOfBrowser() {
  if (typeof WebAssembly === "undefined") return `This browser runs no WebAssembly. The program needs ${NEEDS}.`;
  return WebAssembly.validate(LEAST) ? "" : `This browser cannot run the program, which needs ${NEEDS}.`;
}
