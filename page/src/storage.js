// What is there again after a reload. A browser may keep nothing, and then nothing is kept.

const MOST = 1000000;

function guarded(action) {
  try {
    return action();
  } catch {
    return null;
  }
}

const named = (name) => `tilebench.${name}`;

export function keepText(name, text) {
  guarded(() => (text.length > MOST ? localStorage.removeItem(named(name)) : localStorage.setItem(named(name), text)));
}

export const keptText = (name) => guarded(() => localStorage.getItem(named(name)));
