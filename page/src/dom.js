// Short words for the page's elements. All that comes of a text is put in as text.

const $ = (id) => document.getElementById(id);
export { $ };

// An element with its attributes, listeners (on..) and children; a class is `class`.
export function make(tag, given = {}, ...children) {
  const element = document.createElement(tag);
  for (const [name, value] of Object.entries(given)) {
    if (name.startsWith("on")) element.addEventListener(name.slice(2), value);
    else if (name === "class") element.className = value;
    else if (name in element && typeof value !== "string") element[name] = value;
    else element.setAttribute(name, value);
  }
  element.append(...children.filter((it) => it !== null && it !== undefined));
  return element;
}

export const button = (text, onclick, given = {}) => make("button", { type: "button", onclick, ...given }, text);

// A small square of a colour.
export function swatch(colour) {
  const it = make("span", { class: "swatch", "aria-hidden": "true" });
  it.style.background = colour;
  return it;
}

// Says something to a screen reader.
export function announce(text) {
  if ($("announced").textContent !== text) $("announced").textContent = text;
}

export const many = (count, one, several = `${one}s`) => `${count.toLocaleString("en")} ${count === 1 ? one : several}`;

// Waits for a pause: the last call within it is done.
export function paused(action) {
  let timer = 0;
  return Object.assign((wait, ...given) => {
    clearTimeout(timer);
    timer = setTimeout(() => { timer = 0; action(...given); }, wait);
  }, { stop: () => { clearTimeout(timer); timer = 0; }, isDue: () => timer !== 0 });
}
