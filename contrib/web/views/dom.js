// Elements, made without markup: whatever is shown is text.

/** An element with these attributes and children. An attribute that is a function listens to its event. */
export function el(name, attributes = {}, ...children) {
  const element = document.createElement(name);
  for (const [key, value] of Object.entries(attributes)) {
    if (value === null || value === undefined || value === false) continue;
    if (typeof value === "function") element.addEventListener(key, value);
    else if (key === "class") element.className = value;
    else if (key === "value") element.value = value;
    else element.setAttribute(key, value === true ? "" : String(value));
  }
  element.append(...children.flat(Infinity).filter((child) => child !== null && child !== undefined && child !== false));
  return element;
}

/** A button that does something. */
export const button = (words, act, attributes = {}) => el("button", { type: "button", click: act, ...attributes }, words);

/** A link to another view. */
export const link = (to, ...words) => el("a", { href: `#/${to}` }, ...words);

/** A heading of the view, which takes the focus when the view is shown. */
export const heading = (...words) => el("h1", { tabindex: "-1" }, ...words);

/** Letters of others, apart from the direction of what stands around them. */
export const letters = (text, attributes = {}) => el("bdi", attributes, text);

/** A field with its label. */
let fields = 0;
export function field(words, input, hint) {
  fields += 1;
  input.id ||= `field-${fields}`;
  const about = hint ? el("span", { class: "hint", id: `${input.id}-hint` }, hint) : null;
  if (about) input.setAttribute("aria-describedby", about.id);
  return el("div", { class: "field" }, el("label", { for: input.id }, words), input, about);
}

/** A table row of a list of facts. */
export const fact = (words, ...value) => [el("dt", {}, words), el("dd", {}, ...value)];

const SELDOM = 150;

/** Does something soon, however often it is asked for: at once if it was not done lately. */
export function seldom(act) {
  let timer = 0;
  let last = 0;
  return () => {
    timer ||= setTimeout(() => {
      timer = 0;
      last = Date.now();
      act();
    }, Math.max(0, last + SELDOM - Date.now()));
  };
}

const NUMBERS = new Intl.NumberFormat("en");

/** A number as it is shown. */
export const figure = (number) => NUMBERS.format(number);

/** A number of things in words. */
export const many = (count, one, more = `${one}s`) => `${figure(count)} ${count === 1 ? one : more}`;
