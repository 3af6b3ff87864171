// Names as links that learn their name when it is known, and follow when it is another.

import { el } from "./dom.js";

/** Where the page of a conference or a person is. */
export const placeOf = (club, number) => `${club.names.isPerson(number) ? "person" : "conference"}/${number}`;

function fill(club, element) {
  const number = Number(element.dataset.name);
  element.textContent = club.names.known(number) ?? "…";
  const parent = element.parentElement;
  if (parent?.matches("a[data-place]")) parent.href = `#/${placeOf(club, number)}`;
}

/** The elements that wait for a name, by its number. */
const waiting = new Map();

/** The name of a conference or a person, as text. */
export function nameOf(club, number) {
  const element = el("bdi", { "data-name": number });
  fill(club, element);
  if (club.names.known(number) === null) {
    waiting.set(number, [...(waiting.get(number) ?? []), element]);
    club.names.ask(number).catch(() => undefined);
  }
  return element;
}

/** The name as a link to its page. Nobody has none. */
export function nameLink(club, number) {
  if (number === 0) return nameOf(club, 0);
  return el("a", { href: `#/${placeOf(club, number)}`, "data-place": "" }, nameOf(club, number));
}

/** Fills the names of the page in when they are known, and anew when they are others. */
export function followNames(club) {
  club.names.addEventListener("name", ({ detail: { number, first } }) => {
    const elements = first ? waiting.get(number) ?? [] : document.querySelectorAll(`[data-name="${number}"]`);
    waiting.delete(number);
    for (const element of elements) fill(club, element);
  });
}
