// Addresses of the web in a text, which become links. Nothing is loaded from them.

import { el } from "./dom.js";

const ADDRESS = /\bhttps?:\/\/[^\s<>"“”‘’`]+/gi;
const TAIL = /[.,;:!?'*_~]+$/;
const CLOSING = { ")": "(", "]": "[", "}": "{" };

/** An address without what belongs to the sentence around it. */
export function trimmed(found) {
  let address = found;
  for (;;) {
    const before = address;
    address = address.replace(TAIL, "");
    const last = address.at(-1);
    const opening = CLOSING[last];
    if (opening && address.split(last).length > address.split(opening).length) address = address.slice(0, -1);
    if (address === before) return address;
  }
}

/** The parts of a text, in order: { text } or { text, address }. */
export function partsOf(text) {
  const parts = [];
  let place = 0;
  for (const { 0: found, index } of text.matchAll(ADDRESS)) {
    const address = trimmed(found);
    let target;
    try {
      target = new URL(address);
    } catch {
      continue;
    }
    if (index > place) parts.push({ text: text.slice(place, index) });
    parts.push({ text: address, address: target.href });
    place = index + address.length;
  }
  if (place < text.length) parts.push({ text: text.slice(place) });
  return parts;
}

/** A text as nodes. */
export const withLinks = (text) => partsOf(text).map((part) => (part.address === undefined
  ? document.createTextNode(part.text)
  : el("a", { href: part.address, rel: "noopener noreferrer", target: "_blank" }, part.text)));
