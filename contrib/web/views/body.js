// The letters of a text, as they are shown everywhere: whole, apart from all around them, and with links.

import { setting } from "../settings.js";
import { withLinks } from "./addresses.js";
import { el } from "./dom.js";

/** A body as an element. Each line has a direction of its own. */
export function bodyOf(text) {
  const body = el("div", { class: setting("oneWidth") ? "body one-width" : "body", dir: "auto" });
  body.append(...withLinks(text));
  return body;
}
