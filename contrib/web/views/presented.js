// A text that presents a person or a conference, or stands on its door.

import { bodyOf } from "./body.js";
import { el, letters, link } from "./dom.js";
import { momentOf } from "./times.js";

/** The text under a label, or nothing where there is none to be read. */
export async function presented(app, number, label) {
  if (number === 0) return null;
  const text = await app.club.texts.load(number).catch(() => null);
  if (text === null) return null;
  const subject = link(`text/${number}`, letters(text.subject || `text ${number}`));
  return el("section", { class: "presented", "aria-label": label },
    el("h2", {}, label), el("p", { class: "meta" }, subject, ", ", momentOf(text.stat.created)), bodyOf(text.body));
}
