// Short words at the edge of the page, which screen readers speak, and notifications of the system.

import { setting } from "../settings.js";
import { button, el } from "./dom.js";

const SHORT = 7_000;
const MOST = 4;

/** Shows words; `actions` are buttons beside them. What stays is there until it is closed. */
export function toast(words, { actions = [], stays = false, wrong = false } = {}) {
  const area = document.getElementById("toasts");
  const note = el("div", { class: wrong ? "toast wrong" : "toast", role: wrong ? "alert" : null });
  const close = () => {
    // The focus is not lost with its button.
    if (note.contains(document.activeElement)) document.getElementById("main").focus({ preventScroll: true });
    note.remove();
  };
  note.append(
    el("div", { class: "words" }, words),
    ...actions.map(([label, act]) => button(label, () => {
      close();
      act();
    })),
    button("Close", close, { class: "quiet" }),
  );
  area.append(note);
  while (area.children.length > MOST) area.firstElementChild.remove();
  if (!stays) setTimeout(close, SHORT);
  return close;
}

/** Takes away what was wrong in a view that is left. */
export function forgetWrong() {
  for (const note of document.querySelectorAll(".toast.wrong")) note.remove();
}

/** Tells of something by the system, where the member allows it and does not look at the page. */
export function notify(title, body, tag, act) {
  if (!document.hidden || !setting("notify") || globalThis.Notification?.permission !== "granted") return;
  try {
    const note = new Notification(title, { body, tag, icon: "icon.svg" });
    note.onclick = () => {
      window.focus();
      note.close();
      act();
    };
  } catch {
    // Some telephones want a worker for this; the title tells it all the same.
  }
}
