// The keys of the page, in one table that the help shows too.

import { setting } from "../settings.js";

/** What a key does: its words, and what it asks of the page or of the view that is shown. */
export const KEYS = [
  ["Space", "further down, and at the end of a text the next one", (app) => forward(app)],
  ["n", "the next text", (app) => app.prompt.next()],
  ["c", "comment on the text", (app) => app.view.acts?.comment?.()],
  ["f", "write a footnote to your own text", (app) => app.view.acts?.footnote?.()],
  ["p", "answer its author in private", (app) => app.view.acts?.reply?.()],
  ["w", "write: a new text, or to the conference or person that is shown", (app) => writeFrom(app)],
  ["a", "the text that this one answers", (app) => app.view.acts?.above?.()],
  ["j", "pass over all comments below the text", (app) => app.view.acts?.skip?.()],
  ["m", "mark the text, or drop the mark", (app) => app.view.acts?.mark?.()],
  ["u", "the text is unread again", (app) => app.view.acts?.unread?.()],
  ["b", "back to the text that you read last", (app) => app.club.order.last && app.go(`text/${app.club.order.last}`)],
  ["g", "the conferences", (app) => app.go("")],
  ["/", "find a conference, a person or a text", (app) => app.go("find")],
  ["o", "who is on", (app) => app.go("who")],
  ["s", "send a message", (app) => app.go("messages")],
  ["l", "the marked texts", (app) => app.go("marks")],
  ["?", "help", (app) => app.go("help")],
];

function writeFrom(app) {
  if (app.view.acts?.write) app.view.acts.write();
  else app.go(`write/text-${app.club.order.conference}`);
}

/** Scrolls, or goes on where there is nothing more to see of the text. */
function forward(app) {
  const article = document.querySelector("main article");
  const prompt = document.getElementById("prompt");
  const bottom = window.innerHeight - prompt.offsetHeight;
  if (article && article.getBoundingClientRect().bottom > bottom + 4) {
    window.scrollBy({ top: bottom * 0.85 });
    return;
  }
  app.prompt.next();
}

const takesKeys = (element) => element.closest("input, textarea, select, [contenteditable], dialog") !== null;
const takesSpace = (element) => element.closest("button, summary, a, input, textarea, select, dialog") !== null;

export function listenToKeys(app) {
  document.addEventListener("keydown", (event) => {
    if (event.ctrlKey || event.metaKey || event.altKey || event.isComposing || event.defaultPrevented) return;
    if (app.session.state === "stranger" || takesKeys(event.target)) return;
    const name = event.key === " " ? "Space" : event.key;
    if (name === "Space" ? takesSpace(event.target) : !setting("keys")) return;
    const key = KEYS.find(([each]) => each === name);
    if (!key) return;
    event.preventDefault();
    key[2](app);
  });
}
