// The first view: what is unread, conference by conference.

import { ConferenceList } from "./conferences.js";
import { bodyOf } from "./body.js";
import { el, heading, letters, link, seldom } from "./dom.js";

export async function newsView(app) {
  const { club } = app;
  const list = new ConferenceList(app);
  const left = new AbortController();
  const update = seldom(() => list.update());
  for (const event of ["unread", "members"]) club.addEventListener(event, update, { signal: left.signal });
  const notice = el("aside", { class: "notice", "aria-label": "Notice", hidden: true });
  app.session.call("getInfo").then(async ({ notice: number }) => {
    if (number === 0) return;
    const text = await club.texts.load(number);
    notice.append(el("h2", {}, letters(text.subject)), bodyOf(text.body));
    notice.hidden = false;
  }).catch(() => undefined);
  return {
    name: "news",
    title: "Conferences",
    node: el("div", {}, heading("Conferences"), notice,
      club.memberships.length < 2 ? el("p", {}, "You are a member of no conference yet. Find some, and join them.") : null,
      list.node,
      el("p", { class: "hint" }, link("find", "Find and join others"))),
    leave: () => left.abort(),
    back: update,
  };
}
