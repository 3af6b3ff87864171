// Who is on: where they are, and for how long they have done nothing.

import { button, el, heading, seldom } from "./dom.js";
import { nameLink } from "./names.js";
import { messageOf } from "../letters.js";
import { spanWords } from "./times.js";

const COLUMNS = ["Who", "In", "Idle", "Doing", "Say"];

export async function whoView(app) {
  const { club } = app;
  const table = el("tbody", {});
  const left = new AbortController();

  async function show() {
    const sessions = (await app.session.call("whoIsOn", true, false, 0)).filter(({ person }) => person !== 0);
    table.replaceChildren(...sessions.map(({ person, conference, idle, doing }) => el("tr", {},
      el("td", {}, nameLink(club, person)),
      el("td", {}, conference === 0 ? "" : nameLink(club, conference)),
      el("td", { class: "when" }, spanWords(idle)),
      el("td", {}, el("bdi", {}, messageOf(doing))),
      el("td", {}, person === club.me ? "" : button("Message", () => app.go(`messages/${person}`))))));
  }

  await show();
  const again = seldom(() => show().catch(() => undefined));
  club.addEventListener("presence", again, { signal: left.signal });
  const timer = setInterval(again, 60_000);
  return {
    name: "who",
    title: "Who is on",
    back: again,
    leave: () => {
      left.abort();
      clearInterval(timer);
    },
    node: el("div", {}, heading("Who is on"),
      el("div", { class: "scrolls", role: "region", "aria-label": "Sessions", tabindex: "0" },
        el("table", {}, el("thead", {}, el("tr", {}, COLUMNS.map((words) => el("th", { scope: "col" }, words)))), table))),
  };
}
