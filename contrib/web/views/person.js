// A person: presentation, what is known of them, and how to reach them.

import { latin1 } from "../protocol/bytes.js";
import { shownInLine } from "../letters.js";
import { button, el, fact, figure, heading, letters, many } from "./dom.js";
import { nameLink, nameOf } from "./names.js";
import { presented } from "./presented.js";
import { momentOf, spanWords } from "./times.js";

const LISTED = 300;

/** The memberships of a person that one may see. */
function memberships(app, number, count) {
  const place = el("div", {});
  const show = async () => {
    const rows = await app.session.call("getMemberships", number, 0, LISTED, false, 0);
    const item = (row) => el("li", {}, nameLink(app.club, row.conference), " ",
      el("span", { class: "hint" }, "last read ", momentOf(row.lastRead)));
    place.replaceChildren(
      el("ul", { class: "rows" }, rows.filter((row) => row.conference !== number).map(item)),
      rows.length < count ? el("p", { class: "hint" }, "Not all are listed.") : "");
  };
  const details = el("details", {}, el("summary", {}, many(count, "membership")), place);
  details.addEventListener("toggle", () => {
    if (details.open && place.childElementCount === 0) app.try(show);
  });
  return details;
}

export async function personView(app, words) {
  const number = Number(words);
  const { club, session } = app;
  const [person, letterbox, on] = await Promise.all([
    session.call("getPerson", number), session.call("getConference", number), session.call("whoIsOn", true, false, 0),
    club.names.ask(number)]);
  const presentation = await presented(app, letterbox.presentation, "Presentation");
  const sessions = on.filter((each) => each.person === number);
  const own = number === club.me;
  const acts = { write: () => app.go(`write/letter-${number}`) };
  const name = club.names.known(number);
  const go = (place, words) => el("a", { class: "button", href: `#/${place}` }, words);
  const user = shownInLine(latin1(person.user));
  const idle = Math.min(...sessions.map((each) => each.idle));
  return {
    name: "person",
    title: name,
    acts,
    back: () => app.show({ focus: false }),
    node: el("div", {},
      heading(nameOf(club, number)),
      el("div", { class: "acts" },
        button([own ? "Write to yourself" : "Write a letter", el("kbd", {}, "w")], acts.write, { class: own ? null : "main" }),
        own ? null : button("Send a message", () => app.go(`messages/${number}`)),
        own ? go(`last/${number}`, "Letters to you") : null,
        go(`by/${number}`, "Texts written"),
        own ? go(`write/presentation-${number}`, `Write ${letterbox.presentation === 0 ? "your" : "a new"} presentation`) : null,
        own ? go("settings", "Settings") : null),
      presentation,
      el("dl", {},
        fact("Number", String(number)),
        fact("Here", sessions.length > 0 ? `now, ${many(sessions.length, "session")}, idle for ${spanWords(idle)}` : "not now"),
        fact("Last login", momentOf(person.lastLogin), user === "" ? "" : [" as ", letters(user)]),
        fact("Texts written", figure(person.texts)),
        fact("Been here", `${many(person.sessions, "time")}, ${spanWords(person.present)} in all`),
        fact("Member since", momentOf(letterbox.created))),
      memberships(app, number, person.memberships)),
  };
}
