// A conference: what it is, its presentation, and the member's own part in it.

import { button, el, fact, field, figure, heading, link, many } from "./dom.js";
import { nameLink, nameOf } from "./names.js";
import { personView } from "./person.js";
import { presented } from "./presented.js";
import { momentOf } from "./times.js";

const TYPES = [
  [0, "closed: its texts are for members"], [2, "secret: members alone see it"], [4, "takes texts without an author"],
];
const PASSIVE = 1;
const LETTERBOX = 3;
const LARGEST_PRIORITY = 255;

/** Priority, passive, the place to go on from, and leaving. */
function ownPart(app, conference, again) {
  const { club } = app;
  const row = club.membership(conference);
  const priority = el("input", { type: "number", min: 0, max: LARGEST_PRIORITY, value: row.priority, required: true });
  const passive = el("input", { type: "checkbox" });
  passive.checked = row.passive;
  const last = el("input", { type: "number", min: 0, value: 10, required: true });
  const withBit = (type, place, on) => type.slice(0, place) + (on ? "1" : "0") + type.slice(place + 1);
  return el("details", {},
    el("summary", {}, "Your membership"),
    row.invitation ? el("p", {}, "You were invited.") : null,
    el("form", { submit: (event) => {
      event.preventDefault();
      app.try(async () => {
        await club.join(conference, Number(priority.value), row.position);
        if (passive.checked !== row.passive || row.invitation) {
          await club.setMembershipType(conference, withBit(withBit(row.type, PASSIVE, passive.checked), 0, false));
        }
        again();
      }, "Your membership is changed.");
    } },
      field("Priority", priority, "0 to 255. Conferences of higher priority are read first."),
      el("label", { class: "check" }, passive, " Passive: nothing of it is unread, and nothing is told"),
      el("button", { type: "submit" }, "Change it")),
    el("form", { submit: (event) => {
      event.preventDefault();
      app.try(() => club.keepUnread(conference, Number(last.value)).then(again), "Done.");
    } },
      field("Read on from the last texts", last, "All older ones count as read then. 0 passes over all."),
      el("button", { type: "submit" }, "Only these are unread")),
    button("Leave the conference", () => app.try(() => club.leave(conference).then(again), "You are a member no more."),
      { class: "danger" }));
}

export async function conferenceView(app, words) {
  const number = Number(words);
  const { club } = app;
  const [conference] = await Promise.all([app.session.call("getConference", number), club.names.ask(number)]);
  if (conference.type[LETTERBOX] === "1") return personView(app, words);
  const row = club.membership(number);
  const again = () => app.show({ focus: false });
  const types = TYPES.filter(([bit]) => conference.type[bit] === "1").map(([, each]) => each);
  const supervises = conference.supervisor === club.me;
  const [presentation, notice] = await Promise.all([
    presented(app, conference.presentation, "Presentation"), presented(app, conference.notice, "Notice")]);
  const name = club.names.known(number);
  const acts = { write: () => app.go(`write/text-${number}`) };
  const goThere = () => {
    club.goTo(number);
    if (row.unread > 0) app.prompt.next();
    else app.say("You are there now. Nothing of it is unread.");
  };
  return {
    name: "conference",
    title: name,
    acts,
    back: again,
    node: el("div", {},
      heading(nameOf(club, number)),
      el("div", { class: "acts" },
        row ? button(row.unread > 0 ? `Read (${row.unread} unread)` : "Go there", goThere, { class: "main" })
          : button("Join", () => app.try(() => club.join(number).then(again), "You are a member now."), { class: "main" }),
        button(["Write to it", el("kbd", {}, "w")], acts.write),
        el("a", { class: "button", href: `#/last/${number}` }, "Last texts"),
        el("a", { class: "button", href: `#/members/${number}` }, `Members (${conference.members})`),
        button("Send a message", () => app.go(`messages/${number}`))),
      notice,
      presentation,
      el("dl", {},
        fact("Number", String(number)),
        types.length > 0 ? fact("Kind", types.join("; ")) : null,
        fact("Texts", `${figure(conference.texts)}, the last one `, momentOf(conference.lastWritten)),
        fact("Made", momentOf(conference.created), " by ", nameLink(club, conference.creator)),
        fact("Kept by", nameLink(club, conference.supervisor)),
        conference.submitters !== 0 ? fact("Who may write", nameLink(club, conference.submitters), " and its members") : null,
        fact("Texts are kept", many(conference.nice, "day"))),
      row ? ownPart(app, number, again) : null,
      supervises ? el("p", {}, link(`write/presentation-${number}`, "Write its presentation"), " · ",
        link(`write/notice-${number}`, "Write its notice")) : null),
  };
}
