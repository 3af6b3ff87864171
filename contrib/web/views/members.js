// The members of a conference, and whom to invite.

import { button, el, heading, link } from "./dom.js";
import { finder } from "./finder.js";
import { nameLink, nameOf } from "./names.js";
import { momentOf } from "./times.js";

const PAGE = 200;
const PRIORITY = 100;
const LAST_PLACE = 65_535;
const PAST_THE_END = 19;

export async function membersView(app, words) {
  const conference = Number(words);
  const { club } = app;
  const list = el("ul", { class: "rows" });
  const more = button("Show more", () => app.try(show));
  let place = 0;

  async function show() {
    const rows = await app.session.call("getMembers", conference, place, PAGE).catch((error) => {
      if (error.code === PAST_THE_END) return [];
      throw error;
    });
    place += rows.length;
    more.hidden = rows.length < PAGE;
    const how = (type) => `${type[0] === "1" ? ", invited" : ""}${type[1] === "1" ? ", passive" : ""}`;
    list.append(...rows.map(({ person, added, type }) => el("li", {}, nameLink(club, person), " ",
      el("span", { class: "hint" }, "since ", momentOf(added), how(type)))));
  }

  await Promise.all([show(), club.names.ask(conference)]);
  return {
    name: "list",
    title: "Members",
    node: el("div", {}, heading("Members of ", nameOf(club, conference)),
      el("p", {}, link(`conference/${conference}`, "The conference")),
      list, more,
      el("details", {}, el("summary", {}, "Invite somebody"),
        finder(app, { label: "Whom?", conferences: false, chosen: (person, name) => app.try(
          () => app.session.call("addMember", conference, person, PRIORITY, LAST_PLACE, "00000000"), `${name} is invited.`) }))),
  };
}
