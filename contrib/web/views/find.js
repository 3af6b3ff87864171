// Looking for conferences, persons and texts.

import { nameOf } from "../letters.js";
import { button, el, field, heading, letters, link, many } from "./dom.js";
import { finder } from "./finder.js";

const SHOWN = 200;

export async function findView(app) {
  const { club } = app;
  const number = el("input", { inputmode: "numeric", pattern: "[0-9]+", autocomplete: "off", required: true });
  const all = el("div", {});
  let shown = SHOWN;

  async function listAll() {
    const rows = await app.session.call("lookUp", new Uint8Array(), false, true);
    const named = rows.map((row) => ({ number: row.number, name: nameOf(row.name) }));
    named.sort((one, other) => one.name.localeCompare(other.name));
    const show = () => all.replaceChildren(
      el("h2", {}, many(named.length, "conference")),
      el("ul", { class: "rows" }, named.slice(0, shown).map((each) => el("li", {},
        link(`conference/${each.number}`, letters(each.name)), " ",
        el("span", { class: "hint" }, club.membership(each.number) ? "member" : "")))),
      named.length > shown ? button("Show more", () => {
        shown += SHOWN;
        show();
      }) : "");
    show();
  }

  return {
    name: "find",
    title: "Find",
    node: el("div", {}, heading("Find"),
      finder(app, {
        label: "A conference or a person",
        hint: "Beginnings of the words of its name, as “an be” for Anna Berg; or a number.",
        chosen: (found) => app.go(`${club.names.isPerson(found) ? "person" : "conference"}/${found}`),
        clears: false,
      }),
      el("form", { submit: (event) => {
        event.preventDefault();
        app.go(`text/${number.value}`);
      } }, field("A text by its number", number), el("button", { type: "submit" }, "Show it")),
      el("div", { class: "row" },
        button("All conferences", () => app.try(listAll)),
        el("a", { class: "button", href: "#/make" }, "Make a conference")),
      all),
  };
}
