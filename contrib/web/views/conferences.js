// The list of conferences with their counts, beside the text or as the first view.

import { button, el, figure, many, seldom } from "./dom.js";
import { nameOf } from "./names.js";

const ROWS = 60;

/** A list of memberships that keeps up with the counts. */
export class ConferenceList {
  #app;
  #rows = new Map();
  #all;
  /** So many rows are shown: nobody reads two thousand. */
  #most = ROWS;
  #list = el("ul", { class: "counts" });
  #summary = el("p", { class: "summary" });
  #more;
  #toggle;

  constructor(app, all = false) {
    this.#app = app;
    this.#all = all;
    this.#toggle = button("", () => {
      this.#all = !this.#all;
      this.update();
    }, { class: "quiet" });
    this.#more = button("", () => {
      this.#most *= 4;
      this.update();
    }, { class: "quiet" });
    this.node = el("div", {}, this.#summary, this.#list, this.#more, " ", this.#toggle);
    this.update();
  }

  #row(membership) {
    const { club } = this.#app;
    const { conference } = membership;
    let row = this.#rows.get(conference);
    if (!row) {
      const count = el("span", { class: "count" });
      const name = conference === club.me ? "Your letters" : nameOf(club, conference);
      const anchor = el("a", { href: `#/conference/${conference}` }, el("span", { class: "name" }, name), " ", count);
      row = { item: el("li", {}, anchor), anchor, count };
      this.#rows.set(conference, row);
    }
    const unread = membership.unread ?? 0;
    row.item.classList.toggle("unread", unread > 0);
    row.item.classList.toggle("passive", membership.passive);
    const words = unread > 0 ? `${unread}` : "";
    if (row.count.textContent !== words) {
      row.count.textContent = words;
      row.count.setAttribute("aria-label", unread > 0 ? `${unread} unread` : "");
    }
    if (club.order.conference === conference) row.anchor.setAttribute("aria-current", "true");
    else row.anchor.removeAttribute("aria-current");
    return row.item;
  }

  update() {
    const { club } = this.#app;
    const all = club.memberships;
    const some = this.#all ? all : all.filter((each) => (each.unread ?? 1) > 0 || each.conference === club.order.conference);
    const items = some.slice(0, this.#most).map((each) => this.#row(each));
    this.#more.hidden = some.length <= this.#most;
    this.#more.textContent = `${figure(some.length - this.#most)} more`;
    const old = this.#list.children;
    if (items.length !== old.length || items.some((item, place) => item !== old[place])) this.#list.replaceChildren(...items);
    const count = club.unread;
    this.#summary.textContent = count > 0 ? `${many(count, "unread text")}` : "Nothing is unread.";
    this.#toggle.textContent = this.#all ? "Those with unread texts" : `All memberships (${figure(all.length)})`;
  }
}

/** The list at the side. */
export class Side {
  constructor(app) {
    const nav = document.getElementById("conferences");
    let list = null;
    const update = seldom(() => list?.update());
    app.club.addEventListener("unread", update);
    app.club.addEventListener("members", update);
    app.club.addEventListener("entered", () => {
      list = new ConferenceList(app);
      nav.replaceChildren(el("h2", {}, "Conferences"), list.node);
    });
  }
}
