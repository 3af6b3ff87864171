// The one button and key that goes on: what it does next is written on it.

import { el, many, seldom } from "./dom.js";
import { nameOf } from "./names.js";

export class Prompt {
  #app;
  #asked = 0;
  #going = false;

  constructor(app) {
    this.#app = app;
    this.button = document.getElementById("next");
    this.button.addEventListener("click", () => this.next());
    const update = seldom(() => this.update());
    for (const event of ["unread", "members", "deleted"]) app.club.addEventListener(event, update);
  }

  #words({ what, text, conference, above }, last) {
    const { club } = this.#app;
    if (what === "wait") return ["Nothing is unread. New texts are told as they come."];
    if (what === "comment") return [above === last ? "Read the next comment" : `Read the next comment to text ${above}`];
    const count = club.membership(conference)?.unread;
    const name = conference === club.me ? "your letters" : nameOf(club, conference);
    if (what === "go") return ["Go to ", name, count ? ` (${count} unread)` : ""];
    return ["Read the next text in ", name, count ? ` (${count} unread)` : ""];
  }

  /** Finds out what comes next, and says so. */
  async update() {
    const { club, session } = this.#app;
    if (session.state !== "member" || this.#going) return;
    this.#asked += 1;
    const asked = this.#asked;
    try {
      const next = await club.next();
      if (asked !== this.#asked) return;
      this.button.replaceChildren(el("span", {}, ...this.#words(next, club.order.last)), el("kbd", {}, "Space"));
      this.button.toggleAttribute("aria-disabled", next.what === "wait");
      this.button.classList.toggle("nothing", next.what === "wait");
    } catch (error) {
      if (error.code !== undefined) this.#app.fail(error);
    }
  }

  /** Goes on. */
  async next() {
    const { club } = this.#app;
    if (this.#going) return;
    this.#going = true;
    try {
      const next = await club.next();
      if (next.what === "wait") {
        this.#app.say("Nothing is unread.");
        return;
      }
      if (next.what === "go") {
        const count = club.membership(next.conference)?.unread ?? 0;
        this.#app.announce(`${club.names.known(next.conference) ?? "Another conference"}: ${many(count, "unread text")}`);
      }
      club.wentOn(next);
      this.#app.go(`text/${next.text}`);
    } catch (error) {
      this.#app.fail(error);
    } finally {
      this.#going = false;
      this.update();
    }
  }
}
