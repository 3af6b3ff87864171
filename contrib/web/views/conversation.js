// The conversation around a text, as a tree: from its first text on, with the place of the reader.

import { answersOf } from "../club/order.js";
import { COMMENT_TO, FOOTNOTE_TO } from "../protocol/records.js";
import { el, letters, link, many, seldom } from "./dom.js";
import { nameOf } from "./names.js";
import { momentShort } from "./times.js";

const MOST_TEXTS = 300;
const MOST_ABOVE = 60;

export class Conversation {
  #app;
  #current;
  #known = new Set();
  #left = new AbortController();
  #again;
  #list = el("div", {});

  constructor(app, current) {
    this.#app = app;
    this.#current = current;
    this.node = el("nav", { class: "conversation", "aria-label": "Conversation", hidden: true },
      el("h2", {}, "Conversation"), this.#list);
    this.#again = seldom(() => this.load().catch(() => undefined));
    app.club.addEventListener("unread", seldom(() => this.#markUnread()), { signal: this.#left.signal });
  }

  /** The view is left. */
  leave() {
    this.#left.abort();
  }

  /** The first text of the conversation, as far as it can be read. */
  async #root() {
    let text = this.#current;
    const seen = new Set([text]);
    for (let step = 0; step < MOST_ABOVE; step += 1) {
      const stat = await this.#app.club.texts.statOrNull(text);
      const above = stat?.misc.find(({ tag }) => tag === COMMENT_TO || tag === FOOTNOTE_TO)?.value;
      if (above === undefined || seen.has(above) || (await this.#app.club.texts.statOrNull(above)) === null) break;
      seen.add(above);
      text = above;
    }
    return text;
  }

  /** The texts below one, level by level: each with its stat and its answers. */
  async #below(root) {
    const { texts } = this.#app.club;
    const nodes = new Map();
    let level = [root];
    while (level.length > 0 && nodes.size < MOST_TEXTS) {
      const some = level.slice(0, MOST_TEXTS - nodes.size);
      const stats = await Promise.all(some.map((text) => texts.statOrNull(text)));
      const below = [];
      stats.forEach((stat, place) => {
        if (stat === null) return;
        const answers = answersOf(stat).filter((text) => !nodes.has(text) && !some.includes(text) && !below.includes(text));
        nodes.set(some[place], { stat, answers });
        below.push(...answers);
      });
      level = below;
    }
    return nodes;
  }

  /** Finds the conversation, and shows it where there is more than the text itself. */
  async load() {
    const root = await this.#root();
    let nodes = await this.#below(root);
    let first = root;
    if (!nodes.has(this.#current)) {
      nodes = await this.#below(this.#current);
      first = this.#current;
    }
    this.#known = new Set(nodes.keys());
    const { texts } = this.#app.club;
    const subjects = new Map();
    await Promise.all([...nodes.keys()].map(async (text) => subjects.set(text, await texts.subject(text).catch(() => ""))));
    this.node.hidden = nodes.size < 2;
    const more = [...nodes.values()].flatMap(({ answers }) => answers).filter((text) => !nodes.has(text)).length;
    this.#list.replaceChildren(
      el("ul", {}, this.#item(first, nodes, subjects, subjects.get(first), 0)),
      more > 0 ? el("p", { class: "hint" }, `${many(more, "text")} below these are not listed.`) : "");
    this.#markUnread();
    // The list may be long: the reader's place in it is shown, and the page stays where it is.
    const here = this.#list.querySelector("[aria-current]");
    if (here) this.node.scrollTop = here.offsetTop - this.node.clientHeight / 3;
  }

  #item(text, nodes, subjects, above, depth) {
    const { stat, answers } = nodes.get(text);
    const subject = subjects.get(text);
    const current = text === this.#current;
    const label = subject !== above || depth === 0 ? [": ", letters(subject || "(no subject)")] : [];
    const anchor = link(`text/${text}`, nameOf(this.#app.club, stat.author), ...label);
    anchor.dataset.text = text;
    if (current) anchor.setAttribute("aria-current", "true");
    const below = answers.filter((each) => nodes.has(each));
    return el("li", { class: depth > 7 ? "deep" : null },
      el("div", { class: "node" }, anchor, " ", el("span", { class: "when" }, momentShort(stat.created))),
      below.length > 0 ? el("ul", {}, below.map((each) => this.#item(each, nodes, subjects, subject, depth + 1))) : null);
  }

  /** Shows which texts of the tree are unread. */
  async #markUnread() {
    const { club } = this.#app;
    if (!this.node.isConnected) return;
    for (const anchor of this.#list.querySelectorAll("a[data-text]")) {
      const stat = await club.texts.statOrNull(Number(anchor.dataset.text)).catch(() => null);
      const unread = stat !== null && club.isUnreadBy(stat);
      anchor.classList.toggle("unread", unread);
      let words = anchor.querySelector(".unread-words");
      if (unread && !words) anchor.append(el("span", { class: "unread-words" }, " (unread)"));
      else if (!unread && words) words.remove();
    }
  }

  /** A text has come: if it answers one of these, the tree grows. */
  tookText(stat) {
    if (stat.misc.some(({ tag, value }) => (tag === COMMENT_TO || tag === FOOTNOTE_TO) && this.#known.has(value))) this.#again();
  }
}
