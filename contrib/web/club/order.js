// What comes next: the comments of what was read before the next text, conference by conference.

import { COMMENT_IN, FOOTNOTE_IN } from "../protocol/records.js";

/** The footnotes and then the comments of a text, each by rising number. */
export function answersOf(stat) {
  const of = (tag) => stat.misc.filter((info) => info.tag === tag).map(({ value }) => value).sort((a, b) => a - b);
  return [...of(FOOTNOTE_IN), ...of(COMMENT_IN)];
}

/**
 * The place of a reader. `club` tells what is unread:
 * `answersOf(text)`, `isUnread(text)`, `firstUnread(conference)` and `conferences()`, which are asked as late as
 * they can be, so that a text which comes meanwhile takes its place.
 */
export class Order {
  #club;
  /** The texts that were read on the way to the last one, each an answer to one before it, mostly. */
  #trail = [];
  /** The conference that is being read, or 0. */
  conference = 0;

  constructor(club) {
    this.#club = club;
  }

  /** The text that was read last, or 0. */
  get last() {
    return this.#trail.at(-1) ?? 0;
  }

  /**
   * The next text with why it is: `footnote` or `comment` (to `above`), `text` of the conference, `go` for the
   * first one of another conference; or `wait` where nothing is unread.
   */
  async next() {
    for (const above of [...this.#trail].reverse()) {
      for (const text of await this.#club.answersOf(above)) {
        if (await this.#club.isUnread(text)) return { what: "comment", text, above };
      }
    }
    const conferences = this.#club.conferences();
    if (this.conference !== 0 && conferences.includes(this.conference)) {
      const text = await this.#club.firstUnread(this.conference);
      if (text !== 0) return { what: "text", text, conference: this.conference };
    }
    for (const conference of conferences) {
      const text = await this.#club.firstUnread(conference);
      if (text !== 0) return { what: "go", text, conference };
    }
    return { what: "wait", text: 0 };
  }

  /** The reader has gone on to what `next` gave. */
  wentOn({ what, text, above, conference }) {
    if (what === "comment") this.#trail.length = this.#trail.lastIndexOf(above) + 1;
    else this.#trail = [];
    if (what === "go") this.conference = conference;
    this.#trail.push(text);
  }

  /** The reader has chosen an unread text: its answers come next, and then what was left. */
  chose(text) {
    this.#trail = this.#trail.filter((each) => each !== text);
    this.#trail.push(text);
  }

  /** The reader goes to a conference. */
  goTo(conference) {
    this.conference = conference;
    this.#trail = [];
  }

  /** Nothing is left of the branch: what is above the text read last, too. */
  leaveBranch() {
    this.#trail = this.#trail.slice(-1);
  }
}
