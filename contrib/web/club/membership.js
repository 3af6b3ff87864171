// One membership: what is read of a conference, and which texts are not.

import { Ranges } from "./ranges.js";

const INVITATION = 0;
const PASSIVE = 1;

export class Membership {
  /** Unread texts that are known, by rising local numbers: { local, text }. */
  #unread = [];
  /** The unread local numbers below this one are all known. */
  #mappedTo;
  /** Whether the conference had no further texts when it was last asked. */
  #complete = false;
  /** The highest local number of the conference, or null while that is not known. */
  highest = null;

  constructor(row) {
    this.conference = row.conference;
    this.position = row.position;
    this.priority = row.priority;
    this.type = row.type;
    this.read = new Ranges(row.ranges);
    this.#mappedTo = this.read.firstMissing(1);
  }

  get passive() {
    return this.type[PASSIVE] === "1";
  }

  get invitation() {
    return this.type[INVITATION] === "1";
  }

  /** Whether all unread texts are known. */
  get complete() {
    return this.#complete;
  }

  /** The local number from which texts are to be asked for next. */
  get asksFrom() {
    return this.read.firstMissing(this.#mappedTo);
  }

  /** How many texts are unread: exactly, if all are known; else at most. Null if nothing is known yet. */
  get unread() {
    if (this.passive) return 0;
    if (this.#complete) return this.#unread.length;
    if (this.highest === null) return null;
    return this.#unread.length + this.read.missing(this.#mappedTo, this.highest);
  }

  /** The text of the least unread local number that is known, or 0. */
  get first() {
    return this.#unread[0]?.text ?? 0;
  }

  /** The server tells that nothing is unread. */
  takeAllRead() {
    this.#complete = true;
  }

  /** Takes what a conference told of its texts from `asksFrom` on. */
  takeMapping({ end, more, pairs }) {
    for (const { local, text } of pairs) this.#insert(local, text);
    this.#mappedTo = Math.max(this.#mappedTo, end);
    this.highest = Math.max(this.highest ?? 0, end - 1);
    this.#complete = !more;
  }

  #insert(local, text) {
    if (text === 0 || this.read.has(local)) return;
    let place = this.#unread.length;
    while (place > 0 && this.#unread[place - 1].local > local) place -= 1;
    if (this.#unread[place - 1]?.local !== local) this.#unread.splice(place, 0, { local, text });
  }

  /** A text has come to the conference. */
  takeText(local, text) {
    this.highest = Math.max(this.highest ?? 0, local);
    if (!this.#complete) return;
    this.#insert(local, text);
    this.#mappedTo = Math.max(this.#mappedTo, local + 1);
  }

  /** A text is read. */
  mark(local) {
    this.read.add(local);
    this.#forget((each) => each.local === local);
  }

  /** A text is not read any more. */
  unmark(local, text) {
    this.read.remove(local);
    if (this.#complete || local < this.#mappedTo) this.#insert(local, text);
  }

  /** A text is in the conference no more. */
  drop(text) {
    this.#forget((each) => each.text === text);
  }

  #forget(is) {
    const place = this.#unread.findIndex(is);
    if (place >= 0) this.#unread.splice(place, 1);
  }
}

/** The order in which conferences are read: by priority, then by their places. */
export const inOrder = (one, other) => other.priority - one.priority || one.position - other.position;
