// Texts: what they are linked to, and their letters. Some of those seen last are kept.

import { beginningOf, shown, shownInLine, textOf } from "../letters.js";
import { COMMENT_IN, COMMENT_TO, FOOTNOTE_IN, FOOTNOTE_TO } from "../protocol/records.js";

const KEPT_STATS = 5_000;
const KEPT_BODIES = 500;
const WHOLE = 4_294_967_295;
const BEGINNING = 160;
const FRESH = 10_000;
const NO_SUCH_TEXT = 14;

/** A map that forgets what was put in first. */
class Kept extends Map {
  #most;

  constructor(most) {
    super();
    this.#most = most;
  }

  set(key, value) {
    this.delete(key);
    super.set(key, value);
    if (this.size > this.#most) this.delete(this.keys().next().value);
    return this;
  }
}

/** The subject, which is the first line, and the rest. */
function parts(text) {
  const end = text.indexOf("\n");
  return end < 0 ? { subject: text, body: "" } : { subject: text.slice(0, end), body: text.slice(end + 1) };
}

export class Texts {
  #session;
  /** Promises of stats and of bodies. */
  #stats = new Kept(KEPT_STATS);
  #bodies = new Kept(KEPT_BODIES);
  #subjects = new Kept(KEPT_STATS);
  /** When the stats were asked for. */
  #asked = new Kept(KEPT_STATS);

  constructor(session) {
    this.#session = session;
  }

  #keep(map, number, promise) {
    map.set(number, promise);
    promise.catch(() => {
      if (map.get(number) === promise) map.delete(number);
    });
    return promise;
  }

  /** What a text is linked to. Refused where it is not there or not to be read. */
  stat(number) {
    return this.#stats.get(number) ?? this.#askStat(number);
  }

  #askStat(number) {
    this.#asked.set(number, Date.now());
    return this.#keep(this.#stats, number, this.#session.call("getTextStat", number));
  }

  /** Has the stat be asked for anew, unless it was lately: not all that changes it is told. */
  refresh(number) {
    if (Date.now() - (this.#asked.get(number) ?? 0) > FRESH) this.#askStat(number);
  }

  /** The same, or null where the text is not there. */
  async statOrNull(number) {
    try {
      return await this.stat(number);
    } catch (error) {
      if (error.code === NO_SUCH_TEXT) return null;
      throw error;
    }
  }

  #bytes(number) {
    return this.#bodies.get(number) ??
      this.#keep(this.#bodies, number, this.#session.call("getText", number, 0, WHOLE));
  }

  /** A text whole: its number, stat, subject and body as they are shown, and as they were written. */
  async load(number) {
    const [stat, bytes] = await Promise.all([this.stat(number), this.#bytes(number)]);
    const raw = parts(textOf(bytes, stat.aux));
    return { number, stat, subject: shownInLine(raw.subject), body: shown(raw.body), raw, bytes };
  }

  /** The subject of a text, for lists. */
  subject(number) {
    const body = this.#bodies.get(number);
    if (body) return this.load(number).then(({ subject }) => subject);
    return this.#subjects.get(number) ?? this.#keep(this.#subjects, number, this.#loadSubject(number));
  }

  async #loadSubject(number) {
    const [stat, bytes] = await Promise.all([
      this.stat(number), this.#session.call("getText", number, 0, BEGINNING - 1)]);
    const { subject } = parts(beginningOf(bytes, stat.aux, stat.length));
    const cut = stat.length > BEGINNING && bytes.indexOf(10) < 0;
    return shownInLine(subject) + (cut ? "…" : "");
  }

  /** Takes the stat of a text that was told, and lets the texts that it answers know of it. */
  async take(number, stat) {
    this.#stats.set(number, Promise.resolve(stat));
    for (const { tag, value } of stat.misc) {
      const answer = { [COMMENT_TO]: COMMENT_IN, [FOOTNOTE_TO]: FOOTNOTE_IN }[tag];
      const parent = answer === undefined ? undefined : this.#stats.get(value);
      if (!parent) continue;
      const { misc } = await parent.catch(() => ({ misc: [] }));
      if (!misc.some((info) => info.tag === answer && info.value === number)) misc.push({ tag: answer, value: number });
    }
  }

  /** The stat of a text is another; it is asked for anew when it is wanted. */
  forgetStat(number) {
    this.#stats.delete(number);
  }

  /** A text is gone. */
  forget(number) {
    for (const map of [this.#stats, this.#bodies, this.#subjects]) map.delete(number);
  }

  /** Somebody else is logged in, or texts may have changed meanwhile. */
  forgetAll() {
    for (const map of [this.#stats, this.#bodies, this.#subjects]) map.clear();
  }
}
