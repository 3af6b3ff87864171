// The club as a member sees it: memberships, what is unread, what comes next, and what is told meanwhile.

import { messageOf, nameOf } from "../letters.js";
import { BLIND_COPY, COPY, LOCAL, TO } from "../protocol/records.js";
import { Drafts } from "./drafts.js";
import { inOrder, Membership } from "./membership.js";
import { Names } from "./names.js";
import { answersOf, Order } from "./order.js";
import { Texts } from "./texts.js";

const BLOCK = 255;
const CHUNK = 500;
/** So many blocks of a conference are asked for before somebody comes to read them. */
const BLOCKS_AHEAD = 20;
const LONG_ARRAY = 46;
const NO_ACCESS = 11;
const NO_SUCH_TEXT = 14;
const RECIPIENTS = [TO, COPY, BLIND_COPY];
const MESSAGES_KEPT = 500;
const MARK = 100;

/** The recipients of a text with their local numbers: { conference, tag, local }. */
export function recipientsOf(stat) {
  const recipients = [];
  for (const { tag, value } of stat.misc) {
    if (RECIPIENTS.includes(tag)) recipients.push({ conference: value, tag, local: 0 });
    else if (tag === LOCAL) recipients.at(-1).local = value;
  }
  return recipients;
}

/**
 * Events: `unread` when any count may be another, with the conference or 0; `members` when memberships came or
 * went; `entered` after a login, again too; `text`, `deleted`, `message`, `joined`, `presence`, `presentation`
 * with what was told.
 */
export class Club extends EventTarget {
  me = 0;
  messages = [];
  /** What is being done that takes its time: { done, all }, or null. */
  progress = null;
  #memberships = new Map();
  /** The same in the order of reading, or null where that is to be found anew. */
  #sorted = null;
  /** Texts that were found to be gone. */
  #gone = new Set();
  /** The texts that the member has marked. */
  marked = new Set();
  /** Read marks that the server has not answered: by conference, local numbers. */
  #marks = new Map();
  /** Each login makes what was begun before it void. */
  #visit = 0;
  #tabs = null;

  constructor(session) {
    super();
    this.session = session;
    this.names = new Names(session);
    this.texts = new Texts(session);
    this.drafts = new Drafts();
    this.order = new Order(this);
    session.addEventListener("member", () => this.#enter(true).catch(console.error));
    session.addEventListener("message", ({ detail }) => this.#told(detail.name, detail.value));
    this.names.addEventListener("name", ({ detail }) => this.#tell("unread", detail.number));
    if (globalThis.BroadcastChannel) {
      this.#tabs = new BroadcastChannel("kom-read");
      this.#tabs.onmessage = ({ data }) => this.#otherTab(data);
    }
  }

  #tell(event, detail) {
    this.dispatchEvent(new CustomEvent(event, { detail }));
  }

  // Memberships.

  /** All memberships, in the order of reading. */
  get memberships() {
    this.#sorted ??= [...this.#memberships.values()].sort(inOrder);
    return this.#sorted;
  }

  membership(conference) {
    return this.#memberships.get(conference) ?? null;
  }

  /** How many texts are unread in all, as far as it is known. */
  get unread() {
    let sum = 0;
    for (const membership of this.#memberships.values()) sum += membership.unread ?? 0;
    return sum;
  }

  /** Asks the server anew what is read: the member may have read elsewhere. */
  refresh() {
    this.#enter(false).catch(console.error);
  }

  async #enter(anew) {
    this.#visit += 1;
    const visit = this.#visit;
    const { person } = this.session;
    if (person !== this.me) {
      this.order = new Order(this);
      this.messages = [];
      this.#marks.clear();
      this.#memberships.clear();
      this.#sorted = null;
    }
    this.me = person;
    this.drafts.person = person;
    if (anew) this.texts.forgetAll();
    this.names.forgetAsked();
    try {
      await this.#loadMemberships(visit);
      if (visit !== this.#visit) return;
      this.#sendMarks();
      if (anew && this.order.conference !== 0) this.#visitConference();
      if (anew) this.#tell("entered");
      this.#tell("members");
      this.#tell("unread", 0);
      await this.#mapAhead(visit);
    } catch (error) {
      if (error.code !== undefined) throw error;
    }
  }

  async #loadMemberships(visit) {
    const { session, me } = this;
    const [unread, { memberships }, own, marks] = await Promise.all([
      session.call("getUnread", me), session.call("getPerson", me), this.names.ask(me), session.call("getMarks")]);
    this.marked = new Set(marks.map(({ text }) => text));
    const rows = await this.#membershipRows(me, 0, memberships);
    if (visit !== this.#visit) return;
    this.#memberships = new Map(rows.map((row) => [row.conference, new Membership(row)]));
    this.#sorted = null;
    for (const [conference, locals] of this.#marks) {
      for (const local of locals) this.#memberships.get(conference)?.mark(local);
    }
    if (own && this.membership(me)) this.membership(me).highest = own.highest;
    this.#unreadAtFirst = new Set(unread);
    for (const membership of this.#memberships.values()) {
      if (!this.#unreadAtFirst.has(membership.conference)) membership.takeAllRead();
    }
  }

  #unreadAtFirst = new Set();

  async #membershipRows(person, first, count) {
    const calls = [];
    for (let place = first; place < first + count; place += CHUNK) {
      calls.push(this.#someRows(person, place, Math.min(CHUNK, first + count - place)));
    }
    return (await Promise.all(calls)).flat();
  }

  async #someRows(person, first, count) {
    try {
      return await this.session.call("getMemberships", person, first, count, true, 0);
    } catch (error) {
      if (error.code !== LONG_ARRAY || count < 2) throw error;
      const half = count >> 1;
      return (await Promise.all([
        this.#someRows(person, first, half), this.#someRows(person, first + half, count - half)])).flat();
    }
  }

  /** Learns names and what is unread of all memberships, those first that are read first. */
  async #mapAhead(visit) {
    const unread = ({ conference }) => this.#unreadAtFirst.has(conference);
    const all = this.memberships;
    const rows = [...all.filter(unread), ...all.filter((row) => !unread(row))];
    let done = 0;
    this.progress = { done, all: rows.length, what: "Conferences are counted" };
    await Promise.all(rows.map(async (row) => {
      const known = await this.names.ask(row.conference, false);
      if (known) row.highest = Math.max(row.highest ?? 0, known.highest);
      for (let block = 0; block < BLOCKS_AHEAD && !row.complete && !row.passive && row.unread > 0; block += 1) {
        await this.#map(row, "callLater");
      }
      if (visit !== this.#visit) return;
      done += 1;
      this.progress = { ...this.progress, done };
      this.#tell("unread", row.conference);
    }));
    if (visit !== this.#visit) return;
    this.progress = null;
    this.#tell("unread", 0);
  }

  async #map(membership, how = "call") {
    const { conference } = membership;
    try {
      const mapping = await this.session[how]("localToGlobal", conference, membership.asksFrom, BLOCK);
      membership.takeMapping(mapping);
    } catch (error) {
      if (error.code === undefined) throw error;
      // A conference whose texts are not to be read has none that are unread.
      membership.takeMapping({ end: membership.asksFrom, more: false, pairs: [] });
      if (error.code !== NO_ACCESS) console.warn(error.message);
    }
  }

  // What `Order` asks.

  conferences() {
    return this.memberships.filter(({ passive }) => !passive).map(({ conference }) => conference);
  }

  async answersOf(text) {
    const stat = await this.texts.statOrNull(text);
    if (stat === null) return [];
    const answers = answersOf(stat);
    // What is looked at one by one is asked for together.
    for (const answer of answers) this.texts.statOrNull(answer).catch(() => undefined);
    return answers;
  }

  async isUnread(text) {
    if (this.#gone.has(text)) return false;
    const stat = await this.texts.statOrNull(text);
    return stat !== null && this.isUnreadBy(stat);
  }

  /** Whether a text is unread in some conference of the member's. */
  isUnreadBy(stat) {
    return recipientsOf(stat).some(({ conference, local }) => {
      const membership = this.#memberships.get(conference);
      return membership !== undefined && !membership.passive && local > 0 && !membership.read.has(local);
    });
  }

  async firstUnread(conference) {
    const membership = this.#memberships.get(conference);
    while (membership.first === 0 && !membership.complete && membership.unread !== 0) await this.#map(membership);
    return membership.first;
  }

  // Reading.

  /** What comes next, and its text on the way already. A text that is gone meanwhile is passed. */
  async next() {
    for (;;) {
      const next = await this.order.next();
      if (next.what === "wait") return next;
      try {
        await this.texts.load(next.text);
        return next;
      } catch (error) {
        if (error.code !== NO_SUCH_TEXT) throw error;
        this.#gone.add(next.text);
        for (const membership of this.#memberships.values()) membership.drop(next.text);
      }
    }
  }

  /** A text has been shown whole: it is read, in each conference that has it. */
  markRead(stat) {
    const marked = [];
    for (const { conference, local } of recipientsOf(stat)) {
      const membership = this.#memberships.get(conference);
      if (membership === undefined || local === 0 || membership.read.has(local)) continue;
      membership.mark(local);
      this.#marks.set(conference, [...(this.#marks.get(conference) ?? []), local]);
      marked.push([conference, local]);
    }
    if (marked.length === 0) return;
    this.#tabs?.postMessage({ person: this.me, marked });
    this.#sendMarks();
    for (const [conference] of marked) this.#tell("unread", conference);
  }

  #sendMarks() {
    for (const [conference, locals] of this.#marks) {
      for (let place = 0; place < locals.length; place += 1000) {
        const some = locals.slice(place, place + 1000);
        const done = () => this.#marked(conference, some);
        this.session.call("markAsRead", conference, some).then(done, (error) => error.code !== undefined && done());
      }
    }
  }

  #marked(conference, locals) {
    const left = (this.#marks.get(conference) ?? []).filter((local) => !locals.includes(local));
    if (left.length > 0) this.#marks.set(conference, left);
    else this.#marks.delete(conference);
  }

  #otherTab({ person, marked, unmarked }) {
    if (person !== this.me) return;
    for (const [conference, local] of marked ?? []) this.#memberships.get(conference)?.mark(local);
    for (const [conference, local, text] of unmarked ?? []) this.#memberships.get(conference)?.unmark(local, text);
    for (const [conference] of marked ?? unmarked) this.#tell("unread", conference);
  }

  /** Marks a text to remember it, or drops the mark. */
  async setMark(text, on) {
    await (on ? this.session.call("markText", text, MARK) : this.session.call("unmarkText", text));
    if (on) this.marked.add(text);
    else this.marked.delete(text);
    this.texts.forgetStat(text);
  }

  /** A text is to be unread again. */
  async markUnread(text) {
    const unmarked = recipientsOf(await this.texts.stat(text))
      .filter(({ conference, local }) => local > 0 && this.#memberships.has(conference))
      .map(({ conference, local }) => [conference, local, text]);
    await Promise.all(unmarked.map(([conference, local]) => this.session.call("markAsUnread", conference, local)));
    for (const [conference, local] of unmarked) this.#memberships.get(conference).unmark(local, text);
    this.#tabs?.postMessage({ person: this.me, unmarked });
    this.#tell("unread", 0);
  }

  /** All answers below a text are read, unseen: how many they were. */
  async skipBelow(text) {
    const seen = new Set([text]);
    let level = await this.answersOf(text);
    let count = 0;
    while (level.length > 0) {
      const stats = await Promise.all(level.map((each) => this.texts.statOrNull(each)));
      const below = [];
      stats.forEach((stat, place) => {
        seen.add(level[place]);
        if (stat === null) return;
        if (this.isUnreadBy(stat)) count += 1;
        this.markRead(stat);
        below.push(...answersOf(stat));
      });
      level = [...new Set(below)].filter((each) => !seen.has(each));
    }
    return count;
  }

  /** All but the last texts of a conference are read; of these so many are not. */
  async keepUnread(conference, count) {
    await this.session.call("setUnread", conference, count);
    await this.#reload(conference);
  }

  /** Asks the server anew what of a conference is read. */
  async #reload(conference) {
    const [row, known] = await Promise.all([
      this.session.call("queryRead", this.me, conference, true, 0), this.session.call("getUConference", conference)]);
    const membership = new Membership(row);
    membership.highest = known.highest;
    this.names.take(conference, nameOf(known.name), known.type);
    this.#memberships.set(conference, membership);
    this.#sorted = null;
    if (!membership.passive) await this.#map(membership);
    this.#tell("members");
    this.#tell("unread", conference);
  }

  /** Goes to a conference, of which the member is one. */
  goTo(conference) {
    this.order.goTo(conference);
    this.#visitConference();
    this.#tell("unread", conference);
  }

  #visitConference() {
    this.session.call("changeConference", this.order.conference).catch(() => undefined);
  }

  /** The reader goes on to what `next` gave. */
  wentOn(next) {
    const before = this.order.conference;
    this.order.wentOn(next);
    if (this.order.conference !== before) this.#visitConference();
  }

  // Joining and leaving.

  /** Joins a conference, or changes priority and place of a membership. */
  async join(conference, priority = 100, position = this.#memberships.size) {
    const type = this.membership(conference)?.type ?? "00000000";
    await this.session.call("addMember", conference, this.me, priority, position, type);
    await this.#reload(conference);
    if (!this.order.conference) this.#tell("unread", conference);
  }

  async leave(conference) {
    await this.session.call("removeMember", conference, this.me);
    this.#left(conference);
  }

  #left(conference) {
    this.#memberships.delete(conference);
    this.#sorted = null;
    if (this.order.conference === conference) this.order.conference = 0;
    this.#tell("members");
    this.#tell("unread", 0);
  }

  async setMembershipType(conference, type) {
    await this.session.call("setMembershipType", this.me, conference, type);
    await this.#reload(conference);
  }

  // What is told meanwhile.

  #told(name, value) {
    const told = {
      newName: ({ conference, now }) => this.names.take(conference, nameOf(now)),
      left: ({ conference }) => this.#left(conference),
      joined: ({ conference }) => this.#reload(conference).then(() => this.#tell("joined", conference)).catch(() => undefined),
      login: () => this.#tell("presence", value),
      logout: () => this.#tell("presence", value),
      message: () => this.#takeMessage(value),
      deletedText: () => this.#takeDeleted(value),
      newText: () => this.#takeText(value),
      newRecipient: () => this.#takeRecipient(value),
      lostRecipient: () => this.#takeLost(value),
      newItems: ({ text }) => this.texts.forgetStat(text),
      newPresentation: () => this.#tell("presentation", value),
      newNotice: () => this.#tell("presentation", value),
    }[name];
    told?.(value);
  }

  #takeMessage({ recipient, sender, text }) {
    const message = { recipient, sender, text: messageOf(text), at: Date.now() };
    this.messages = [...this.messages, message].slice(-MESSAGES_KEPT);
    this.#tell("message", message);
  }

  /** A message of the member's own, for the list of what was said. */
  keepMessage(recipient, text) {
    const message = { recipient, sender: this.me, text, at: Date.now() };
    this.messages = [...this.messages, message].slice(-MESSAGES_KEPT);
  }

  async #takeText({ text, stat }) {
    await this.texts.take(text, stat);
    for (const { conference, local } of recipientsOf(stat)) {
      const membership = this.#memberships.get(conference);
      if (membership === undefined || local === 0) continue;
      // What the member writes is read as it is written.
      if (stat.author === this.me) membership.read.add(local);
      membership.takeText(local, text);
      this.#tell("unread", conference);
    }
    this.#tell("text", { text, stat });
  }

  #takeDeleted({ text, stat }) {
    this.texts.forget(text);
    for (const { conference } of recipientsOf(stat)) {
      this.#memberships.get(conference)?.drop(text);
      this.#tell("unread", conference);
    }
    this.#tell("deleted", { text });
  }

  async #takeRecipient({ text, conference }) {
    this.texts.forgetStat(text);
    const stat = await this.texts.statOrNull(text).catch(() => null);
    if (stat === null) return;
    const row = recipientsOf(stat).find((each) => each.conference === conference);
    if (row) this.#memberships.get(conference)?.takeText(row.local, text);
    this.#tell("unread", conference);
  }

  #takeLost({ text, conference }) {
    this.texts.forgetStat(text);
    this.#memberships.get(conference)?.drop(text);
    this.#tell("unread", conference);
  }
}
