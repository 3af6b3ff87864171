// A member's session: a connection that comes back by itself, and who is logged in.

import { Connection, Gone } from "./connection.js";
import { fromLatin1 } from "./protocol/bytes.js";
import { Refused } from "./protocol/answers.js";

/** The messages that this page asks for. */
const MESSAGES = [5, 8, 9, 12, 13, 14, 15, 16, 17, 18, 20, 21, 22];
export const CLIENT = "komd-web";
export const CLIENT_VERSION = "1.0";
const LOGIN_FIRST = 6;
const LONGEST_PAUSE = 30_000;
const FULL_AFTER = 2_500;
/** How a WebSocket ends where the server has no place for it, or does not serve. */
const TRY_AGAIN_LATER = 1013;
const NO_PLACE = "The server has no place free, or does not serve just now. Try again later.";

/**
 * Events: `state` whenever `state` changes, `member` when somebody is logged in (again, too), `message`.
 * The states are `stranger` (nobody is logged in), `connecting`, `full` (no answer to the greeting yet), `member` and `gone`.
 * The password stands in this object alone, while somebody is logged in, for logins after a pause.
 */
export class Session extends EventTarget {
  #address;
  #connection = null;
  #password = null;
  #pause = 0;
  #timer = 0;
  #fullTimer = 0;
  /** Whether the connection is there and greeted. */
  #open = false;
  /** Who waits for that. */
  #waiters = [];
  state = "stranger";
  person = 0;
  /** When the next try to connect begins. */
  nextTry = 0;
  /** Whether the last connection ended for want of a place. */
  noPlace = false;

  constructor(address) {
    super();
    this.#address = address;
  }

  #become(state) {
    this.state = state;
    this.dispatchEvent(new Event("state"));
  }

  /** How many calls wait for their answers. */
  get waiting() {
    return this.#connection?.waiting ?? 0;
  }

  /** Connects, now. */
  connect() {
    clearTimeout(this.#timer);
    clearTimeout(this.#fullTimer);
    if (this.state !== "full") this.#become("connecting");
    const connection = new Connection(this.#address, {
      greeted: () => this.#connection === connection && this.#greeted(),
      message: (name, value) => this.#message(name, value),
      gone: (code) => this.#connection === connection && this.#gone(code),
    });
    this.#connection = connection;
    this.#fullTimer = setTimeout(() => this.#become("full"), FULL_AFTER);
  }

  /** Has a connection be there. Whoever only looks at the way in takes nobody's place at the server. */
  ready() {
    if (this.#open) return Promise.resolve();
    return new Promise((resolve, reject) => {
      this.#waiters.push({ resolve, reject });
      if (this.#waiters.length === 1) this.connect();
    });
  }

  async #greeted() {
    clearTimeout(this.#fullTimer);
    this.#open = true;
    this.call("setClientVersion", fromLatin1(CLIENT), fromLatin1(CLIENT_VERSION)).catch(() => undefined);
    if (this.#password === null) {
      this.#pause = 0;
      this.#become("stranger");
      for (const { resolve } of this.#waiters.splice(0)) resolve();
      return;
    }
    try {
      await this.#enter(this.person, this.#password);
    } catch (error) {
      if (error instanceof Refused) this.#forget();
    }
  }

  #gone(code) {
    clearTimeout(this.#fullTimer);
    this.#open = false;
    this.noPlace = code === TRY_AGAIN_LATER;
    if (this.#password === null) {
      this.#connection = null;
      this.#become("stranger");
      for (const { reject } of this.#waiters.splice(0)) reject(new Gone(this.noPlace ? NO_PLACE : undefined));
      return;
    }
    this.#pause = Math.min(this.#pause === 0 ? 500 : this.#pause * 2, LONGEST_PAUSE);
    // Members whose server returns do not all come at once.
    const pause = this.#pause * (0.75 + Math.random() / 2);
    this.nextTry = Date.now() + pause;
    this.#timer = setTimeout(() => this.connect(), pause);
    this.#become("gone");
  }

  #message(name, value) {
    this.dispatchEvent(new CustomEvent("message", { detail: { name, value } }));
  }

  /** Makes a call; a refusal because nobody is logged in any more ends the member's session here too. */
  async call(name, ...values) {
    return this.#watched(this.#connection?.call(name, ...values));
  }

  async callLater(name, ...values) {
    return this.#watched(this.#connection?.callLater(name, ...values));
  }

  async #watched(answer) {
    if (!answer) throw new Gone();
    try {
      return await answer;
    } catch (error) {
      if (error instanceof Refused && error.code === LOGIN_FIRST && this.state === "member") this.#forget();
      throw error;
    }
  }

  async #enter(person, password) {
    const connection = this.#connection;
    await connection.call("login", person, password, false);
    // A login that was on its way when the connection was exchanged counts for nothing.
    if (connection !== this.#connection) throw new Gone();
    this.person = person;
    this.#password = password;
    this.#pause = 0;
    const accepted = this.call("acceptMessages", MESSAGES);
    this.#become("member");
    this.dispatchEvent(new Event("member"));
    await accepted;
  }

  /** Logs in by number and by the password's bytes. Refused where they are wrong. */
  async login(person, password) {
    await this.#enter(person, password);
  }

  /** The password is another one from now on. */
  changePassword(password) {
    this.#password = password;
  }

  #forget() {
    this.#password = null;
    this.person = 0;
    clearTimeout(this.#timer);
    if (this.state !== "stranger") this.#become("stranger");
  }

  /** Logs out, and forgets who it was. */
  async logout() {
    const answer = this.call("logout");
    this.#forget();
    await answer.catch(() => undefined);
    this.#connection?.end();
  }
}
