// Names of conferences and persons, each asked for once.

import { nameOf } from "../letters.js";

/** Events: `name` with the number and whether it is the first that is known of it. */
export class Names extends EventTarget {
  #session;
  #known = new Map();
  #asked = new Map();

  constructor(session) {
    super();
    this.#session = session;
  }

  /** The name, or null while it is not known. Nobody is 0. */
  known(number) {
    if (number === 0) return "nobody";
    return this.#known.get(number)?.name ?? null;
  }

  /** The bits of the type, or null while they are not known. */
  type(number) {
    return this.#known.get(number)?.type ?? null;
  }

  /** Whether this is the number of a person. */
  isPerson(number) {
    return this.type(number)?.[3] === "1";
  }

  /** Asks for what is known of a conference: its name, type and highest local number. */
  ask(number, hurry = true) {
    if (!this.#asked.has(number)) this.#asked.set(number, this.#load(number, hurry));
    return this.#asked.get(number);
  }

  async #load(number, hurry) {
    try {
      const { name, type, highest } = await this.#session[hurry ? "call" : "callLater"]("getUConference", number);
      this.take(number, nameOf(name), type);
      return { name: nameOf(name), type, highest };
    } catch (error) {
      this.#asked.delete(number);
      if (error.code === undefined) throw error;
      this.take(number, `no. ${number}, which is gone or hidden`, "00000000");
      return null;
    }
  }

  /** Takes a name that came otherwise. */
  take(number, name, type) {
    const before = this.#known.get(number);
    if (before?.name === name && (type === undefined || before.type === type)) return;
    this.#known.set(number, { name, type: type ?? before?.type ?? null });
    this.dispatchEvent(new CustomEvent("name", { detail: { number, first: before === undefined } }));
  }

  /** What was asked before is asked anew when it is wanted: the session is another. */
  forgetAsked() {
    this.#asked.clear();
  }
}
