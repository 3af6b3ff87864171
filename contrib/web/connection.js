// One connection to the server: calls go out as lines, and come back as answers and messages.

import { answerOf, Refused } from "./protocol/answers.js";
import { fromLatin1, joined, latin1 } from "./protocol/bytes.js";
import { calls, lineOf } from "./protocol/calls.js";
import { ProtocolError, Splitter } from "./protocol/lines.js";
import { Writer } from "./protocol/tokens.js";

const USER = "web";
/** So many calls of no hurry are on their way at once; what a member waits for goes before the others. */
const WINDOW = 32;
const BEAT = 45_000;
const PATIENCE = 20_000;

/** The connection ended before an answer came: whether the call was made is not known. */
export class Gone extends Error {
  constructor(words = "The connection to the server is gone.") {
    super(words);
  }
}

/** Speaks with the server at an address. `listener` is told of `greeted`, `message` and `gone(code)`. */
export class Connection {
  #socket;
  #listener;
  #splitter = new Splitter();
  #reference = 0;
  /** Calls that are not answered yet, by their references. */
  #waiting = new Map();
  #out = [];
  /** Calls of no hurry that are not sent yet, and how many are on their way. */
  #later = [];
  #laterSent = 0;
  #greeted = false;
  #ended = false;
  #beat = 0;
  #heard = Date.now();

  constructor(address, listener) {
    this.#listener = listener;
    this.#socket = new WebSocket(address);
    this.#socket.binaryType = "arraybuffer";
    this.#socket.onopen = () => this.#greet();
    this.#socket.onmessage = ({ data }) => this.#take(data);
    this.#socket.onclose = ({ code }) => this.end(code);
  }

  /** How many calls wait for their answers. */
  get waiting() {
    return this.#waiting.size + this.#later.length;
  }

  /** Makes a call by its name, at once. What is called in one go is sent together. */
  call(name, ...values) {
    return new Promise((resolve, reject) => this.#send(name, values, resolve, reject));
  }

  /** Makes a call that can wait behind those that somebody waits for. */
  callLater(name, ...values) {
    return new Promise((resolve, reject) => {
      if (this.#ended) reject(new Gone());
      this.#later.push({ name, values, resolve, reject });
      this.#sendLater();
    });
  }

  #sendLater() {
    while (this.#laterSent < WINDOW && this.#later.length > 0) {
      const { name, values, resolve, reject } = this.#later.shift();
      this.#laterSent += 1;
      const answered = (act) => (value) => {
        this.#laterSent -= 1;
        act(value);
        this.#sendLater();
      };
      try {
        this.#send(name, values, answered(resolve), answered(reject));
      } catch (error) {
        answered(reject)(error);
      }
    }
  }

  #send(name, values, resolve, reject) {
    if (this.#ended) {
      reject(new Gone());
      return;
    }
    const call = calls[name];
    // What cannot be spelled is not waited for.
    const line = lineOf(this.#reference + 1, call, values);
    this.#reference += 1;
    this.#waiting.set(this.#reference, { call, resolve, reject });
    if (this.#out.length === 0) queueMicrotask(() => this.#flush());
    this.#out.push(line);
  }

  #flush() {
    if (!this.#greeted || this.#ended) return;
    this.#socket.send(joined(this.#out));
    this.#out = [];
  }

  #greet() {
    const user = fromLatin1(USER);
    const greeting = new Writer();
    greeting.word(`A${user.length}H${USER}`);
    this.#socket.send(greeting.line());
    this.#beat = setInterval(() => this.#listen(), BEAT);
  }

  /** Asks for something small now and then, so that an end is noticed and nobody between closes the line. */
  #listen() {
    const asked = Date.now();
    if (!this.#greeted) return;
    this.call("whoAmI").catch(() => undefined);
    setTimeout(() => {
      if (this.#heard < asked) this.end();
    }, PATIENCE);
  }

  #take(data) {
    if (this.#ended) return;
    this.#heard = Date.now();
    try {
      for (const line of this.#splitter.push(new Uint8Array(data))) this.#takeLine(line);
    } catch (error) {
      console.error(error);
      this.end();
    }
  }

  #takeLine(line) {
    if (!this.#greeted) {
      // The client's greeting may be answered after an empty line of a door between.
      if (line.length === 0) return;
      if (latin1(line) !== "LysKOM") throw new ProtocolError("the server is no LysKOM");
      this.#greeted = true;
      if (this.#out.length > 0) this.#flush();
      this.#listener.greeted();
      return;
    }
    const answer = answerOf(line, (reference) => {
      const asked = this.#waiting.get(reference);
      if (!asked) throw new ProtocolError(`nothing was asked by ${reference}`);
      return asked.call.answer;
    });
    if (answer.kind === "message") {
      this.#listener.message(answer.name, answer.value);
      return;
    }
    const asked = this.#waiting.get(answer.reference);
    this.#waiting.delete(answer.reference);
    if (answer.kind === "reply") asked.resolve(answer.value);
    else asked.reject(new Refused(answer.code, answer.status, asked.call.number));
  }

  /** Ends the connection, whoever wants it, by a code of WebSockets. What was not answered is told to be so. */
  end(code = 0) {
    if (this.#ended) return;
    this.#ended = true;
    clearInterval(this.#beat);
    this.#socket.onclose = null;
    this.#socket.close();
    const unanswered = [...this.#waiting.values(), ...this.#later];
    this.#waiting.clear();
    this.#later = [];
    for (const { reject } of unanswered) reject(new Gone());
    this.#listener.gone(code);
  }
}
