// The tokens of one line: read from the left, or written one behind the other.

import { fromLatin1, joined, latin1 } from "./bytes.js";
import { ProtocolError } from "./lines.js";

const SPACE = 32;
const H = 72;
const ZERO = 48;
const NINE = 57;
const LARGEST = 4_294_967_295;
const LINE_FEED = new Uint8Array([10]);
const ONE_SPACE = new Uint8Array([SPACE]);

/** Reads the tokens of a line. What is not there as it should be is a ProtocolError. */
export class Reader {
  #line;
  #place;

  constructor(line, place = 0) {
    this.#line = line;
    this.#place = place;
  }

  #fault(wanted) {
    const near = latin1(this.#line.subarray(this.#place, this.#place + 20));
    return new ProtocolError(`${wanted} is wanted at ${this.#place}, where ${JSON.stringify(near)} is`);
  }

  #skip() {
    while (this.#line[this.#place] === SPACE) this.#place += 1;
  }

  /** The digits that come next, as letters. */
  #digits(wanted) {
    this.#skip();
    const begin = this.#place;
    while (this.#line[this.#place] >= ZERO && this.#line[this.#place] <= NINE) this.#place += 1;
    if (this.#place === begin) throw this.#fault(wanted);
    return latin1(this.#line.subarray(begin, this.#place));
  }

  integer() {
    const digits = this.#digits("an integer");
    const value = Number(digits);
    if (digits.length > 10 || value > LARGEST) throw this.#fault("a smaller integer");
    return value;
  }

  /** Bits, as many as one of these counts. */
  bits(...counts) {
    const digits = this.#digits("bits");
    if (!counts.includes(digits.length) || /[^01]/.test(digits)) throw this.#fault(`${counts} bits`);
    return digits;
  }

  string() {
    const length = this.integer();
    const begin = this.#place + 1;
    if (this.#line[this.#place] !== H || begin + length > this.#line.length) throw this.#fault("a string");
    this.#place = begin + length;
    return this.#line.subarray(begin, this.#place);
  }

  /** Takes this sign, one of { } * = % :, if it comes next. */
  sign(letter) {
    this.#skip();
    const there = this.#line[this.#place] === letter.charCodeAt(0);
    if (there) this.#place += 1;
    return there;
  }

  /** Takes this sign, which must come next. */
  wants(letter) {
    if (!this.sign(letter)) throw this.#fault(letter);
  }

  /** Nothing may follow. */
  end() {
    this.#skip();
    if (this.#place !== this.#line.length) throw this.#fault("the end of the line");
  }
}

/** Writes tokens, a space between any two, and gives the line. */
export class Writer {
  #pieces = [];

  word(text) {
    if (this.#pieces.length > 0) this.#pieces.push(ONE_SPACE);
    this.#pieces.push(fromLatin1(text));
  }

  string(bytes) {
    this.word(`${bytes.length}H`);
    this.#pieces.push(bytes);
  }

  /** The line, with its line feed. */
  line() {
    return joined([...this.#pieces, LINE_FEED]);
  }
}
