// The lines of a stream, however it is cut. A line feed inside a counted string ends no line.

import { joined } from "./bytes.js";

const LINE_FEED = 10;
const H = 72;
const ZERO = 48;
const NINE = 57;
/** No line of a server is longer than its longest reply. */
export const LONGEST_LINE = 4_194_304;

/** What departs from the protocol. The connection is of no use any more. */
export class ProtocolError extends Error {}

/** Takes a stream in pieces and gives its lines. Each byte is looked at once, those of strings not at all. */
export class Splitter {
  #pieces = [];
  #length = 0;
  #inString = 0;
  /** What the digits directly before this place spell, or -1 where there are none. */
  #number = -1;

  /** The lines that this piece completes, each without its line feed. */
  push(piece) {
    const lines = [];
    let begin = 0;
    let place = 0;
    while (place < piece.length) {
      if (this.#inString > 0) {
        const step = Math.min(this.#inString, piece.length - place);
        this.#inString -= step;
        place += step;
        continue;
      }
      const byte = piece[place];
      place += 1;
      if (byte >= ZERO && byte <= NINE) {
        this.#number = Math.max(this.#number, 0) * 10 + byte - ZERO;
      } else {
        if (byte === H && this.#number >= 0) {
          if (this.#number > LONGEST_LINE) throw new ProtocolError("a string is too long");
          this.#inString = this.#number;
        } else if (byte === LINE_FEED) {
          this.#pieces.push(piece.subarray(begin, place - 1));
          lines.push(joined(this.#pieces));
          this.#pieces = [];
          this.#length = 0;
          begin = place;
        }
        this.#number = -1;
      }
    }
    if (begin < piece.length) {
      this.#pieces.push(piece.subarray(begin));
      this.#length += piece.length - begin;
      if (this.#length > LONGEST_LINE) throw new ProtocolError("a line is too long");
    }
    return lines;
  }
}
