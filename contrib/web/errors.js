// What went wrong, as sentences.

import { Gone } from "./connection.js";
import { NotLatin1 } from "./letters.js";
import { Refused } from "./protocol/answers.js";

const WORDS = {
  2: () => "This server does not know that call.",
  4: () => "That is not the password.",
  5: (status) => `That is too long: ${status.toLocaleString("en")} bytes at most.`,
  6: () => "You are not logged in any more.",
  9: (status) => `Conference ${status} is not there.`,
  10: (status) => `Person ${status} is not there.`,
  11: (status, name) => `You may not read, write to or join ${name(status)}.`,
  12: () => "You may not do that.",
  13: (status, name) => `There is no such membership in ${name(status)}.`,
  14: (status) => `Text ${status} is not there, or is not for you to read.`,
  18: () => "That is no name: it wants a word outside of parentheses.",
  19: () => "There are not so many.",
  20: () => "A conference has that name already.",
  21: () => "A person has that name already.",
  27: (status, name) => `${name(status)} has the text already.`,
  28: (status) => `The text is a comment to text ${status} already.`,
  29: (status) => `The text is a footnote to text ${status} already.`,
  33: () => "A text may not have more recipients.",
  34: (status) => `Text ${status} may not have more comments.`,
  35: (status) => `Text ${status} may not have more footnotes.`,
  36: () => "You may not mark more texts.",
  37: () => "You are not its author.",
  39: () => "The server is out of memory. Nothing was changed; try again later.",
  44: () => "The text has no mark of yours.",
  45: () => "There is no room for more of these.",
  46: () => "That is too much at once.",
  53: (status, name) => `${status === 0 ? "Nobody" : name(status)} is not there to hear it.`,
  54: () => "The conference takes no secret memberships.",
};

/** A sentence on an error; `name` tells the name of a conference by its number. */
export function sentenceOn(error, name = (number) => `conference ${number}`) {
  if (error instanceof Refused) {
    const words = WORDS[error.code];
    return words ? words(error.status, name) : `The server refused that: error ${error.code}, ${error.status}.`;
  }
  if (error instanceof Gone || error instanceof NotLatin1) return error.message;
  if (error instanceof RangeError) return "That is no number here.";
  console.error(error);
  return "Something went wrong in this page. Reload it; your drafts are kept.";
}
