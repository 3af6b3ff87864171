// Letters: what bytes of texts, names and messages say, what of it is shown, and what is typed as bytes.

import { fromLatin1, latin1 } from "./protocol/bytes.js";

const CONTENT_TYPE = 1;
const UTF8 = new TextEncoder();
const STRICT = new TextDecoder("utf-8", { fatal: true, ignoreBOM: true });
const LENIENT = new TextDecoder("utf-8", { ignoreBOM: true });
const TAB = 8;

// Controls, halves of a letter, private and missing codes, marks of direction, and ends of lines that are none.
const NOT_SHOWN = /[\p{Cc}\p{Cs}\p{Co}\p{Cn}\u061c\u200e\u200f\u202a-\u202e\u2066-\u2069\u2028\u2029]/gu;

/** A letter that no name, pattern or password may have. */
export class NotLatin1 extends Error {
  constructor(text) {
    const letter = [...text].find((each) => each.codePointAt(0) > 255);
    super(`The letter “${shown(letter)}” cannot stand in a name or a password here.`);
  }
}

function withoutTabs(line) {
  let out = "";
  let column = 0;
  for (const letter of line) {
    const step = letter === "\t" ? TAB - (column % TAB) : 1;
    out += letter === "\t" ? " ".repeat(step) : letter;
    column += step;
  }
  return out;
}

/** The letters that may be shown; `?` in the place of each that steers. Lines stay. */
export function shown(text) {
  return text
    .split("\n")
    .map((line) => (line.includes("\t") ? withoutTabs(line) : line).replace(NOT_SHOWN, "?"))
    .join("\n");
}

/** The same in one line, for subjects and names. */
export const shownInLine = (text) => shown(text.replaceAll("\n", " "));

/** UTF-8 where the bytes are that and have one above 127, else ISO 8859-1. */
function guessed(bytes) {
  if (bytes.every((byte) => byte < 128)) return latin1(bytes);
  try {
    return STRICT.decode(bytes);
  } catch {
    return latin1(bytes);
  }
}

/** The charset that a content-type names, in small letters, or null. */
export function charsetOf(aux) {
  const item = aux.find(({ tag, flags }) => tag === CONTENT_TYPE && flags[0] === "0");
  const named = item && /;\s*charset\s*=\s*"?([^\s";]+)/i.exec(latin1(item.data));
  return named ? named[1].toLowerCase() : null;
}

/** What the bytes of a text say, by its content-type or else by what they are. Nothing is cleaned. */
export function textOf(bytes, aux) {
  const charset = charsetOf(aux);
  if (charset === "utf-8" || charset === "utf8") return LENIENT.decode(bytes);
  if (charset === "iso-8859-1" || charset === "latin1") return latin1(bytes);
  return guessed(bytes);
}

/** These bytes without a letter of UTF-8 at their end that is not whole. */
function withoutCutLetter(bytes) {
  let lead = bytes.length - 1;
  while (lead > bytes.length - 4 && (bytes[lead] & 0xc0) === 0x80) lead -= 1;
  const wants = bytes[lead] >= 0xf0 ? 4 : bytes[lead] >= 0xe0 ? 3 : bytes[lead] >= 0xc0 ? 2 : 1;
  return bytes.length - lead < wants ? bytes.subarray(0, lead) : bytes;
}

/** What the first bytes of a text of so many say. A letter that is cut at their end is left out. */
export function beginningOf(bytes, aux, length) {
  return textOf(bytes.length < length ? withoutCutLetter(bytes) : bytes, aux);
}

/** The name that bytes say, as it is shown: names have no charset of their own. */
export const nameOf = (bytes) => shownInLine(latin1(bytes));

/** The message that bytes say, as it is shown. */
export const messageOf = (bytes) => shown(guessed(bytes));

/** What is typed, in the letters that are kept: whole letters in place of their parts. */
const whole = (typed) => typed.normalize("NFC");

/** The bytes of a text that is typed, and whether they are UTF-8 by will. */
export function bytesOfText(typed) {
  const text = whole(typed);
  const bytes = fromLatin1(text);
  if (bytes !== null && guessed(bytes) === text) return { bytes, utf8: false };
  return { bytes: UTF8.encode(text), utf8: true };
}

/** The bytes of a message that is typed. */
export const bytesOfMessage = (typed) => bytesOfText(typed).bytes;

/** The bytes of a name, a pattern or a password that is typed; NotLatin1 where a letter does not fit. */
export function bytesOfName(typed) {
  const text = whole(typed);
  const bytes = fromLatin1(text);
  if (bytes === null) throw new NotLatin1(text);
  return bytes;
}
