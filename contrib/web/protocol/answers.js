// The lines of a server: a greeting, replies, refusals and messages.

import { latin1 } from "./bytes.js";
import { ProtocolError } from "./lines.js";
import { auxItem, textStat } from "./records.js";
import { array, integer, record, string } from "./shapes.js";
import { Reader, Writer } from "./tokens.js";

/** Each message that this page asks for, by its number. */
export const messages = {
  5: { name: "newName", shape: record({ conference: integer, old: string, now: string }) },
  7: { name: "syncing", shape: record({}) },
  8: { name: "left", shape: record({ conference: integer }) },
  9: { name: "login", shape: record({ person: integer, session: integer }) },
  12: { name: "message", shape: record({ recipient: integer, sender: integer, text: string }) },
  13: { name: "logout", shape: record({ person: integer, session: integer }) },
  14: { name: "deletedText", shape: record({ text: integer, stat: textStat }) },
  15: { name: "newText", shape: record({ text: integer, stat: textStat }) },
  16: { name: "newRecipient", shape: record({ text: integer, conference: integer, tag: integer }) },
  17: { name: "lostRecipient", shape: record({ text: integer, conference: integer, tag: integer }) },
  18: { name: "joined", shape: record({ person: integer, conference: integer }) },
  19: { name: "newUserArea", shape: record({ person: integer, old: integer, now: integer }) },
  20: { name: "newPresentation", shape: record({ conference: integer, old: integer, now: integer }) },
  21: { name: "newNotice", shape: record({ conference: integer, old: integer, now: integer }) },
  22: { name: "newItems", shape: record({ text: integer, gone: array(auxItem), come: array(auxItem) }) },
};

/** A call that the server refuses: the error's code and its status. */
export class Refused extends Error {
  constructor(code, status, call) {
    super(`call ${call ?? "?"} is refused with ${code}, ${status}`);
    this.code = code;
    this.status = status;
    this.call = call;
  }
}

/**
 * What a line of the server is. `answerOf` gives the shape of the answer to a reference, and is asked for
 * replies alone.
 */
export function answerOf(line, answerShape) {
  const from = new Reader(line);
  if (from.sign("=")) {
    const reference = from.integer();
    const shape = answerShape(reference);
    const value = shape.read(from);
    from.end();
    return { kind: "reply", reference, value };
  }
  if (from.sign("%")) {
    const [reference, code, status] = [from.integer(), from.integer(), from.integer()];
    from.end();
    return { kind: "refusal", reference, code, status };
  }
  if (from.sign(":")) {
    from.integer();
    const number = from.integer();
    const message = messages[number];
    if (message === undefined) throw new ProtocolError(`message ${number} is unknown`);
    const value = message.shape.read(from);
    from.end();
    return { kind: "message", number, name: message.name, value };
  }
  throw new ProtocolError(`a line begins with ${JSON.stringify(latin1(line.subarray(0, 20)))}`);
}

/** A reply as a line, as a server spells it. Only a check writes replies. */
export function replyLine(reference, shape, value) {
  const to = new Writer();
  to.word(`=${reference}`);
  shape.write(to, value);
  return to.line();
}

/** A message as a line, as a server spells it. Only a check writes messages. */
export function messageLine(number, value) {
  const { shape } = messages[number];
  const to = new Writer();
  to.word(`:${Object.keys(value).length}`);
  to.word(String(number));
  shape.write(to, value);
  return to.line();
}
