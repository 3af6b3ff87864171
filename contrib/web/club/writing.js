// Writing texts: what a draft begins with, and how it is sent so that it is written once.

import { bytesOfText } from "../letters.js";
import { Gone } from "../connection.js";
import { fromLatin1, same } from "../protocol/bytes.js";
import { COMMENT_TO, FOOTNOTE_TO, TO } from "../protocol/records.js";
import { CLIENT, CLIENT_VERSION } from "../session.js";
import { recipientsOf } from "./club.js";

const CONTENT_TYPE = 1;
const CREATING_SOFTWARE = 15;
const NO_FLAGS = "00000000";
const BLOCK = 255;
const WHOLE = 4_294_967_295;

/** The connection went while a text was sent. `attempt` is what `wasWritten` wants. */
export class Unsure extends Error {
  constructor(attempt) {
    super("The connection went while the text was sent.");
    this.attempt = attempt;
  }
}

const draft = (to, more = {}) => ({ to, comments: [], footnotes: [], subject: "", body: "", ...more });
const recipient = (number, tag = TO) => ({ number, tag });

/**
 * What is begun by a key: `text-C` to a conference, `letter-P` to a person, `comment-T`, `footnote-T` and
 * `reply-T` (to its author alone) to a text, `presentation-C` and `notice-C` of a conference.
 */
export async function draftOf(club, key) {
  const [kind, words] = key.split("-");
  const number = Number(words);
  if (kind === "letter") return draft([...new Set([number, club.me])].map((each) => recipient(each)));
  if (kind === "comment" || kind === "footnote" || kind === "reply") {
    const { stat, raw } = await club.texts.load(number);
    const subject = raw.subject;
    if (kind === "reply") {
      const to = [...new Set([stat.author, club.me])].map((each) => recipient(each));
      return draft(to, { comments: [number], subject });
    }
    const open = recipientsOf(stat).filter(({ tag }) => tag === TO).map(({ conference }) => recipient(conference));
    const to = open.length > 0 || stat.author === 0 ? open : [recipient(stat.author)];
    return draft(to, kind === "comment" ? { comments: [number], subject } : { footnotes: [number], subject });
  }
  if (kind === "presentation" || kind === "notice") {
    const [{ presentation, notice, type }, info] = await Promise.all([
      club.session.call("getConference", number), club.session.call("getInfo")]);
    const place = type[3] === "1" ? info.personPresentations : info.conferencePresentations;
    const old = kind === "presentation" ? presentation : notice;
    const begun = draft([recipient(kind === "presentation" ? place : info.notices)]);
    await club.names.ask(number);
    begun.subject = club.names.known(number);
    if (old === 0) return begun;
    const text = await club.texts.load(old).catch(() => null);
    return text ? { ...begun, subject: text.raw.subject, body: text.raw.body, comments: [old] } : begun;
  }
  return draft(number === 0 ? [] : [recipient(number)]);
}

/** The bytes of a draft and the aux-items that go with them. */
function contentOf({ subject, body }) {
  const { bytes, utf8 } = bytesOfText(`${subject.replaceAll("\n", " ")}\n${body}`);
  const item = (tag, data) => ({ tag, flags: NO_FLAGS, inheritLimit: 0, data: fromLatin1(data) });
  const items = [item(CREATING_SOFTWARE, `${CLIENT} ${CLIENT_VERSION}`)];
  if (utf8) items.push(item(CONTENT_TYPE, "text/plain;charset=utf-8"));
  return { bytes, items };
}

/** Sends a draft: the number of the text. Unsure where the connection goes meanwhile. */
export async function write(club, sent) {
  const { session } = club;
  const { bytes, items } = contentOf(sent);
  const misc = [
    ...sent.to.map(({ number, tag }) => ({ tag, value: number })),
    ...sent.comments.map((value) => ({ tag: COMMENT_TO, value })),
    ...sent.footnotes.map((value) => ({ tag: FOOTNOTE_TO, value })),
  ];
  let from = null;
  try {
    const before = session.call("getPerson", club.me).then(({ firstText, texts }) => {
      from = firstText + texts;
    });
    const [, number] = await Promise.all([before, session.call("createText", bytes, misc, items)]);
    await read(club, number);
    return number;
  } catch (error) {
    if (error instanceof Gone) throw new Unsure({ bytes, from });
    throw error;
  }
}

/** What the member has written is read. */
async function read(club, number) {
  try {
    club.texts.forgetStat(number);
    club.markRead(await club.texts.stat(number));
  } catch {
    // Whoever may not read what they wrote has no mark to set.
  }
}

/** After the connection is back: the number under which a text was written all the same, or 0. */
export async function wasWritten(club, { bytes, from }) {
  const { session } = club;
  const { firstText, texts } = await session.call("getPerson", club.me);
  const begin = Math.max(from ?? firstText + texts - 3, 1);
  const { pairs } = await session.call("createdTexts", club.me, begin, BLOCK);
  for (const { text } of pairs) {
    const there = await session.call("getText", text, 0, WHOLE).catch(() => null);
    if (there !== null && same(there, bytes)) {
      await read(club, text);
      return text;
    }
  }
  return 0;
}
