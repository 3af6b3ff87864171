// The records of Protocol A, field by field as they stand on the wire.

import { array, bits, integer, record, string, truth } from "./shapes.js";

const DAY = 86_400_000;

/** A moment, as milliseconds since 1970 in UTC. */
export const time = {
  read(from) {
    const [second, minute, hour, day, month, year] = Array.from({ length: 6 }, () => from.integer());
    from.integer();
    from.integer();
    truth.read(from);
    return Date.UTC(year + 1900, month, day, hour, minute, second);
  },
  write(to, value) {
    const at = new Date(value);
    const year = at.getUTCFullYear();
    const dayOfYear = Math.floor((value - Date.UTC(year, 0, 1)) / DAY);
    const words = [at.getUTCSeconds(), at.getUTCMinutes(), at.getUTCHours(), at.getUTCDate(),
      at.getUTCMonth(), year - 1900, at.getUTCDay(), dayOfYear, 0];
    for (const word of words) integer.write(to, word);
  },
};

export const auxItem = record({
  number: integer, tag: integer, creator: integer, created: time, flags: bits(8), inheritLimit: integer,
  data: string,
});

export const auxItemInput = record({ tag: integer, flags: bits(8), inheritLimit: integer, data: string });

/** Kinds of misc-infos. */
export const TO = 0;
export const COPY = 1;
export const COMMENT_TO = 2;
export const COMMENT_IN = 3;
export const FOOTNOTE_TO = 4;
export const FOOTNOTE_IN = 5;
export const LOCAL = 6;
export const BLIND_COPY = 15;
const RECEIVED = 7;
const SENT_AT = 9;

/** A tag and its value, which is a moment for two tags. */
export const miscInfo = {
  read(from) {
    const tag = integer.read(from);
    return { tag, value: tag === RECEIVED || tag === SENT_AT ? time.read(from) : integer.read(from) };
  },
  write(to, { tag, value }) {
    integer.write(to, tag);
    (tag === RECEIVED || tag === SENT_AT ? time : integer).write(to, value);
  },
};

export const textStat = record({
  created: time, author: integer, lines: integer, length: integer, marks: integer,
  misc: array(miscInfo), aux: array(auxItem),
});

export const conference = record({
  name: string, type: bits(8), created: time, lastWritten: time, creator: integer, presentation: integer,
  supervisor: integer, submitters: integer, superConference: integer, notice: integer, nice: integer,
  keepCommented: integer, members: integer, first: integer, texts: integer, expire: integer,
  aux: array(auxItem),
});

export const uconference = record({ name: string, type: bits(8), highest: integer, nice: integer });

/** What a look-up gives; four bits of the type. */
export const found = record({ name: string, type: bits(4), number: integer });

export const person = record({
  user: string, privileges: bits(16), flags: bits(8), lastLogin: time, userArea: integer,
  present: integer, sessions: integer, lines: integer, bytes: integer, read: integer, fetches: integer,
  persons: integer, conferences: integer, firstText: integer, texts: integer, marks: integer,
  memberships: integer,
});

export const readRange = record({ first: integer, last: integer });

export const membership = record({
  position: integer, lastRead: time, conference: integer, priority: integer, ranges: array(readRange),
  addedBy: integer, added: time, type: bits(8),
});

export const member = record({ person: integer, addedBy: integer, added: time, type: bits(8) });

export const mark = record({ text: integer, kind: integer });

const pair = record({ local: integer, text: integer });
const sparse = array(pair);
const dense = array(integer);

/** A part of the texts by local numbers, as pairs. */
export const textMapping = {
  read(from) {
    const mapping = { begin: from.integer(), end: from.integer(), more: truth.read(from), dense: truth.read(from) };
    if (mapping.dense) {
      const first = from.integer();
      const pairs = dense.read(from).map((text, place) => ({ local: first + place, text }));
      return { ...mapping, pairs };
    }
    return { ...mapping, pairs: sparse.read(from) };
  },
  write(to, mapping) {
    integer.write(to, mapping.begin);
    integer.write(to, mapping.end);
    truth.write(to, mapping.more);
    truth.write(to, mapping.dense);
    if (mapping.dense) {
      integer.write(to, mapping.pairs[0].local);
      dense.write(to, mapping.pairs.map(({ text }) => text));
    } else {
      sparse.write(to, mapping.pairs);
    }
  },
};

export const dynamicSession = record({
  session: integer, person: integer, conference: integer, idle: integer, flags: bits(8), doing: string,
});

export const staticSession = record({ user: string, host: string, ident: string, connected: time });

export const version = record({ protocol: integer, software: string, version: string });

export const info = record({
  version: integer, conferencePresentations: integer, personPresentations: integer, notices: integer,
  news: integer, notice: integer, aux: array(auxItem),
});
