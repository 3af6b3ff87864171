// A shape says how a value is read from a line and how it is written there. Records are put together of shapes.

import { ProtocolError } from "./lines.js";

const whole = (most) => ({
  read(from) {
    const value = from.integer();
    if (value > most) throw new ProtocolError(`a number is at most ${most}`);
    return value;
  },
  write(to, value) {
    if (!Number.isInteger(value) || value < 0 || value > most) throw new RangeError(`${value} is no number up to ${most}`);
    to.word(String(value));
  },
});

export const integer = whole(4_294_967_295);
export const byte = whole(255);

export const truth = {
  read(from) {
    const value = from.integer();
    if (value > 1) throw new ProtocolError("a truth value is 0 or 1");
    return value === 1;
  },
  write: (to, value) => to.word(value ? "1" : "0"),
};

/** As many bits as one of these counts, as a text of 0 and 1. */
export const bits = (...counts) => ({
  read: (from) => from.bits(...counts),
  write: (to, value) => to.word(value),
});

export const string = {
  read: (from) => from.string(),
  write: (to, value) => to.string(value),
};

/** In place of an array whose elements were not asked for: how many there are. */
export class Omitted {
  constructor(count) {
    this.count = count;
  }
}

const arrayWith = (item, empty) => ({
  read(from) {
    const count = from.integer();
    if (from.sign("*")) return count === 0 ? [] : new Omitted(count);
    from.wants("{");
    const items = [];
    while (items.length < count) items.push(item.read(from));
    from.wants("}");
    return items;
  },
  write(to, items) {
    if (items instanceof Omitted || (items.length === 0 && empty === "*")) {
      to.word(String(items.count ?? 0));
      to.word("*");
      return;
    }
    to.word(String(items.length));
    to.word("{");
    for (const value of items) item.write(to, value);
    to.word("}");
  },
});

/** An array as a server writes it. */
export const array = (item) => arrayWith(item, "*");
/** An array as a client writes it. */
export const list = (item) => arrayWith(item, "{ }");

/** An object with these fields, in this order. */
export const record = (fields) => {
  const entries = Object.entries(fields);
  return {
    read(from) {
      const value = {};
      for (const [name, shape] of entries) value[name] = shape.read(from);
      return value;
    },
    write(to, value) {
      for (const [name, shape] of entries) shape.write(to, value[name]);
    },
  };
};

/** No value. */
export const nothing = { read: () => undefined, write: () => undefined };
