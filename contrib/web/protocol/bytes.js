// Bytes and the letters of ISO 8859-1, one for each byte. (A browser's own "latin1" is another charset.)

const STEP = 8192;

/** The letters that stand for these bytes, each by its own number. */
export function latin1(bytes) {
  let text = "";
  for (let place = 0; place < bytes.length; place += STEP) {
    text += String.fromCharCode(...bytes.subarray(place, place + STEP));
  }
  return text;
}

/** The bytes of a text whose letters all are of ISO 8859-1, or null where one is not. */
export function fromLatin1(text) {
  const bytes = new Uint8Array(text.length);
  for (let place = 0; place < text.length; place += 1) {
    const code = text.charCodeAt(place);
    if (code > 255) return null;
    bytes[place] = code;
  }
  return bytes;
}

/** These pieces, one behind the other. */
export function joined(pieces) {
  if (pieces.length === 1) return pieces[0];
  const bytes = new Uint8Array(pieces.reduce((length, piece) => length + piece.length, 0));
  let place = 0;
  for (const piece of pieces) {
    bytes.set(piece, place);
    place += piece.length;
  }
  return bytes;
}

/** Whether two byte lists are the same. */
export function same(one, other) {
  return one.length === other.length && one.every((byte, place) => byte === other[place]);
}
