// What goes to the host and comes back: netstrings, one behind the other (`5:hello,`).

const COLON = 0x3a;
const COMMA = 0x2c;
const ZERO = 0x30;

// Pieces of bytes in one.
export function joined(pieces) {
  const whole = new Uint8Array(pieces.reduce((size, piece) => size + piece.length, 0));
  let place = 0;
  for (const piece of pieces) {
    whole.set(piece, place);
    place += piece.length;
  }
  return whole;
}

// Items of bytes as netstrings.
export function netstrings(items) {
  const encoder = new TextEncoder();
  return joined(items.flatMap((item) => [encoder.encode(`${item.length}:`), item, encoder.encode(',')]));
}

// The items that netstrings hold.
export function itemsOf(bytes) {
  const items = [];
  let place = 0;
  while (place < bytes.length) {
    const colon = bytes.indexOf(COLON, place);
    let length = 0;
    for (let digit = place; digit < colon; digit += 1) length = length * 10 + bytes[digit] - ZERO;
    const end = colon + 1 + length;
    if (colon < 0 || bytes[end] !== COMMA) throw new Error('no netstring');
    items.push(bytes.slice(colon + 1, end));
    place = end + 1;
  }
  return items;
}
