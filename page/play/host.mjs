// The host as a module of WebAssembly: one call, from words and files to what it says, prints and writes (bindings/lio.h).

import { itemsOf, netstrings } from './bundle.mjs';

// what a call tells: a status of 4 bytes, a place and the size of the reply of 8 each
const TOLD_SIZE = 24;
const NEEDED_AT = 16;
// how much room a reply has at first
const ROOM = 1 << 20;

// One call takes an instance of its own, so that nothing is left of the one before it.
export class Host {
  constructor(module) {
    this.module = module;
  }

  // What the host answers to words over files, which are pairs of a name and bytes.
  async ask(words, files) {
    const { status, reply } = await this.call(words, files);
    return answerOf(status, itemsOf(reply));
  }

  // Its status, and its reply as it comes.
  async call(words, files) {
    const { exports } = await WebAssembly.instantiate(this.module, {});
    const encoder = new TextEncoder();
    const asked = place(exports, netstrings(words.map((word) => encoder.encode(word))));
    const given = place(exports, netstrings(files.flatMap(([name, bytes]) => [encoder.encode(name), bytes])));
    const told = room(exports, TOLD_SIZE);
    let out = room(exports, ROOM);
    const call = () => exports.lio_host(asked.at, asked.size, given.at, given.size, out.at, out.size, told.at);
    call();
    if (neededOf(exports, told) > out.size) {
      out = room(exports, Number(neededOf(exports, told)));
      call();
    }
    const reply = new Uint8Array(exports.memory.buffer, Number(out.at), Number(neededOf(exports, told)));
    return { status: new DataView(exports.memory.buffer).getUint32(Number(told.at), true), reply };
  }
}

function room(exports, size) {
  const at = exports.malloc(BigInt(size));
  if (at === 0n) throw new Error('the page has no memory left');
  return { at, size: BigInt(size) };
}

function place(exports, bytes) {
  const made = room(exports, Math.max(bytes.length, 1));
  new Uint8Array(exports.memory.buffer).set(bytes, Number(made.at));
  return { at: made.at, size: BigInt(bytes.length) };
}

function neededOf(exports, told) {
  return new DataView(exports.memory.buffer).getBigUint64(Number(told.at) + NEEDED_AT, true);
}

// A status, what is said, what is printed on standard error, and the files that are written.
function answerOf(status, [said, message, ...rest]) {
  const decoder = new TextDecoder();
  const files = [];
  for (let item = 0; item + 1 < rest.length; item += 2) files.push([decoder.decode(rest[item]), rest[item + 1]]);
  return { status, said: decoder.decode(said ?? new Uint8Array()), message: decoder.decode(message ?? new Uint8Array()), files };
}
