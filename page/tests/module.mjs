// Calls the host of the page for pairs of netstrings, words and files, and writes for each a line with its status and its reply, as
// bindings/cases.c does. Usage: module.mjs FILE < PAIRS, where FILE is the module of WebAssembly.

import fs from 'node:fs';

import { itemsOf, netstrings } from '../play/bundle.mjs';
import { Host } from '../play/host.mjs';

const host = new Host(await WebAssembly.compile(fs.readFileSync(process.argv[2])));
const given = itemsOf(new Uint8Array(fs.readFileSync(0)));
const encoder = new TextEncoder();
const decoder = new TextDecoder();

function pairs(items) {
  const made = [];
  for (let item = 0; item + 1 < items.length; item += 2) made.push([decoder.decode(items[item]), items[item + 1]]);
  return made;
}

for (let pair = 0; pair + 1 < given.length; pair += 2) {
  const words = itemsOf(given[pair]).map((word) => decoder.decode(word));
  const { status, reply } = await host.call(words, pairs(itemsOf(given[pair + 1])));
  fs.writeSync(1, netstrings([encoder.encode(`${status} 0`), reply]));
}
