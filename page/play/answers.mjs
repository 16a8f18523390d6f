// What the host answers, in words for people.

import { button, element } from '../elements.mjs';

export const STATUSES = {
  0: 'The script ran to its end.',
  1: 'The page asked wrongly, which it should never do.',
  2: 'An input is missing.',
  4: 'The policy was refused.',
  5: 'The script was refused.',
  6: 'The script doesn\'t fit the policy.',
  9: 'There was too little memory.',
  11: 'The policy writes a file that it reads, or writes one twice.',
};

function placesIn(message, name) {
  const escaped = name.replaceAll('.', '\\.');
  return [...message.matchAll(new RegExp(`(?:^|[^A-Za-z0-9_./])${escaped}:(\\d+)`, 'gm'))].map((found) => Number(found[1]));
}

// The line of a file that a message speaks of first, or 0.
export function lineOf(message, name) {
  return placesIn(message, name)[0] ?? 0;
}

// All lines of a file that a message speaks of.
export function linesOf(message, name) {
  return [...new Set(placesIn(message, name))];
}

// What was said and printed, and a button for each line of the script that it speaks of.
export function summaryOf(said, message, lines, reveal) {
  const parts = [];
  if (said !== '') parts.push(element('pre', '', said));
  if (message !== '') parts.push(element('pre', 'note', message));
  if (lines.length > 0) parts.push(element('p', 'places', ...lines.map((line) => button('', `line ${line}`, () => reveal(line)))));
  return parts;
}
