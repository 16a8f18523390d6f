// What observers see by the page's script against views that the host wrote. Reads a case a line from standard input:
// {"name", "names", "history", "views": [[LABEL, VIEW], ..]}

import readline from 'node:readline';
import { Sight, viewText } from '../erasure.mjs';
import { readLabel } from '../labels.mjs';
import { Run } from '../lines.mjs';

const counts = { histories: 0, turns: 0, views: 0, hidden: 0, refusals: 0, disclosures: 0, wrong: 0 };

function wrong(name, what) {
  counts.wrong += 1;
  if (counts.wrong <= 10) console.error(`${name}: ${what}`);
}

// Each task stands at its turn where the turn before left it.
function compareLabels(name, run) {
  const last = new Map();
  for (let turn = 0; turn < run.count; turn += 1) {
    const actor = run.actors[turn];
    if (last.has(actor) && run.behind[last.get(actor)] !== run.labels[turn]) wrong(name, `the label of task ${actor} at turn ${turn}`);
    last.set(actor, turn);
  }
}

function compareText(name, run, history) {
  const sight = new Sight(run.table, null);
  if (viewText(run, sight) !== history.replace(/^\d+ /gm, '')) wrong(name, 'a line is printed otherwise');
}

function compareView(name, run, label, view) {
  counts.views += 1;
  counts.hidden += view.split('hidden').length - 1;
  if (viewText(run, new Sight(run.table, readLabel(run.table.names, label))) !== view) wrong(name, `the view of ${label}`);
}

function compare({ name, names, history, views }) {
  const run = new Run(history, names, true);
  counts.histories += 1;
  counts.turns += run.count;
  counts.disclosures += run.disclosures.length;
  for (let turn = 0; turn < run.count; turn += 1) counts.refusals += run.isRefused(turn) ? 1 : 0;
  compareText(name, run, history);
  compareLabels(name, run);
  for (const [label, view] of views) compareView(name, run, label, view);
}

for await (const line of readline.createInterface({ input: process.stdin })) compare(JSON.parse(line));
console.log(`views: ${Object.entries(counts).map(([word, count]) => `${count} ${word}`).join(', ')}`);
process.exit(counts.wrong === 0 ? 0 : 1);
