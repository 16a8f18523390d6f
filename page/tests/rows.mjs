// The labels, lines and views of the page against the worked rows of the libraries (docs/ROWS.md). Usage: rows.mjs STDIN STDOUT

import fs from 'node:fs';
import { Sight, viewText } from '../erasure.mjs';
import { flows, formulaText, implies, join, labelText, LabelFault, readFormula, readLabel } from '../labels.mjs';
import { LineFault, LineReader, Run } from '../lines.mjs';

const NAME = /^[a-z][a-z0-9_]{0,31}$/;
const IS_HISTORY = /^\d+ \d+ /;
const counts = {};
let failures = 0;
let names = [];

function unescaped(field) {
  return field.replace(/~(n|t|[0-9a-f]{2})/g, (_, code) => ({ n: '\n', t: '\t' })[code] ?? String.fromCharCode(parseInt(code, 16)));
}

function linesOf(file) {
  return fs.readFileSync(file, 'latin1').split('\n');
}

function compare(word, place, found, wanted) {
  counts[word] = (counts[word] ?? 0) + 1;
  if (found === wanted) return;
  failures += 1;
  console.error(`row ${place + 1}, ${word}: ${JSON.stringify(found).slice(0, 300)} in place of ${JSON.stringify(wanted).slice(0, 300)}`);
}

// What is read of a text, printed; or where it is refused.
function printed(read, print, text) {
  try {
    return print(names, read(names, text));
  } catch (fault) {
    if (!(fault instanceof LabelFault)) throw fault;
    return fault.message.startsWith('more than') ? 'Wide' : `refused at ${fault.place}`;
  }
}

function wantedOf(answer) {
  const refused = /^(?:BadText|Unknown)\((\d+)\)$/.exec(answer);
  return refused === null ? answer : `refused at ${refused[1]}`;
}

function entryText(run, line) {
  const reader = new LineReader(line, run.table);
  try {
    const entry = reader.entry(true);
    if (reader.place !== line.length) reader.fail('more than a line');
    return `${entry.ticket} ${run.printer.entry(entry)}\n`;
  } catch (fault) {
    if (!(fault instanceof LineFault)) throw fault;
    return 'NotAnEntry';
  }
}

// A history is printed as it was read, and each task stands where its turn before left it.
function compareHistory(place, principals, history) {
  const run = new Run(history, principals, true);
  compare('run', place, viewText(run, new Sight(run.table, null)), history.replace(/^\d+ /gm, ''));
  const last = new Map();
  for (let turn = 0; turn < run.count; turn += 1) {
    const actor = run.actors[turn];
    if (last.has(actor)) compare('rise', place, run.behind[last.get(actor)], run.labels[turn]);
    last.set(actor, turn);
  }
}

const ROWS = {
  names: (fields, answer) => {
    if (/^\d+$/.test(answer)) names = fields.join(' ').split(/[ \t]/).filter((name) => NAME.test(name));
  },
  add: (fields, answer) => {
    if (/^\d+$/.test(answer)) names.push(fields[0]);
  },
  label: (fields, answer, place) => {
    compare('label', place, printed(readLabel, labelText, fields[0]), wantedOf(answer));
  },
  formula: (fields, answer, place) => {
    compare('formula', place, printed(readFormula, formulaText, fields[0]), wantedOf(answer));
  },
  flows: ([from, to], answer, place) => {
    if (/^(true|false)$/.test(answer)) compare('flows', place, String(flows(readLabel(names, from), readLabel(names, to))), answer);
  },
  implies: ([one, other], answer, place) => {
    if (!/^(true|false)$/.test(answer)) return;
    compare('implies', place, String(implies(readFormula(names, one), readFormula(names, other))), answer);
  },
  join: ([one, other], answer, place) => {
    if (answer.includes('%%')) compare('join', place, labelText(names, join(readLabel(names, one), readLabel(names, other))), answer);
  },
  entry: (fields, answer, place) => {
    const run = new Run('', names, true);
    if (fields.length === 1) compare('entry', place, entryText(run, fields[0]), answer);
    else if (/^\d+ \d+ /.test(answer)) compare('entry', place, entryText(run, answer.endsWith('\n') ? answer : `${answer}\n`), answer);
  },
};

const asked = linesOf(process.argv[2]);
const answers = linesOf(process.argv[3]);
const runs = new Map();
const views = [];
asked.forEach((row, place) => {
  const [, word, rest] = /^([a-z_0-9]*) ?(.*)$/.exec(row) ?? [];
  const answer = unescaped(answers[place]);
  const fields = (rest ?? '').split('\t').map(unescaped);
  if (word === 'run') runs.set(rest, answer);
  if (word === 'view') views.push({ place, label: fields[0], rest: rest.slice(rest.indexOf('\t') + 1), policy: fields[1], answer });
  if (word === 'run' && IS_HISTORY.test(answer)) compareHistory(place, JSON.parse(fields[0]).principals, answer);
  if (Object.hasOwn(ROWS, word) && answer !== 'no command') ROWS[word](fields, answer, place);
});
for (const { place, label, rest, policy, answer } of views) {
  const history = runs.get(rest);
  if (history !== undefined && IS_HISTORY.test(history)) {
    const { principals } = JSON.parse(policy);
    const run = new Run(history, principals, true);
    compare('view', place, viewText(run, new Sight(run.table, readLabel(principals, label))), answer);
  }
}
console.log(`rows: ${Object.entries(counts).map(([word, count]) => `${count} ${word}`).join(', ')}, ${failures} wrong`);
process.exit(failures === 0 ? 0 : 1);
