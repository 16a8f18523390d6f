// A history of 100,000 turns is read and laid out within three seconds of the processor. It is written into a file, if one is named.

import fs from 'node:fs';
import { Sight } from '../erasure.mjs';
import { markOf, marksInSight } from '../drawing.mjs';
import { bounded, lanesOf } from '../layout.mjs';
import { Run } from '../lines.mjs';

const TURNS = 100_000;
const MOST_SECONDS = 3;
const TASKS = 200;
const NAMES = ['alice', 'bob', 'carol'];

// A history in which tasks start others, rise, send, are refused and release.
function historyOf(count) {
  const lines = [];
  for (let turn = 0; turn < count; turn += 1) lines.push(`${turn} ${lineOf(turn)}\n`);
  return lines.join('');
}

function lineOf(turn) {
  const actor = 1 + (turn % TASKS);
  const round = Math.floor(turn / TASKS);
  const owner = NAMES[actor % NAMES.length];
  const at = `<${owner} %% True>`;
  if (round === 0) return `1 ${actor + 1} <True %% True> fork 0 ${at} ${at} 9 ${actor + 2} 0 chan#0<True %% True> : ok`;
  if (round === 1) return `${actor} - <True %% True> raise unlabel ${at} : ok`;
  if (turn % 97 === 0) return `${actor} 0 ${at} send "number ${turn}" : no flow_current ${at} <True %% True> at ${at}`;
  if (turn % 89 === 0) return `${actor} - ${at} release ${at} <True %% True> power<${owner}> "number ${turn}" : ok`;
  return turn % 13 === 0 ? `${actor} 7 ${at} write [sealed${at}("number ${turn}"), ${turn}] : ok` : `${actor} - ${at} step : ok`;
}

const history = historyOf(TURNS);
if (process.argv.length > 2) fs.writeFileSync(process.argv[2], history);
const policy = { principals: NAMES, channels: [{ name: 'out', label: 'True %% True' }], tasks: [{ name: 'main' }] };
const before = process.cpuUsage();
const started = Date.now();
const run = new Run(history, NAMES, true);
const lanes = lanesOf(run, policy, ['main'], new Sight(run.table, null), (text) => run.table.numberOf(text));
const marks = lanes.map((lane) => marksInSight(run, lane.turns, bounded(run.count, 0, run.count), 1200).length);
const { user, system } = process.cpuUsage(before);
const seconds = (user + system) / 1e6;
const isLaidOut = lanes.length === TASKS + 2 && Math.max(...marks) <= 1200;
const isRight = isLaidOut && run.count === TURNS && markOf(run, 97 * 9) === 'refusal';
const clock = (Date.now() - started) / 1000;
console.log(`pace: ${TURNS} turns in ${seconds.toFixed(2)} s of the processor, ${clock.toFixed(2)} s by the clock, `
  + `${lanes.length} lanes, at most ${Math.max(...marks)} marks in one`);
process.exit(isRight && seconds < MOST_SECONDS ? 0 : 1);
