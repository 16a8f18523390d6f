// Prints what observers see of a history. Usage: see.mjs NAMES HISTORY LABEL.., with the names as JSON; a view for each label, as JSON.

import fs from 'node:fs';
import { Sight, viewText } from '../erasure.mjs';
import { readLabel } from '../labels.mjs';
import { Run } from '../lines.mjs';

const [names, history, ...labels] = process.argv.slice(2);
const run = new Run(fs.readFileSync(history, 'latin1'), JSON.parse(names), true);
console.log(JSON.stringify(labels.map((label) => viewText(run, new Sight(run.table, readLabel(run.table.names, label))))));
