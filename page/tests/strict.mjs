// Whether lines are read or refused as the tool's own reader does. Reads a case a line from standard input: {"names", "line", "isLine"}

import readline from 'node:readline';
import { LineFault, Run } from '../lines.mjs';

const counts = { read: 0, refused: 0, wrong: 0 };

function isLine(names, line) {
  try {
    return new Run(line, names, false).count === 1;
  } catch (fault) {
    if (!(fault instanceof LineFault)) throw fault;
    return false;
  }
}

for await (const text of readline.createInterface({ input: process.stdin })) {
  const { names, line, isLine: wanted } = JSON.parse(text);
  counts[wanted ? 'read' : 'refused'] += 1;
  if (isLine(names, line) !== wanted) {
    counts.wrong += 1;
    if (counts.wrong <= 10) console.error(`${JSON.stringify(line)}: ${wanted ? 'is' : 'is not'} read by the tool`);
  }
}
console.log(`strict: ${Object.entries(counts).map(([word, count]) => `${count} ${word}`).join(', ')}`);
process.exit(counts.wrong === 0 ? 0 : 1);
