// The text of a script as the page shows it: its procedures, the words of its lines, and how often each line was taken.

const PROCEDURE = /^[ \t]*proc[ \t]+([a-z][a-z0-9_]*)/;
const PIECES = /"(?:[^"\\]|\\.)*"|<[^\s=<>][^<>]*>|-?\d+|[a-z_][a-z0-9_]*|[^"<a-z_\d-]+|./g;
const BLOCKS = new Set(['proc', 'if', 'else', 'while', 'try', 'catch', 'end', 'call', 'return', 'stop', 'throw']);
const GUARDED = new Set([
  'label', 'unlabel', 'taint', 'lower', 'relabel', 'newref', 'read', 'write', 'newvar', 'fullvar', 'take', 'put', 'fork', 'spawn', 'wait',
  'send', 'using',
]);

// The lines of a script, without line ends.
export function scriptLines(text) {
  const lines = text.split('\n');
  if (lines[lines.length - 1] === '') lines.pop();
  return lines;
}

// The names of the procedures, in the order in which a history counts them.
export function procedureNames(text) {
  return scriptLines(text).map((line) => PROCEDURE.exec(line)).filter((found) => found !== null).map((found) => found[1]);
}

function kindOf(piece) {
  if (piece[0] === '"') return 'text';
  if (piece[0] === '<' && piece.length > 1) return 'label';
  if (/^-?\d/.test(piece)) return 'number';
  if (BLOCKS.has(piece)) return 'block';
  return GUARDED.has(piece) ? 'guarded' : 'plain';
}

// A line as pieces, each with the kind by which it is coloured.
export function piecesOf(line) {
  if (/^[ \t]*#/.test(line)) return [{ kind: 'comment', text: line }];
  return (line.match(PIECES) ?? []).map((text) => ({ kind: kindOf(text), text }));
}

// How often each line was taken by the turns that are seen, where the line of each turn is known; line 0 is none.
export function countsOf(lines, turnLines, turns) {
  const counts = new Array(lines.length + 1).fill(0);
  for (const turn of turns) counts[turnLines[turn]] += 1;
  return counts;
}
