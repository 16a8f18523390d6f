// What an observer sees of a run: the turns that were taken at labels that flow to its own, each with the contents hidden that it may
// not learn.

import { flows } from './labels.mjs';
import { ACTS } from './lines.mjs';

const HIDDEN = { kind: 'hidden' };

// The sight of an observer, who has a label, or of the operator, who has none and sees all.
export class Sight {
  constructor(table, observer) {
    this.table = table;
    this.observer = observer;
    this.known = [];
  }

  // Whether the label with this number flows to the observer's.
  reaches(number) {
    if (this.observer === null) return true;
    if (this.known[number] === undefined) this.known[number] = flows(this.table.labels[number], this.observer);
    return this.known[number];
  }

  // Whether the observer sees a turn of a run.
  sees(run, turn) {
    return this.reaches(run.labels[turn]);
  }

  content(label, content) {
    return this.reaches(label) ? content : HIDDEN;
  }

  value(value) {
    if (value === null) return null;
    if (value.kind === 'sealed') return { ...value, content: this.content(value.label, value.content) };
    if (value.kind === 'list') return { ...value, items: value.items.map((item) => this.value(item)) };
    return value;
  }

  values(values) {
    return values.map((value) => this.value(value));
  }

  // An act or a reply with its values as the observer sees them.
  form(fields, said) {
    const seen = { ...said };
    for (const name in fields) {
      if (fields[name] === 'value' || fields[name] === 'option') seen[name] = this.value(said[name]);
      if (fields[name] === 'values') seen[name] = this.values(said[name]);
    }
    return seen;
  }

  act(act) {
    const seen = this.form(ACTS[act.word], act);
    if (act.word === 'release' || act.word === 'expose') seen.content = this.content(act.to, act.content);
    return seen;
  }

  reply(reply) {
    return reply.word === 'got' ? { ...reply, value: this.value(reply.value) } : reply;
  }

  // An entry as the observer sees it.
  entry(entry) {
    return { ...entry, act: this.act(entry.act), reply: this.reply(entry.reply) };
  }
}

// The numbers of the turns that are seen.
export function seenTurns(run, sight) {
  const turns = new Uint32Array(run.count);
  let count = 0;
  for (let turn = 0; turn < run.count; turn += 1) {
    if (sight.sees(run, turn)) {
      turns[count] = turn;
      count += 1;
    }
  }
  return turns.subarray(0, count);
}

// The line of a turn as it is seen, without its ticket.
export function seenLine(run, sight, turn) {
  return run.printer.entry(sight.entry(run.entry(turn)));
}

// The text of the view.
export function viewText(run, sight) {
  const lines = [];
  for (const turn of seenTurns(run, sight)) lines.push(`${seenLine(run, sight, turn)}\n`);
  return lines.join('');
}

// The releases and exposures that were carried out and are seen.
export function seenDisclosures(run, sight) {
  return run.disclosures.filter(({ turn }) => sight.sees(run, turn));
}

// Whether one gives the observer a content: from a label that doesn't flow to its own to one that does.
export function releasesTo(sight, { from, to }) {
  return sight.observer !== null && !sight.reaches(from) && sight.reaches(to);
}
