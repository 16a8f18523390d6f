// Lines of histories and of views: what each form of line says, and its text again. No other spelling is read than the printed one.
//
// An entry is { ticket, actor, target, at, act, reply }; `ticket` is a text, or null in a view, `target` a number or null, and `at` the
// number of a label in a table. An act, a reply and a fault have a `word` and the fields that the forms below name.

import { LabelFault, LabelTable } from './labels.mjs';

const CREATION = {
  procedure: 'number', result: 'label', clearance: 'label', turns: 'number', first: 'number', cells: 'number', given: 'values',
};
const DISCLOSURE = { from: 'label', to: 'label', power: 'power', content: 'content' };
const TWO_LABELS = { one: 'label', other: 'label' };
const TWO_COUNTS = { asked: 'count', left: 'count' };

// The fields of each act, in the order of its text.
export const ACTS = {
  step: {},
  seal: { label: 'label' },
  raise: { operation: 'operation', label: 'label' },
  lower: { label: 'label' },
  release: DISCLOSURE,
  expose: DISCLOSURE,
  newref: { label: 'label', value: 'value' },
  newvar: { label: 'label', value: 'option' },
  fork: CREATION,
  spawn: CREATION,
  read: {},
  write: { value: 'value' },
  take: {},
  put: { value: 'value' },
  wait: {},
  send: { text: 'text' },
  ended: { content: 'content' },
};
export const ACT_WORDS = Object.keys(ACTS);

// The fields of each reply.
export const REPLIES = { ok: {}, got: { value: 'value' }, told: { content: 'content' }, no: { fault: 'fault' } };
export const REPLY_WORDS = Object.keys(REPLIES);

// The fields of each kind of fault.
const FAULTS = {
  flow_current: TWO_LABELS,
  flow_clearance: TWO_LABELS,
  flow_raise: TWO_LABELS,
  flow_privilege: { power: 'power', one: 'label', other: 'label' },
  bad_type: {},
  overflow: {},
  div_zero: {},
  too_long: {},
  no_turns: {},
  no_cells: TWO_COUNTS,
  child_turns: TWO_COUNTS,
  depth: {},
  label_wide: TWO_LABELS,
  user: { value: 'pure' },
};

const OPERATIONS = ['unlabel', 'taint', 'read', 'wait', 'take', 'put'];
const HANDLES = ['ref', 'var', 'result', 'chan'];
const CONSTANTS = ['unit', 'true', 'false'];

const MOST_DEEP = 8;
const LARGEST_NUMBER = 2n ** 32n - 1n;
const LARGEST_COUNT = 2n ** 64n - 1n;
const LARGEST_WHOLE = 2n ** 63n - 1n;

// the parts of lines that are kept while a history is read
const LONGEST_KNOWN = 400;
const MOST_KNOWN = 20_000;

const QUOTE = 34;
const BACKSLASH = 92;
const NATURAL = /0|[1-9][0-9]*/y;
const WORD = /[a-z_]+/y;
const ESCAPE = /\\(?:["\\n]|x(?:0[0-9b-f]|1[0-9a-f]|7f|[89a-f][0-9a-f]))/y;

// Why a line is none of a history: what is missing, and at which byte of the text.
export class LineFault extends Error {
  constructor(place, message) {
    super(message);
    this.place = place;
    this.line = 0;
  }
}

function wholeFits(digits, isNegative) {
  if (digits.length < 16) return true;
  return BigInt(digits) <= (isNegative ? LARGEST_WHOLE + 1n : LARGEST_WHOLE);
}

// Reads the parts of lines, from one place of a text to the next.
export class LineReader {
  constructor(text, table) {
    this.text = text;
    this.table = table;
    this.place = 0;
  }

  fail(what) {
    throw new LineFault(this.place, what);
  }

  stands(word) {
    return this.text.startsWith(word, this.place);
  }

  takes(word) {
    if (!this.stands(word)) return false;
    this.place += word.length;
    return true;
  }

  needs(word) {
    if (!this.takes(word)) this.fail(`${JSON.stringify(word)} is missing`);
  }

  match(pattern, what) {
    pattern.lastIndex = this.place;
    const found = pattern.exec(this.text);
    if (found === null) this.fail(`${what} is missing`);
    this.place = pattern.lastIndex;
    return found[0];
  }

  bounded(largest) {
    const digits = this.match(NATURAL, 'a number');
    if (digits.length > 9 && BigInt(digits) > largest) this.fail('a smaller number is needed');
    return digits;
  }

  number() {
    return Number(this.bounded(LARGEST_NUMBER));
  }

  count() {
    return this.bounded(LARGEST_COUNT);
  }

  // What stands between `<` and `>`.
  bracketed() {
    this.needs('<');
    const end = this.text.indexOf('>', this.place);
    if (end < 0) this.fail('">" is missing');
    const inside = this.text.slice(this.place, end);
    this.place = end + 1;
    return inside;
  }

  // A part with a label or a formula, whose fault is one of the line.
  canonical(read) {
    const start = this.place;
    try {
      return read(this.bracketed());
    } catch (fault) {
      if (!(fault instanceof LabelFault)) throw fault;
      throw new LineFault(start + 1 + fault.place, fault.message);
    }
  }

  label() {
    return this.canonical((inside) => this.table.numberOf(inside));
  }

  power() {
    this.needs('power');
    return this.canonical((inside) => {
      this.table.needFormula(inside);
      return inside;
    });
  }

  operation() {
    const word = this.match(WORD, 'an operation');
    if (!OPERATIONS.includes(word)) this.fail('an operation that raises a label is missing');
    return word;
  }

  // A text in quotes, as it is written.
  quoted() {
    const start = this.place;
    this.needs('"');
    for (;;) {
      const byte = this.text.charCodeAt(this.place);
      if (byte === QUOTE) break;
      if (byte === BACKSLASH) this.match(ESCAPE, 'an escape');
      else if (byte >= 0x20 && byte <= 0x7e) this.place += 1;
      else this.fail('the end of a text is missing');
    }
    this.place += 1;
    return this.text.slice(start, this.place);
  }

  whole() {
    const isNegative = this.takes('-');
    const digits = this.match(NATURAL, 'a value');
    if ((isNegative && digits === '0') || !wholeFits(digits, isNegative)) this.fail('a whole number of 64 bits is needed');
    return { kind: 'whole', text: isNegative ? `-${digits}` : digits };
  }

  handle(kind) {
    const number = this.number();
    return { kind, number, label: this.label() };
  }

  list(isPure, depth) {
    if (depth > MOST_DEEP) this.fail('a list is too deep');
    const items = [];
    if (this.takes(']')) return { kind: 'list', items };
    do items.push(this.someValue(isPure, depth + 1)); while (this.takes(', '));
    this.needs(']');
    return { kind: 'list', items };
  }

  plainWord(isPure) {
    const word = this.match(WORD, 'a value');
    if (CONSTANTS.includes(word)) return { kind: 'constant', text: word };
    if (HANDLES.includes(word)) {
      this.needs('#');
      return this.handle(word);
    }
    this.place -= word.length;
    if (word === 'power') return { kind: 'power', power: this.power() };
    if (word === 'sealed' && !isPure) return this.sealed();
    return this.fail('a value is missing');
  }

  sealed() {
    this.needs('sealed');
    const label = this.label();
    this.needs('(');
    const content = this.content();
    this.needs(')');
    return { kind: 'sealed', label, content };
  }

  // A value; a pure one has no sealed value in it. `depth` is that of a list that would begin here.
  someValue(isPure, depth) {
    const next = this.text[this.place];
    if (next === '"') return { kind: 'text', text: this.quoted() };
    if (next === '<') return { kind: 'label', label: this.label() };
    if (this.takes('[')) return this.list(isPure, depth);
    return next >= 'a' && next <= 'z' ? this.plainWord(isPure) : this.whole();
  }

  value() {
    return this.someValue(false, 1);
  }

  pure() {
    return this.someValue(true, 1);
  }

  option() {
    return this.takes('empty') ? null : this.value();
  }

  content() {
    if (this.takes('hidden')) return { kind: 'hidden' };
    if (!this.takes('fault(')) return this.pure();
    const fault = this.fault();
    this.needs(')');
    return { kind: 'fault', fault };
  }

  fault() {
    const fault = this.form(FAULTS, 'a fault');
    this.needs(' at ');
    fault.at = this.label();
    return fault;
  }

  // Values, each behind a blank, up to the colon.
  values() {
    const values = [];
    while (this.stands(' ') && !this.stands(' : ')) {
      this.place += 1;
      values.push(this.value());
    }
    return values;
  }

  field(kind) {
    if (kind === 'values') return this.values();
    this.needs(' ');
    return kind === 'text' ? this.quoted() : this[kind]();
  }

  // A word with its fields.
  form(forms, what) {
    const word = this.match(WORD, what);
    if (!Object.hasOwn(forms, word)) this.fail(`${what} is missing`);
    const read = { word };
    const fields = forms[word];
    for (const name in fields) read[name] = this.field(fields[name]);
    return read;
  }

  target() {
    return this.takes('-') ? null : this.number();
  }

  // What stands in front of the label: the ticket, or null where there is none, the actor and the target.
  front(hasTicket) {
    const ticket = hasTicket ? this.count() : null;
    if (hasTicket) this.needs(' ');
    const actor = this.number();
    this.needs(' ');
    const target = this.target();
    this.needs(' ');
    return { ticket, actor, target };
  }

  // The label, the act and the reply, with the line end.
  turn() {
    const at = this.label();
    this.needs(' ');
    const act = this.form(ACTS, 'an act');
    this.needs(' : ');
    const reply = this.form(REPLIES, 'a reply');
    this.needs('\n');
    return { at, act, reply };
  }

  // A line, with its ticket or without one, and its line end.
  entry(hasTicket) {
    return { ...this.front(hasTicket), ...this.turn() };
  }
}

// The text of entries and of their parts.
export class LinePrinter {
  constructor(table) {
    this.table = table;
  }

  number(number) {
    return String(number);
  }

  count(digits) {
    return digits;
  }

  text(quoted) {
    return quoted;
  }

  operation(word) {
    return word;
  }

  label(number) {
    return `<${this.table.labels[number].text}>`;
  }

  power(formula) {
    return `power<${formula}>`;
  }

  value(value) {
    switch (value.kind) {
      case 'text': case 'whole': case 'constant': return value.text;
      case 'label': return this.label(value.label);
      case 'power': return this.power(value.power);
      case 'list': return `[${value.items.map((item) => this.value(item)).join(', ')}]`;
      case 'sealed': return `sealed${this.label(value.label)}(${this.content(value.content)})`;
      default: return `${value.kind}#${value.number}${this.label(value.label)}`;
    }
  }

  pure(value) {
    return this.value(value);
  }

  option(value) {
    return value === null ? 'empty' : this.value(value);
  }

  content(content) {
    if (content.kind === 'hidden') return 'hidden';
    return content.kind === 'fault' ? `fault(${this.fault(content.fault)})` : this.value(content);
  }

  fault(fault) {
    return `${this.form(FAULTS, fault)} at ${this.label(fault.at)}`;
  }

  values(values) {
    return values.map((value) => ` ${this.value(value)}`).join('');
  }

  field(kind, value) {
    return kind === 'values' ? this.values(value) : ` ${this[kind](value)}`;
  }

  form(forms, said) {
    const fields = forms[said.word];
    return said.word + Object.keys(fields).map((name) => this.field(fields[name], said[name])).join('');
  }

  act(act) {
    return this.form(ACTS, act);
  }

  reply(reply) {
    return this.form(REPLIES, reply);
  }

  target(target) {
    return target === null ? '-' : String(target);
  }

  // The line of an entry, without its ticket and its line end.
  entry(entry) {
    return `${entry.actor} ${this.target(entry.target)} ${this.label(entry.at)} ${this.act(entry.act)} : ${this.reply(entry.reply)}`;
  }
}

function countLines(text) {
  let count = 0;
  for (let place = text.indexOf('\n'); place >= 0; place = text.indexOf('\n', place + 1)) count += 1;
  return count;
}

// The label at which the task stands behind its turn. A raise names the label of what is learned.
function labelBehind(table, { at, act, reply }) {
  if (reply.word !== 'ok') return at;
  if (act.word === 'raise') return table.joinOf(at, act.label);
  return act.word === 'expose' ? act.to : at;
}

// The turns of a history or of a view. Columns of numbers keep what drawing asks of each turn; an entry is read again when it is shown.
export class Run {
  constructor(text, names, hasTickets) {
    this.text = text;
    this.hasTickets = hasTickets;
    this.table = new LabelTable(names);
    this.printer = new LinePrinter(this.table);
    this.count = countLines(text);
    this.makeColumns();
    this.births = [];
    this.disclosures = [];
    this.readAll();
  }

  makeColumns() {
    this.starts = new Uint32Array(this.count + 1);
    this.actors = new Uint32Array(this.count);
    this.targets = new Float64Array(this.count);
    this.labels = new Uint32Array(this.count);
    this.behind = new Uint32Array(this.count);
    this.acts = new Uint8Array(this.count);
    this.replies = new Uint8Array(this.count);
  }

  readAll() {
    const reader = new LineReader(this.text, this.table);
    this.known = new Map();
    for (let turn = 0; turn < this.count; turn += 1) this.readNext(reader, turn);
    this.known = null;
    if (reader.place !== this.text.length) this.refuse(new LineFault(reader.place, 'the last line has no line end'), this.count);
  }

  readNext(reader, turn) {
    try {
      const front = reader.front(this.hasTickets);
      if (this.hasTickets && front.ticket !== String(turn)) reader.fail(`the ticket ${turn} is missing`);
      this.keep(turn, front, this.readTurn(reader));
      this.starts[turn + 1] = reader.place;
    } catch (fault) {
      this.refuse(fault, turn);
    }
  }

  // What stands behind the target. Many lines agree in it, so it is looked up before it is read.
  readTurn(reader) {
    const end = this.text.indexOf('\n', reader.place) + 1;
    if (end - reader.place > LONGEST_KNOWN) return reader.turn();
    const text = this.text.slice(reader.place, end);
    const known = this.known.get(text);
    if (known !== undefined) {
      reader.place = end;
      return known;
    }
    const read = reader.turn();
    if (this.known.size < MOST_KNOWN) this.known.set(text, read);
    return read;
  }

  refuse(fault, turn) {
    if (fault instanceof LineFault) fault.line = turn + 1;
    throw fault;
  }

  keep(turn, { actor, target }, said) {
    this.actors[turn] = actor;
    this.targets[turn] = target === null ? -1 : target;
    this.labels[turn] = said.at;
    this.behind[turn] = labelBehind(this.table, said);
    this.acts[turn] = ACT_WORDS.indexOf(said.act.word);
    this.replies[turn] = REPLY_WORDS.indexOf(said.reply.word);
    if (said.reply.word !== 'no') this.keepCarriedOut(turn, actor, target, said.act);
  }

  keepCarriedOut(turn, actor, target, act) {
    if (act.word === 'fork' || act.word === 'spawn') {
      this.births.push({ turn, parent: actor, child: target, procedure: act.procedure });
    }
    if (act.word === 'release' || act.word === 'expose') this.disclosures.push({ turn, from: act.from, to: act.to });
  }

  // The entry of a turn.
  entry(turn) {
    const reader = new LineReader(this.text, this.table);
    reader.place = this.starts[turn];
    return reader.entry(this.hasTickets);
  }

  actWord(turn) {
    return ACT_WORDS[this.acts[turn]];
  }

  isRefused(turn) {
    return REPLY_WORDS[this.replies[turn]] === 'no';
  }

  // Whether a turn takes a content from a label to another by a privilege.
  isDisclosure(turn) {
    const word = this.actWord(turn);
    return word === 'release' || word === 'expose';
  }
}
