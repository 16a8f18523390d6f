// Labels of Disjunction Category Labels: their text, their canonical form, and which flows to which.
//
// A clause is a list of principals, each by its place in the policy, in rising order; a formula is a list of clauses; a label is
// { secrecy, integrity }, two formulas.

export const MOST_CLAUSES = 64;

const SYMBOLS = ['True', 'False', '/\\', '\\/', '%%', '(', ')'];
const NAME = /[a-z][a-z0-9_]*/y;

// What is wrong with the text of a label, and at which byte.
export class LabelFault extends Error {
  constructor(place, message) {
    super(message);
    this.place = place;
  }
}

// Whether each principal of a clause stands in another.
export function isWithin(clause, other) {
  let place = 0;
  for (const principal of clause) {
    while (place < other.length && other[place] < principal) place += 1;
    if (other[place] !== principal) return false;
  }
  return true;
}

// The lexicographic order of clauses.
export function compareClauses(one, other) {
  const common = Math.min(one.length, other.length);
  for (let place = 0; place < common; place += 1) {
    if (one[place] !== other[place]) return one[place] - other[place];
  }
  return one.length - other.length;
}

// A clause with each principal once, in rising order.
function orderedClause(principals) {
  return [...new Set(principals)].sort((one, other) => one - other);
}

// The canonical form of a conjunction of clauses: no clause holds another, and clauses stand in order.
export function canonical(clauses) {
  const ordered = clauses.map(orderedClause).sort(compareClauses);
  const distinct = ordered.filter((clause, place) => place === 0 || compareClauses(ordered[place - 1], clause) !== 0);
  return distinct.filter((clause) => !distinct.some((other) => other !== clause && isWithin(other, clause)));
}

// Whether each set of principals that satisfies a formula satisfies another: each clause of the other holds one of the formula's.
export function implies(formula, other) {
  return other.every((clause) => formula.some((given) => isWithin(given, clause)));
}

// Whether a value may flow from a label to another.
export function flows(from, to) {
  return implies(to.secrecy, from.secrecy) && implies(from.integrity, to.integrity);
}

// The least label to which two flow: the secrecy of both, and the integrity that each of them has.
export function join(one, other) {
  const either = one.integrity.flatMap((clause) => other.integrity.map((added) => [...clause, ...added]));
  return { secrecy: canonical([...one.secrecy, ...other.secrecy]), integrity: canonical(either) };
}

// The label with the secrecy of these principals together, and without integrity.
export function secretOf(principals) {
  return { secrecy: canonical(principals.map((principal) => [principal])), integrity: [] };
}

function clauseText(names, clause) {
  const words = clause.map((principal) => names[principal]);
  return words.length === 1 ? words[0] : `(${words.join(' \\/ ')})`;
}

// The canonical text of a formula.
export function formulaText(names, formula) {
  if (formula.length === 0) return 'True';
  if (formula[0].length === 0) return 'False';
  return formula.map((clause) => clauseText(names, clause)).join(' /\\ ');
}

// The canonical text of a label.
export function labelText(names, label) {
  return `${formulaText(names, label.secrecy)} %% ${formulaText(names, label.integrity)}`;
}

// The secrecy of the text of a label.
export function secrecyText(text) {
  return text.slice(0, text.indexOf(' %%'));
}

// The token at a place of a text, with where it ends.
function tokenAt(text, place) {
  for (const symbol of SYMBOLS) {
    if (text.startsWith(symbol, place)) return { word: symbol, place, end: place + symbol.length };
  }
  NAME.lastIndex = place;
  const found = NAME.exec(text);
  if (found === null) return { word: 'none', place, end: place + 1 };
  return { word: 'name', name: found[0], place, end: NAME.lastIndex };
}

// The tokens of a text, without the blanks between them, and a last one that says where the text ends.
function tokensOf(text) {
  const tokens = [];
  let place = 0;
  while (place < text.length) {
    if (text[place] === ' ') {
      place += 1;
    } else {
      const token = tokenAt(text, place);
      tokens.push(token);
      place = token.end;
    }
  }
  tokens.push({ word: 'end', place: text.length, end: text.length });
  return tokens;
}

// Reads formulas and labels over tokens.
class FormulaReader {
  constructor(names, text) {
    this.names = names;
    this.tokens = tokensOf(text);
    this.next = 0;
  }

  takes(word) {
    if (this.tokens[this.next].word !== word) return false;
    this.next += 1;
    return true;
  }

  needs(word) {
    if (!this.takes(word)) this.fail(word === 'end' ? 'nothing more may stand here' : `${word} is missing here`);
  }

  fail(message) {
    throw new LabelFault(this.tokens[this.next].place, message);
  }

  principal() {
    const token = this.tokens[this.next];
    if (!this.takes('name')) this.fail('a name is missing here');
    const principal = this.names.indexOf(token.name);
    if (principal < 0) throw new LabelFault(token.place, `no principal is called ${token.name}`);
    return principal;
  }

  clause() {
    if (!this.takes('(')) return [this.principal()];
    const principals = [this.principal()];
    while (this.takes('\\/')) principals.push(this.principal());
    this.needs(')');
    return principals;
  }

  formula() {
    if (this.takes('True')) return [];
    if (this.takes('False')) return [[]];
    const clauses = [this.clause()];
    while (this.takes('/\\')) clauses.push(this.clause());
    return canonical(clauses);
  }

  // The text ends here, and none of the formulas that it said is too wide.
  end(...formulas) {
    this.needs('end');
    if (formulas.some((formula) => formula.length > MOST_CLAUSES)) throw new LabelFault(0, `more than ${MOST_CLAUSES} clauses`);
  }
}

// The formula that a text says, in canonical form.
export function readFormula(names, text) {
  const reader = new FormulaReader(names, text);
  const formula = reader.formula();
  reader.end(formula);
  return formula;
}

// The label that a text says, in canonical form.
export function readLabel(names, text) {
  const reader = new FormulaReader(names, text);
  const secrecy = reader.formula();
  reader.needs('%%');
  const integrity = reader.formula();
  reader.end(secrecy, integrity);
  return { secrecy, integrity };
}

// The labels and formulas of a run, each read once.
export class LabelTable {
  constructor(names) {
    this.names = names;
    this.labels = [];
    this.numbers = new Map();
    this.joins = new Map();
    this.formulas = new Set();
  }

  // The number of the label with this canonical text.
  numberOf(text) {
    const known = this.numbers.get(text);
    return known === undefined ? this.add(text) : known;
  }

  add(text) {
    const label = readLabel(this.names, text);
    if (labelText(this.names, label) !== text) throw new LabelFault(0, 'a label that is not canonical');
    this.numbers.set(text, this.labels.length);
    this.labels.push({ text, ...label });
    return this.labels.length - 1;
  }

  // The number of the join of two labels.
  joinOf(one, other) {
    if (one === other) return one;
    const key = `${one} ${other}`;
    if (!this.joins.has(key)) this.joins.set(key, this.numberOf(labelText(this.names, join(this.labels[one], this.labels[other]))));
    return this.joins.get(key);
  }

  // Whether a text is the canonical one of a formula; throws where it is none.
  needFormula(text) {
    if (this.formulas.has(text)) return;
    if (formulaText(this.names, readFormula(this.names, text)) !== text) throw new LabelFault(0, 'a formula that is not canonical');
    this.formulas.add(text);
  }
}
