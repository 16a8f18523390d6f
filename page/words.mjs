// What a turn says, in words for people.

const RAISE_SENTENCES = {
  unlabel: 'learns a sealed value',
  taint: 'raises its own label',
  read: 'is about to read a reference',
  wait: 'is about to wait for a child',
  take: 'is about to take from a variable',
  put: 'is about to put into a variable',
};

const ACT_SENTENCES = {
  step: () => 'computes by itself',
  seal: () => 'seals a value',
  raise: (act) => RAISE_SENTENCES[act.operation],
  lower: () => 'lowers its clearance for good',
  release: () => 'releases a content to another label by a privilege, without learning it',
  expose: () => 'learns a content by a privilege, which covers a part of its label',
  newref: () => 'makes a reference',
  newvar: () => 'makes a variable',
  fork: () => 'starts a child whose result can be waited for',
  spawn: () => 'starts a child',
  read: () => 'reads a reference',
  write: () => 'writes to a reference',
  take: () => 'takes what a variable holds',
  put: () => 'puts a value into a variable',
  wait: () => 'gets what a child ended with',
  send: () => 'sends a text to a channel',
  ended: (act) => (act.content.kind === 'fault' ? 'ends with a fault that nothing caught' : 'ends'),
};

const REFUSAL_SENTENCES = {
  flow_current: 'refused: it has learned something that may not go there',
  flow_clearance: 'refused: this stands above its clearance',
  flow_raise: 'refused: learning this would take it above its clearance',
  flow_privilege: 'refused: the privilege does not allow this release',
  bad_type: 'refused: a name is not bound, or holds a value of another kind',
  overflow: 'refused: the number does not fit 64 bits',
  div_zero: 'refused: a division by zero',
  too_long: 'refused: the text or the list would be too large',
  no_turns: 'refused: its turns are used up',
  no_cells: 'refused: it asks for more cells than it has left',
  child_turns: 'refused: it asks for more turns than it has left',
  depth: 'refused: too many calls are open',
  label_wide: 'refused: the label would have too many clauses',
  user: 'throws a value',
};

// What a task does in a turn.
export function actInWords(act) {
  return ACT_SENTENCES[act.word](act);
}

// What became of it, where this isn't told by the act.
export function replyInWords(reply) {
  return reply.word === 'no' ? REFUSAL_SENTENCES[reply.fault.word] : '';
}
