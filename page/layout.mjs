// Where everything stands: a lane for each task, children below their parents, then a lane for each channel; and in each lane of a task
// the stretches of turns in which its label is the same.

// The numbers of nodes: channels come first, then the tasks of the policy.
export function nodesOf(policy) {
  const names = new Map();
  policy.channels.forEach((channel, place) => names.set(place, channel.name));
  policy.tasks.forEach((task, place) => names.set(policy.channels.length + place, task.name));
  return names;
}

// The turns of each task, and the turns that meet each node, in order.
function turnsBy(run, column) {
  const groups = new Map();
  for (let turn = 0; turn < run.count; turn += 1) {
    const number = column[turn];
    const group = groups.get(number);
    if (group === undefined) groups.set(number, [turn]);
    else group.push(turn);
  }
  return groups;
}

// The children of each task, in the order of their births.
function childrenOf(births) {
  const children = new Map();
  for (const birth of births) {
    if (!children.has(birth.parent)) children.set(birth.parent, []);
    children.get(birth.parent).push(birth);
  }
  return children;
}

// The stretches of a task in which its label, given by its number, is the same: { from, to, label }.
class Stretches {
  constructor(begin, label) {
    this.made = [];
    this.from = begin;
    this.label = label;
  }

  close(to) {
    if (to > this.from) this.made.push({ from: this.from, to, label: this.label });
    this.from = to;
  }

  turnTo(label, at) {
    if (label === this.label) return;
    this.close(at);
    this.label = label;
  }

  follow(run, turns) {
    for (const turn of turns) {
      this.turnTo(run.labels[turn], turn);
      this.turnTo(run.behind[turn], turn + 1);
    }
    return this;
  }
}

function endOf(run, turns) {
  const last = turns[turns.length - 1];
  return last !== undefined && run.actWord(last) === 'ended' ? last + 1 : null;
}

// The lane of a task, from its birth to the end of its last turn, or to the end of the run where it never ended. In a page of a view the
// lane of a task that has risen out of sight ends there.
function taskLane(run, number, name, depth, birth, turns, sight) {
  const begin = birth === null ? 0 : birth.turn + 1;
  const stretches = new Stretches(begin, run.labels[birth === null ? turns[0] : birth.turn]).follow(run, turns);
  const ended = endOf(run, turns);
  const leaves = ended === null && !sight.reaches(stretches.label);
  if (!leaves) stretches.close(ended ?? run.count);
  return { kind: 'task', number, name, depth, turns, begin, stretches: stretches.made, leaves };
}

// The lane of a channel.
function channelLane(channel, number, label, turns) {
  return { kind: 'channel', number, name: channel.name, depth: 0, label, turns };
}

class LaneMaker {
  constructor(run, policy, procedures, sight) {
    this.run = run;
    this.policy = policy;
    this.procedures = procedures;
    this.sight = sight;
    this.byActor = turnsBy(run, run.actors);
    this.byTarget = turnsBy(run, run.targets);
    this.children = childrenOf(run.births);
    this.lanes = [];
    this.placed = new Set();
  }

  // A task and, below it, its children. A list of what is left to do stands for calls, since tasks may nest deep.
  addTask(number, name) {
    const left = [{ number, name, depth: 0, birth: null }];
    while (left.length > 0) {
      const next = left.pop();
      if (!this.placed.has(next.number)) this.place(next, left);
    }
  }

  place({ number, name, depth, birth }, left) {
    this.placed.add(number);
    this.lanes.push(taskLane(this.run, number, name, depth, birth, this.byActor.get(number) ?? [], this.sight));
    for (const child of [...(this.children.get(number) ?? [])].reverse()) {
      left.push({ number: child.child, name: this.childName(child), depth: depth + 1, birth: child });
    }
  }

  childName(birth) {
    const procedure = this.procedures[birth.procedure];
    return procedure === undefined ? `task ${birth.child}` : `${birth.child} ${procedure}`;
  }

  addTasks() {
    this.policy.tasks.forEach((task, place) => {
      const number = this.policy.channels.length + place;
      if (this.byActor.has(number)) this.addTask(number, task.name);
    });
    for (const number of this.byActor.keys()) this.addTask(number, `task ${number}`);
  }

  addChannels(labelOf) {
    this.policy.channels.forEach((channel, number) => {
      const sends = (this.byTarget.get(number) ?? []).filter((turn) => this.run.actWord(turn) === 'send');
      this.lanes.push(channelLane(channel, number, labelOf(channel.label), sends));
    });
  }
}

// The lanes of a run. `sight` is that of whoever the page is made for, and `labelOf` reads the label of a channel.
export function lanesOf(run, policy, procedures, sight, labelOf) {
  const maker = new LaneMaker(run, policy, procedures, sight);
  maker.addTasks();
  maker.addChannels(labelOf);
  return maker.lanes;
}

// The place in an ascending list of the first number that isn't below another.
export function firstFrom(numbers, bound) {
  let low = 0;
  let high = numbers.length;
  while (low < high) {
    const middle = (low + high) >> 1;
    if (numbers[middle] < bound) low = middle + 1;
    else high = middle;
  }
  return low;
}

// The number of an ascending list that is nearest to another, or -1 where the list is empty.
export function nearest(numbers, wanted) {
  const place = firstFrom(numbers, wanted);
  if (place === numbers.length) return place === 0 ? -1 : numbers[place - 1];
  if (place === 0) return numbers[0];
  return numbers[place] - wanted < wanted - numbers[place - 1] ? numbers[place] : numbers[place - 1];
}

// The turns in sight: from one number to another, at least one wide, and within the run.
export function bounded(count, from, to) {
  const whole = Math.max(count, 1);
  const width = Math.min(Math.max(to - from, Math.min(4, whole)), whole);
  const begin = Math.min(Math.max(from, 0), whole - width);
  return { from: begin, to: begin + width };
}

// Turns zoomed by a factor about a turn that stays where it is.
export function zoomed(count, stretch, about, factor) {
  return bounded(count, about - (about - stretch.from) * factor, about + (stretch.to - about) * factor);
}

// Turns moved so far that a turn is in sight.
export function showing(count, stretch, turn) {
  const width = stretch.to - stretch.from;
  if (turn >= stretch.from && turn + 1 <= stretch.to) return stretch;
  return bounded(count, turn + 0.5 - width / 2, turn + 0.5 + width / 2);
}

// A step of 1, 2 or 5 times a power of ten so that marks on an axis stand far enough apart.
export function axisStep(turnsEach) {
  const power = 10 ** Math.floor(Math.log10(Math.max(turnsEach, 1)));
  const factor = [1, 2, 5, 10].find((times) => times * power >= turnsEach);
  return factor * power;
}

// The rows of a list that are in sight. A list that is higher than browsers allow is scrolled in proportion.
export function rowsInSight(count, rowHeight, height, scrolled, mostHeight) {
  const inner = Math.min(count * rowHeight, mostHeight);
  const most = Math.max(inner - height, 0);
  const share = most === 0 ? 0 : Math.min(Math.max(scrolled / most, 0), 1);
  const offset = share * Math.max(count * rowHeight - height, 0);
  const first = Math.max(Math.floor(offset / rowHeight), 0);
  const last = Math.min(Math.ceil((offset + height) / rowHeight), count);
  return { inner, first, last, shift: first * rowHeight - offset };
}

// Where a list has to be scrolled to so that a row is in sight.
export function scrolledTo(count, rowHeight, height, scrolled, mostHeight, row) {
  const { first, last } = rowsInSight(count, rowHeight, height, scrolled, mostHeight);
  if (row > first && row < last - 1) return scrolled;
  const whole = Math.max(count * rowHeight - height, 0);
  const wanted = Math.min(Math.max(row * rowHeight - height / 2, 0), whole);
  const most = Math.max(Math.min(count * rowHeight, mostHeight) - height, 0);
  return whole === 0 ? 0 : (wanted / whole) * most;
}
