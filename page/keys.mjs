// What each key does. All that the mouse does can be done by keys alone.

// The keys, as the page's help tells them.
export const HELP = [
  ['← →', 'the turn before, the next turn'],
  ['↑ ↓', 'the same among the turns of one task'],
  ['Page up, Page down', 'twenty turns back or on'],
  ['Home, End', 'the first turn, the last turn'],
  ['r, R', 'the next release by a privilege, the one before'],
  ['x, X', 'the next refusal, the one before'],
  ['s, S', 'the next send, the one before'],
  ['+, −, 0', 'zoom in, zoom out, show all turns'],
  ['a, d', 'move the picture to the left, to the right'],
  ['1 to 9', 'who observes, in the order of the buttons'],
  ['l', 'type the label of an observer; Enter or Escape goes back'],
  ['o', 'list only what the observer sees, or all'],
  ['?', 'show or hide these keys'],
];

const isSend = (run, turn) => run.actWord(turn) === 'send';
const isRelease = (run, turn) => run.isDisclosure(turn) && !run.isRefused(turn);
const isRefusal = (run, turn) => run.isRefused(turn);

const ACTIONS = {
  ArrowRight: (page) => page.step(1),
  ArrowLeft: (page) => page.step(-1),
  ArrowDown: (page) => page.stepInTask(1),
  ArrowUp: (page) => page.stepInTask(-1),
  PageDown: (page) => page.step(20),
  PageUp: (page) => page.step(-20),
  Home: (page) => page.selectPlace(0),
  End: (page) => page.selectPlace(page.shown.length - 1),
  r: (page) => page.find(1, isRelease),
  R: (page) => page.find(-1, isRelease),
  x: (page) => page.find(1, isRefusal),
  X: (page) => page.find(-1, isRefusal),
  s: (page) => page.find(1, isSend),
  S: (page) => page.find(-1, isSend),
  '+': (page) => page.zoom(0.5),
  '=': (page) => page.zoom(0.5),
  '-': (page) => page.zoom(2),
  0: (page) => page.zoomOut(),
  a: (page) => page.pan(-0.25),
  d: (page) => page.pan(0.25),
  l: (page) => page.bar.field.focus(),
  o: (page) => page.toggleOnlySeen(),
  '?': (page) => page.toggleHelp(),
  Escape: (page) => page.hideHelp(),
};

// What a key does on a page, or null.
export function actionOf(key) {
  if (key >= '1' && key <= '9' && key.length === 1) return (page) => page.bar.pick(Number(key) - 1);
  return Object.hasOwn(ACTIONS, key) ? ACTIONS[key] : null;
}

function leavesField(event) {
  if (event.key === 'Escape' || event.key === 'Enter') event.target.blur();
}

// Whether a key belongs to a part of the page that takes keys itself.
function isTaken(event) {
  if (event.ctrlKey || event.metaKey || event.altKey) return true;
  return event.target.tagName === 'BUTTON' && (event.key === 'Enter' || event.key === ' ');
}

// Lets a page listen to keys.
export function listen(page) {
  document.addEventListener('keydown', (event) => {
    if (event.target.tagName === 'INPUT' && event.target.type === 'text') {
      leavesField(event);
      return;
    }
    const action = isTaken(event) ? null : actionOf(event.key);
    if (action === null) return;
    event.preventDefault();
    action(page);
  });
}
