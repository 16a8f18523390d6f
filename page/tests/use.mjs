// Uses pages by keys and by the mouse, over a stand-in for a browser. Usage: use.mjs OPERATOR_PAGE OBSERVER_PAGE OTHER_PAGE..
// The first is the page of examples/calendars, the second that of examples/observer; the others may be any.

import assert from 'node:assert/strict';
import { open } from './stand_in.mjs';

const KEYS = ['ArrowRight', 'ArrowDown', 'ArrowUp', 'ArrowLeft', 'End', 'Home', 'PageDown', 'PageUp', 'r', 'R', 'x', 'X', 's', 'S', '+',
  '-', '0', 'a', 'd', 'o', 'o', '1', '2', '9', '?', 'Escape', 'q'];
let done = 0;

function check(what, test) {
  try {
    test();
  } catch (fault) {
    fault.message = `${what}: ${fault.message}`;
    throw fault;
  }
  done += 1;
}

const rowsOf = (page) => page.part('turns').children[1].children;
const turnOf = (page) => page.part('turn').textContent;
const counts = (page) => page.part('counts').textContent;

function press(page, ...keys) {
  for (const key of keys) page.document.key(key);
}

function typeLabel(page, text) {
  press(page, 'l');
  assert.equal(page.document.focused, page.part('label'));
  page.part('label').value = text;
  page.part('label').happen('input');
  press(page, 'Enter');
}

function click(page, x, y) {
  for (const kind of ['pointerdown', 'pointermove', 'pointerup']) page.part('lanes').happen(kind, { offsetX: x, offsetY: y });
}

// Every key and the mouse work at every width, and draw only where something is.
function usesAll(file) {
  for (const [width, height] of [[1400, 900], [700, 900], [320, 480]]) {
    const page = open(file, width, height);
    press(page, ...KEYS, ...KEYS);
    for (let y = 0; y < 300; y += 20) click(page, width / 2, y);
    page.part('lanes').happen('wheel', { offsetX: width / 2, offsetY: 40, deltaY: -100, ctrlKey: true });
    page.part('lanes').happen('wheel', { offsetX: width / 2, offsetY: 40, deltaY: 100, ctrlKey: false });
    page.part('lanes').happen('pointerdown', { offsetX: width / 2, offsetY: 40 });
    page.part('lanes').happen('pointermove', { offsetX: width / 2 - 90, offsetY: 44 });
    page.part('lanes').happen('pointerup', { offsetX: width / 2 - 90, offsetY: 44 });
    for (const observer of page.part('observers').children) observer.happen('click');
    page.window.happen('resize');
    page.part('turns').scrollTop = 300;
    page.part('turns').happen('scroll');
    assert.ok(rowsOf(page).length <= 22);
  }
}

const [operatorFile, observerFile, ...others] = process.argv.slice(2);

check('the operator sees all', () => {
  const page = open(operatorFile);
  assert.match(page.warning, /holds the data of all owners/);
  assert.equal(counts(page), '61 turns, 0 refusals, 1 release');
  assert.match(rowsOf(page)[4].textContent, /ended "0110"/);
  assert.match(page.part('releases').textContent, /alice %% True → True %% Trueby power<alice>"lunch"/);
});

check('turns are found by keys', () => {
  const page = open(operatorFile);
  press(page, 'r');
  assert.match(turnOf(page), /^turn 6 · main/);
  press(page, 'ArrowDown');
  assert.match(turnOf(page), /^turn 9 · main/);
  press(page, 's');
  assert.match(turnOf(page), /^turn 11 · main.*send "lunch"/s);
  press(page, 'End', 'ArrowLeft');
  assert.match(turnOf(page), /^turn 59 · 5 match/);
});

check('an observer is picked by a key, and its turns are listed alone', () => {
  const page = open(operatorFile);
  press(page, '2');
  assert.equal(counts(page), 'sees 10 of 61 turns, 0 refusals, 1 release, 1 of them to it');
  assert.match(rowsOf(page)[0].textContent, /sealed<alice %% True>\(hidden\)/);
  assert.equal(rowsOf(page)[4].textContent, '4not seen');
  press(page, 'o', 'End');
  assert.match(turnOf(page), /^turn 13 · main/);
  assert.equal(rowsOf(page).length, 10);
});

check('an observer is typed as a label', () => {
  const page = open(operatorFile);
  typeLabel(page, 'bob /\\ alice %% True');
  assert.equal(counts(page), 'sees 61 of 61 turns, 0 refusals, 1 release, 0 of them to it');
  typeLabel(page, 'carol %% True');
  assert.equal(page.part('message').textContent, 'at 1: no principal is called carol');
  typeLabel(page, '');
  assert.equal(page.part('message').textContent, '');
  assert.equal(counts(page), '61 turns, 0 refusals, 1 release');
});

check('a click picks the nearest turn of a lane', () => {
  const page = open(operatorFile);
  click(page, 1390, 24 + 13);
  assert.match(turnOf(page), /^turn 13 · main/);
  page.part('turns').children[1].children[0].happen('click');
  assert.match(turnOf(page), /^turn 0 · main/);
});

check('the page of a view says nothing of what is hidden', () => {
  const page = open(observerFile);
  assert.match(page.warning, /holds what bob %% True sees of the run, and nothing else/);
  assert.equal(counts(page), '11 turns, 0 refusals, 0 releases, 0 of them to it');
  assert.deepEqual([...page.part('observers').children].map((made) => made.textContent), ['bob %% True', 'everyone']);
  typeLabel(page, 'alice %% True');
  assert.equal(page.part('message').textContent, 'this page holds only what bob %% True sees');
  press(page, 'End');
  assert.match(turnOf(page), /^turn 10 · 4 clean/);
});

check('the script shows how often each line was taken, where this is known', () => {
  const lines = Array.from({ length: 61 }, (_, turn) => (turn === 13 ? 0 : 3 + (turn % 2)));
  const page = open(operatorFile, 1400, 900, (held) => ({ ...held, lines }));
  const taken = () => page.part('script').children.slice(1, 5).map((row) => row.firstChild.textContent);
  assert.deepEqual(taken(), ['', '31', '29', '']);
  press(page, '2');
  assert.deepEqual(taken(), ['', '4', '5', '']);
  press(page, '1', 'Home', 'ArrowRight');
  assert.deepEqual(page.part('script').children.map((row) => row.classList.contains('here')).indexOf(true), 3);
  const unknown = open(operatorFile, 1400, 900, (held) => ({ ...held, lines: null }));
  assert.equal(unknown.part('script').children[1].firstChild.textContent, '2');
});

check('all keys and the mouse', () => {
  usesAll(operatorFile);
  usesAll(observerFile);
  others.forEach(usesAll);
});

console.log(`use: ${done} uses of pages`);
