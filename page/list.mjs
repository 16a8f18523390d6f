// The list of turns: of as many rows as there are turns, only those in sight are made.

import { seenLine } from './erasure.mjs';
import { element, swatch } from './elements.mjs';
import { secrecyText } from './labels.mjs';
import { rowsInSight, scrolledTo } from './layout.mjs';

const ROW_HEIGHT = 21;
// higher boxes aren't laid out rightly by every browser
const MOST_HEIGHT = 8_000_000;

export class TurnList {
  constructor(page, box) {
    this.page = page;
    this.box = box;
    this.filler = element('div', 'filler');
    this.rows = element('div', 'rows');
    box.append(this.filler, this.rows);
    box.addEventListener('scroll', () => this.draw());
    this.rows.addEventListener('click', (event) => this.clicked(event));
  }

  clicked(event) {
    const row = event.target.closest('[data-turn]');
    if (row !== null) this.page.select(Number(row.dataset.turn));
  }

  sight() {
    return rowsInSight(this.page.shown.length, ROW_HEIGHT, this.box.clientHeight, this.box.scrollTop, MOST_HEIGHT);
  }

  draw() {
    this.filler.style.height = `${this.sight().inner}px`;
    // on a narrow page the box is as high as its rows
    const { first, last, shift } = this.sight();
    this.rows.style.transform = `translateY(${this.box.scrollTop + shift}px)`;
    const rows = [];
    for (let place = first; place < last; place += 1) rows.push(this.row(this.page.shown[place]));
    this.rows.replaceChildren(...rows);
    this.mark();
  }

  // A row of the list.
  row(turn) {
    const { page } = this;
    const isSeen = page.sight.sees(page.run, turn);
    const row = element('div', isSeen ? 'row' : 'row unseen', element('span', 'number', String(turn)));
    row.dataset.turn = String(turn);
    row.id = `turn${turn}`;
    row.setAttribute('role', 'option');
    row.setAttribute('aria-selected', String(turn === page.selected));
    if (isSeen) this.fill(row, turn);
    else row.append(element('span', 'task', 'not seen'));
    return row;
  }

  fill(row, turn) {
    const { page } = this;
    const label = page.run.table.labels[page.run.labels[turn]];
    const secrecy = element('span', 'secrecy', label.secrecy.length === 0 ? '' : secrecyText(label.text));
    row.append(element('span', 'task', page.nameOf(page.run.actors[turn])), swatch(label, label.text), secrecy);
    if (page.lines !== null) row.append(element('span', 'line', page.lines[turn] === 0 ? '' : String(page.lines[turn])));
    const { act, reply } = this.texts(turn);
    row.append(element('code', '', act), element('code', page.run.isRefused(turn) ? 'reply refused' : 'reply', reply));
    if (page.run.isDisclosure(turn) && !page.run.isRefused(turn)) row.classList.add('release');
  }

  texts(turn) {
    const { page } = this;
    const seen = page.sight.entry(page.run.entry(turn));
    return { act: page.run.printer.act(seen.act), reply: page.run.printer.reply(seen.reply) };
  }

  mark() {
    const { selected } = this.page;
    for (const row of this.rows.children) row.setAttribute('aria-selected', String(Number(row.dataset.turn) === selected));
    this.box.setAttribute('aria-activedescendant', selected === null ? '' : `turn${selected}`);
  }

  // Scrolls so that the row of the selected turn is in sight.
  reveal() {
    const { selected, shown } = this.page;
    const place = selected === null ? -1 : this.page.placeOf(selected);
    if (place < 0) return;
    const { clientHeight, scrollTop } = this.box;
    this.box.scrollTop = scrolledTo(shown.length, ROW_HEIGHT, clientHeight, scrollTop, MOST_HEIGHT, place);
  }

  // The text of a row, for whoever points at its mark.
  lineOf(turn) {
    return seenLine(this.page.run, this.page.sight, turn);
  }
}
