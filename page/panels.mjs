// The panels beside the list: the selected turn, the script, and what privileges released.

import { button, element, labelled } from './elements.mjs';
import { seenDisclosures } from './erasure.mjs';
import { countsOf, piecesOf, scriptLines } from './script.mjs';
import { actInWords, replyInWords } from './words.mjs';

const MOST_RELEASES = 100;

// The selected turn, in words and in its own text.
export class TurnPanel {
  constructor(page, box) {
    this.page = page;
    this.box = box;
  }

  draw() {
    const { page } = this;
    if (page.selected === null) this.say('Pick a turn: click one, or press → . Press ? for all keys.');
    else if (!page.sight.sees(page.run, page.selected)) this.say('This observer does not see this turn.');
    else this.box.replaceChildren(...this.about(page.selected));
  }

  say(hint) {
    this.box.replaceChildren(element('p', 'hint', hint));
  }

  about(turn) {
    const { page } = this;
    const entry = page.sight.entry(page.run.entry(turn));
    const parts = [
      element('h3', '', `turn ${turn} · ${page.nameOf(entry.actor)}`),
      element('p', '', actInWords(entry.act), this.target(entry)),
      element('p', '', 'stands at ', labelled(page.run.table.labels[entry.at])),
    ];
    const behind = page.run.behind[turn];
    if (behind !== entry.at) parts.push(element('p', '', 'rises to ', labelled(page.run.table.labels[behind])));
    if (entry.reply.word === 'no') parts.push(element('p', 'refused', replyInWords(entry.reply)));
    parts.push(element('pre', '', `${page.run.printer.act(entry.act)}\n: ${page.run.printer.reply(entry.reply)}`));
    return parts;
  }

  target(entry) {
    return entry.target === null ? '' : ` (${this.page.nameOf(entry.target)})`;
  }
}

// The script, with how often each line was taken where the lines of turns are known.
export class ScriptPanel {
  constructor(page, box) {
    this.page = page;
    this.box = box;
    this.lines = scriptLines(page.script);
    this.rows = this.lines.map((line, place) => this.row(line, place + 1));
    box.replaceChildren(...this.rows);
  }

  row(line, number) {
    const pieces = piecesOf(line).map(({ kind, text }) => (kind === 'plain' ? text : element('span', `script-${kind}`, text)));
    const parts = [element('span', 'number', String(number)), element('code', '', ...pieces)];
    if (this.page.lines !== null) parts.unshift(element('span', 'taken', ''));
    return element('div', 'row', ...parts);
  }

  draw() {
    const { page } = this;
    if (page.lines === null) return;
    const counts = countsOf(this.lines, page.lines, page.seen);
    this.rows.forEach((row, place) => {
      row.firstChild.textContent = counts[place + 1] === 0 ? '' : String(counts[place + 1]);
    });
    this.markLine();
  }

  // The line of the selected turn, where this is known.
  markLine() {
    const { page } = this;
    if (page.lines === null) return;
    const isSeen = page.selected !== null && page.sight.sees(page.run, page.selected);
    const line = isSeen ? page.lines[page.selected] : 0;
    this.rows.forEach((row, place) => row.classList.toggle('here', place + 1 === line));
    if (line > 0) this.rows[line - 1].scrollIntoView({ block: 'nearest' });
  }
}

// What was released or exposed by privileges.
export class ReleasePanel {
  constructor(page, box) {
    this.page = page;
    this.box = box;
    this.most = MOST_RELEASES;
  }

  draw() {
    const disclosures = seenDisclosures(this.page.run, this.page.sight);
    const shown = disclosures.slice(0, this.most).map((disclosure) => this.release(disclosure));
    if (shown.length === 0) shown.push(element('p', 'hint', 'Nothing was released by a privilege.'));
    if (disclosures.length > this.most) shown.push(this.further(disclosures.length - this.most));
    this.box.replaceChildren(...shown);
  }

  further(count) {
    return button('further', `${count} more`, () => {
      this.most += MOST_RELEASES;
      this.draw();
    });
  }

  release({ turn }) {
    const { page } = this;
    const { labels } = page.run.table;
    const { actor, act } = page.sight.entry(page.run.entry(turn));
    const made = element(
      'div', 'disclosure',
      button('turn', `◆ ${turn} ${page.nameOf(actor)}`, () => page.select(turn)),
      element('div', '', act.word === 'expose' ? 'exposed ' : 'released ', labelled(labels[act.from]), ' → ', labelled(labels[act.to])),
      element('div', '', 'by ', element('code', '', page.run.printer.power(act.power))),
      element('pre', act.content.kind === 'hidden' ? 'hidden' : '', page.run.printer.content(act.content)),
    );
    return made;
  }
}
