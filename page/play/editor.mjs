// A text that is edited, with the numbers of its lines and a mark where it was refused.

import { element } from '../elements.mjs';

export class Editor {
  constructor(box, label, changed) {
    this.numbers = element('div', 'numbers', '1');
    this.numbers.setAttribute('aria-hidden', 'true');
    this.text = element('textarea', '');
    this.text.setAttribute('aria-label', label);
    this.text.spellcheck = false;
    this.text.wrap = 'off';
    this.line = 0;
    this.text.addEventListener('input', () => {
      this.mark(0);
      changed();
    });
    this.text.addEventListener('scroll', () => {
      this.numbers.scrollTop = this.text.scrollTop;
    });
    box.replaceChildren(this.numbers, this.text);
  }

  get value() {
    return this.text.value;
  }

  set value(text) {
    this.text.value = text;
    this.mark(0);
  }

  // Marks a line, counted from 1, or with 0 none.
  mark(line) {
    this.line = line;
    const count = this.text.value.split('\n').length;
    const rows = Array.from({ length: count }, (_, place) => element('div', place + 1 === line ? 'refused' : '', String(place + 1)));
    this.numbers.replaceChildren(...rows);
    this.numbers.scrollTop = this.text.scrollTop;
  }

  // Puts the mark into sight, and the place where one types behind it.
  reveal() {
    if (this.line === 0) return;
    const before = this.text.value.split('\n').slice(0, this.line - 1);
    const start = before.reduce((size, text) => size + text.length + 1, 0);
    this.text.focus();
    this.text.setSelectionRange(start, start);
  }
}
