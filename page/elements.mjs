// Makes elements of the page. Texts are always set as texts, so nothing in a history is ever read as markup.

import { swatchBackground } from './colours.mjs';

// An element with a class, and texts and elements in it.
export function element(name, className, ...inside) {
  const made = document.createElement(name);
  if (className !== '') made.className = className;
  made.append(...inside);
  return made;
}

export function button(className, text, pressed) {
  const made = element('button', className, text);
  made.type = 'button';
  made.addEventListener('click', pressed);
  return made;
}

// A small box in the colours of a label.
export function swatch(label, title) {
  const made = element('span', 'swatch');
  made.style.background = swatchBackground(label);
  made.title = title;
  return made;
}

// A label with its box.
export function labelled(label) {
  return element('span', 'labelled', swatch(label, label.text), element('code', '', label.text));
}
