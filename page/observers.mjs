// Who observes: a button for the operator, everyone, each owner and all of them together, and a field for any other label.

import { button, element, swatch } from './elements.mjs';
import { releasesTo, seenDisclosures } from './erasure.mjs';
import { flows, labelText, LabelFault, readLabel, secretOf } from './labels.mjs';

// The observers that have a button: { name, label }. Of a page that is made of a view only those who see no more than it.
export function observersOf(names, maker) {
  const owners = names.map((name, place) => ({ name, label: secretOf([place]) }));
  const all = [{ name: 'everyone', label: secretOf([]) }, ...owners];
  if (names.length > 1) all.push({ name: 'all owners together', label: secretOf(names.map((name, place) => place)) });
  if (maker === null) return [{ name: 'the operator (all)', label: null }, ...all];
  const ownText = labelText(names, maker);
  const others = all.filter(({ label }) => flows(label, maker) && labelText(names, label) !== ownText);
  return [{ name: ownText, label: maker }, ...others];
}

// The label that somebody typed, or what is wrong with it.
export function typedLabel(names, text, maker) {
  try {
    const label = readLabel(names, text);
    if (maker !== null && !flows(label, maker)) return { fault: `this page holds only what ${labelText(names, maker)} sees` };
    return { label };
  } catch (fault) {
    if (!(fault instanceof LabelFault)) throw fault;
    return { fault: `at ${fault.place + 1}: ${fault.message}` };
  }
}

function counted(count, one) {
  return `${count} ${one}${count === 1 ? '' : 's'}`;
}

// What is counted for whoever observes. Of a page that is made of a view nothing is said of what isn't in it.
export function countsText(run, sight, seen, hasAll) {
  const disclosures = seenDisclosures(run, sight);
  const refused = seen.reduce((sum, turn) => sum + (run.isRefused(turn) ? 1 : 0), 0);
  const turns = hasAll ? counted(seen.length, 'turn') : `sees ${seen.length} of ${counted(run.count, 'turn')}`;
  const parts = [turns, counted(refused, 'refusal'), counted(disclosures.length, 'release')];
  if (sight.observer !== null) parts.push(`${disclosures.filter((disclosure) => releasesTo(sight, disclosure)).length} of them to it`);
  return parts.join(', ');
}

export class ObserverBar {
  constructor(page, box, field, message) {
    this.page = page;
    this.field = field;
    this.message = message;
    this.observers = observersOf(page.names, page.maker);
    this.buttons = this.observers.map((observer, place) => this.makeButton(observer, place));
    box.replaceChildren(...this.buttons);
    field.addEventListener('input', () => this.typed());
  }

  makeButton({ name, label }, place) {
    const made = button('observer', '', () => this.pick(place));
    if (label !== null) made.append(swatch(label, labelText(this.page.names, label)));
    made.append(element('span', '', name));
    if (place < 9) made.title = `${label === null ? 'all that the run holds' : labelText(this.page.names, label)} — key ${place + 1}`;
    return made;
  }

  // Picks the observer of a button.
  pick(place) {
    if (place >= this.observers.length) return;
    this.field.value = '';
    this.say('');
    this.page.observe(this.observers[place].label);
    this.press(place);
  }

  typed() {
    const text = this.field.value;
    if (text.trim() === '') {
      this.pick(0);
      return;
    }
    const { label, fault } = typedLabel(this.page.names, text, this.page.maker);
    this.say(fault ?? '');
    if (label === undefined) return;
    this.page.observe(label);
    this.press(-1);
  }

  say(message) {
    this.message.textContent = message;
    this.field.setAttribute('aria-invalid', String(message !== ''));
  }

  press(place) {
    this.buttons.forEach((made, at) => made.setAttribute('aria-pressed', String(at === place)));
  }
}
