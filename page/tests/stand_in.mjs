// A stand-in for a browser, of which the page asks little: so the page's own script runs under node, with its keys and clicks.

import fs from 'node:fs';
import vm from 'node:vm';

const ENTITIES = { '&lt;': '<', '&gt;': '>', '&quot;': '"', '&#x27;': '\'', '&amp;': '&' };

class ClassList {
  constructor(element) {
    this.element = element;
  }

  names() {
    return this.element.className.split(' ').filter((name) => name !== '');
  }

  add(name) {
    this.toggle(name, true);
  }

  contains(name) {
    return this.names().includes(name);
  }

  toggle(name, isOn) {
    const others = this.names().filter((other) => other !== name);
    this.element.className = (isOn ? [...others, name] : others).join(' ');
  }
}

// What was drawn, call by call.
class Pen {
  constructor() {
    this.calls = [];
    for (const name of ['fillRect', 'strokeRect', 'beginPath', 'closePath', 'moveTo', 'lineTo', 'arc', 'rect', 'clip', 'fill', 'stroke',
      'save', 'restore', 'setTransform', 'fillText']) {
      this[name] = (...given) => {
        if (given.some((value) => typeof value === 'number' && !Number.isFinite(value))) throw new Error(`${name}(${given})`);
        this.calls.push([name, ...given, this.fillStyle]);
      };
    }
  }

  measureText(text) {
    return { width: text.length * 6.5 };
  }

  createPattern(canvas) {
    return { canvas };
  }
}

export class Element {
  constructor(document, name) {
    Object.assign(this, { document, children: [], listeners: {}, style: {}, dataset: {}, attributes: {}, className: '', hidden: false });
    this.tagName = name.toUpperCase();
    this.classList = new ClassList(this);
    this.scrollTop = 0;
    this.clientHeight = 420;
    this.clientWidth = document.width;
    this.value = '';
    this.type = this.tagName === 'BUTTON' ? 'submit' : '';
    if (this.tagName === 'CANVAS') this.pen = new Pen();
  }

  getContext() {
    return this.pen;
  }

  append(...inside) {
    for (const child of inside) {
      if (child instanceof Element) child.parent = this;
      this.children.push(child);
    }
  }

  replaceChildren(...inside) {
    this.children = [];
    this.append(...inside);
  }

  get firstChild() {
    return this.children[0];
  }

  get textContent() {
    return this.children.map((child) => (child instanceof Element ? child.textContent : String(child))).join('');
  }

  set textContent(text) {
    this.children = text === '' ? [] : [text];
  }

  setAttribute(name, value) {
    this.attributes[name] = value;
  }

  addEventListener(kind, listener) {
    (this.listeners[kind] ??= []).push(listener);
  }

  // Lets something happen to an element, and to those around it.
  happen(kind, about = {}) {
    const event = { target: this, preventDefault() {}, pointerId: 1, ...about };
    for (let at = this; at !== undefined; at = at.parent) for (const listener of at.listeners[kind] ?? []) listener(event);
    this.document.settle();
  }

  closest() {
    let at = this;
    while (at !== undefined && at.dataset.turn === undefined) at = at.parent;
    return at ?? null;
  }

  focus() {
    this.document.focused = this;
  }

  blur() {
    this.document.focused = this.document.body;
  }

  setPointerCapture() {}

  scrollIntoView() {}

  // All elements below that pass a test.
  all(passes) {
    const below = this.children.filter((child) => child instanceof Element);
    return below.flatMap((child) => [...(passes(child) ? [child] : []), ...child.all(passes)]);
  }
}

// A document with the elements of a page that have an `id`.
class Document extends Element {
  constructor(markup, width) {
    const root = { width };
    super(root, 'document');
    this.document = this;
    this.width = width;
    this.waiting = [];
    this.byId = new Map();
    this.documentElement = new Element(this, 'html');
    this.body = new Element(this, 'body');
    this.body.parent = this;
    this.focused = this.body;
    for (const [, name, id] of markup.matchAll(/<([a-z0-9]+)[^>]*? id="([a-z_]+)"/g)) this.addPart(name, id);
    this.getElementById('label').type = 'text';
    this.getElementById('help').hidden = true;
  }

  addPart(name, id) {
    const part = new Element(this, name);
    this.body.append(part);
    this.byId.set(id, part);
  }

  createElement(name) {
    return new Element(this, name);
  }

  getElementById(id) {
    if (!this.byId.has(id)) throw new Error(`no element ${id}`);
    return this.byId.get(id);
  }

  settle() {
    while (this.waiting.length > 0) this.waiting.shift()();
  }

  key(key, about = {}) {
    this.focused.happen('keydown', { key, ...about });
  }
}

// What a page holds, and its script, out of its markup.
export function takeApart(html) {
  const held = /<script id="held" type="application\/json">([\s\S]*?)<\/script>/.exec(html)[1];
  const script = /<script>([\s\S]*?)<\/script>/.exec(html)[1];
  const warning = /<p class="warning[^>]*>([^<]*)<\/p>/.exec(html)[1].replace(/&[^;]*;/g, (entity) => ENTITIES[entity]);
  return { held, script, warning };
}

// Opens the page in a file, and gives its document. What the page holds may be changed before.
export function open(file, width = 1400, height = 900, change = (held) => held) {
  const html = fs.readFileSync(file, 'utf8');
  const { held, script, warning } = takeApart(html);
  const document = new Document(html, width);
  document.getElementById('held').textContent = JSON.stringify(change(JSON.parse(held)));
  const window = new Element(document, 'window');
  Object.assign(window, { innerHeight: height, innerWidth: width, devicePixelRatio: 1 });
  const requestAnimationFrame = (draw) => document.waiting.push(draw);
  vm.runInNewContext(script, { document, window, requestAnimationFrame, console });
  document.settle();
  return { document, window, warning, part: (id) => document.getElementById(id) };
}
