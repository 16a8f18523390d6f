// Opens pages in headless Chromium, driven over its debugging pipe. Usage: chromium.mjs CHROMIUM USES FOLDER, where USES is a file of JSON: a list of
// { page, use, hidden }, with the file of a page, how it is used, and texts that must not stand in it. Pictures at 1,400 and at 700 points of width
// go into the folder. No page may have an error in the browser's log.

import assert from 'node:assert/strict';
import { spawn } from 'node:child_process';
import fs from 'node:fs';
import os from 'node:os';
import path from 'node:path';
import { pathToFileURL } from 'node:url';

const [program, uses, folder] = process.argv.slice(2);
// on a machine that does other work beside, PATIENCE says how many times as long all may take
const PATIENCE = Number(process.env.PATIENCE ?? 1);
const MOST_MILLISECONDS = 3000 * PATIENCE;
const MOST_REDRAW = 500 * PATIENCE;
// what all pages together may take
const MOST_ALL = 300_000 * PATIENCE;
const KEYS = ['ArrowRight', 'ArrowDown', 'ArrowUp', 'ArrowLeft', '+', '+', 'd', 'a', '0', 'r', 'R', 'x', 'X', 's', 'S', 'End', 'Home', 'PageDown', 'PageUp',
  '2', 'o', 'o', '?', '?', '1'];
const CODES = { Enter: 13, Escape: 27, PageUp: 33, PageDown: 34, End: 35, Home: 36, ArrowLeft: 37, ArrowUp: 38, ArrowRight: 39, ArrowDown: 40 };
const RELEASE = [255, 208, 0];
const REFUSAL = [176, 0, 32];

// A Chromium, asked over a pipe: messages of JSON with a zero byte behind each.
class Browser {
  constructor(child) {
    this.child = child;
    this.next = 1;
    this.waiting = new Map();
    this.faults = [];
    let rest = '';
    child.stdio[4].setEncoding('utf8').on('data', (data) => {
      const messages = (rest + data).split('\0');
      rest = messages.pop();
      messages.forEach((message) => this.told(JSON.parse(message)));
    });
  }

  told({ id, method, params, result, error }) {
    if (id !== undefined) {
      this.waiting.get(id)(error === undefined ? result : Promise.reject(new Error(error.message)));
      this.waiting.delete(id);
    } else if (method === 'Target.attachedToTarget') {
      // a page within the page has a log of its own
      this.within = params.sessionId;
      for (const part of ['Runtime', 'Log']) this.ask(`${part}.enable`, {}, params.sessionId).catch(() => {});
    } else if (method === 'Runtime.exceptionThrown' || (method === 'Log.entryAdded' && params.entry.level === 'error')) {
      this.faults.push(JSON.stringify(params));
    } else if (method === 'Runtime.consoleAPICalled' && ['error', 'assert'].includes(params.type)) {
      this.faults.push(JSON.stringify(params));
    }
  }

  ask(method, params = {}, sessionId = this.session) {
    const id = this.next;
    this.next += 1;
    const answer = new Promise((resolve) => { this.waiting.set(id, resolve); });
    this.child.stdio[3].write(`${JSON.stringify({ id, method, params, sessionId })}\0`);
    return answer;
  }

  async value(expression, sessionId = this.session) {
    const { result, exceptionDetails } = await this.ask('Runtime.evaluate', { expression, returnByValue: true, awaitPromise: true }, sessionId);
    assert.equal(exceptionDetails, undefined, `${expression}: ${JSON.stringify(exceptionDetails)}`);
    return result.value;
  }

  async until(expression, milliseconds, session = () => this.session) {
    const end = Date.now() + milliseconds;
    // between two pages there is nothing that could be asked
    while (!(await this.value(expression, session()).catch(() => false))) {
      if (Date.now() > end) throw new Error(`not within ${milliseconds} ms: ${expression}`);
      await new Promise((resolve) => { setTimeout(resolve, 10); });
    }
  }

  // Waits until what was changed is drawn.
  drawn() {
    return this.value('new Promise((done) => { requestAnimationFrame(() => requestAnimationFrame(() => done(true))); })');
  }

  async press(...keys) {
    for (const pressed of keys) {
      const key = pressed.replace('Control+', '');
      const modifiers = key === pressed ? 0 : 2;
      const about = { key, modifiers, windowsVirtualKeyCode: CODES[key] ?? key.toUpperCase().charCodeAt(0), text: key.length === 1 ? key : undefined };
      await this.ask('Input.dispatchKeyEvent', { ...about, type: about.text === undefined ? 'rawKeyDown' : 'keyDown' });
      await this.ask('Input.dispatchKeyEvent', { ...about, type: 'keyUp', text: undefined });
    }
    await this.drawn();
  }

  async type(text) {
    await this.ask('Input.insertText', { text });
  }

  async click(x, y) {
    for (const type of ['mouseMoved', 'mousePressed', 'mouseReleased']) {
      await this.ask('Input.dispatchMouseEvent', { type, x, y, button: type === 'mouseMoved' ? 'none' : 'left', clickCount: 1 });
    }
    await this.drawn();
  }

  // How many turns the page counts.
  async turns() {
    return Number(/(\d+) turns/.exec(await this.text('counts'))[1]);
  }

  // The middle of a part of the page.
  async middle(selector) {
    return this.value(`(() => { const box = document.querySelector(${JSON.stringify(selector)}).getBoundingClientRect();
      return { x: box.x + box.width / 2, y: box.y + box.height / 2, left: box.x, top: box.y, width: box.width }; })()`);
  }

  async clickOn(selector) {
    const { left, y, width } = await this.middle(selector);
    // a row of the list may be wider than what is in sight of it
    await this.click(left + Math.min(width / 2, 40), y);
  }

  text(id) {
    return this.value(`document.getElementById(${JSON.stringify(id)}).textContent`);
  }

  // How many dots of the lanes have a colour.
  dots(colour) {
    return this.value(`(() => { const canvas = document.getElementById('lanes');
      const dots = canvas.getContext('2d').getImageData(0, 0, canvas.width, canvas.height).data;
      let count = 0;
      for (let at = 0; at < dots.length; at += 4) if (${colour.map((part, place) => `dots[at + ${place}] === ${part}`).join(' && ')}) count += 1;
      return count; })()`);
  }

  lanes() {
    return this.value('document.getElementById("lanes").toDataURL()');
  }

  async size(width) {
    await this.ask('Emulation.setDeviceMetricsOverride', { width, height: 900, deviceScaleFactor: 1, mobile: false });
    await this.drawn();
  }

  // A picture of the whole page at a width; nothing may stand beside the page.
  async picture(width, name) {
    await this.size(width);
    assert.ok(await this.value('document.documentElement.scrollWidth <= window.innerWidth'), `${name}: the page is wider than ${width}`);
    const { cssContentSize } = await this.ask('Page.getLayoutMetrics');
    const clip = { x: 0, y: 0, width, height: Math.min(Math.max(cssContentSize.height, 900), 4000), scale: 1 };
    const { data } = await this.ask('Page.captureScreenshot', { format: 'png', captureBeyondViewport: true, clip });
    fs.writeFileSync(path.join(folder, `${name}_${width}.png`), Buffer.from(data, 'base64'));
  }
}

// What a key or a click changes in the picture of the lanes.
async function changes(browser, what, act) {
  const before = await browser.lanes();
  await act();
  await browser.drawn();
  assert.notEqual(await browser.lanes(), before, `${what} changes no dot`);
}

const USES = {
  // A run with an error and one that releases, by the mouse.
  async mouse(browser) {
    const box = await browser.middle('#lanes');
    await changes(browser, 'a click', () => browser.click(box.x, box.top + 37));
    assert.match(await browser.text('turn'), /^turn \d+ · main/);
    await changes(browser, 'a turn of the wheel', () => browser.ask('Input.dispatchMouseEvent',
      { type: 'mouseWheel', x: box.x, y: box.top + 37, deltaX: 0, deltaY: -120, modifiers: 2 }));
    await changes(browser, 'the button "all"', () => browser.clickOn('#zoom_all'));
    await changes(browser, 'the button +', () => browser.clickOn('#zoom_in'));
    await browser.clickOn('#zoom_all');
    const whole = await browser.text('counts');
    await changes(browser, 'an observer', () => browser.clickOn('#observers button:nth-child(2)'));
    assert.match(await browser.text('counts'), /^sees \d+ of \d+ turns/);
    await browser.clickOn('#only');
    await browser.clickOn('#turns .row');
    await browser.clickOn('#only');
    await browser.clickOn('#observers button:nth-child(1)');
    assert.equal(await browser.text('counts'), whole);
  },

  // A release is found, told and shown, by keys alone.
  async release(browser) {
    await browser.press('r');
    assert.match(await browser.text('turn'), /release/);
    assert.ok(await browser.value('document.querySelectorAll("#releases .disclosure").length') > 0);
    assert.ok(await browser.dots(RELEASE) > 20);
    assert.equal(await browser.dots(REFUSAL), 0);
    if (await browser.turns() > 8) await changes(browser, 'a zoom by a key', () => browser.press('+', '+'));
    await browser.press('0', 'l');
    await browser.type('True %% True');
    await browser.press('Enter');
    assert.match(await browser.text('counts'), /^sees \d+ of \d+ turns.*1 release/);
    await browser.press('1');
  },

  // A refusal is found, told and shown, by keys alone.
  async refusal(browser) {
    await browser.press('x');
    assert.match(await browser.text('turn'), /flow_current/);
    assert.ok(await browser.dots(REFUSAL) > 5);
    assert.equal(await browser.dots(RELEASE), 0);
    await changes(browser, 'everyone', () => browser.press('2'));
    assert.equal(await browser.dots(REFUSAL), 0);
    await browser.press('1');
  },

  // A page of 100,000 turns is drawn anew soon.
  async long(browser) {
    for (const key of ['End', '+', '+', '+', 'd', '2', '0', '1']) {
      const started = Date.now();
      await browser.press(key);
      assert.ok(Date.now() - started < MOST_REDRAW, `the key ${key} took ${Date.now() - started} ms`);
    }
    await browser.press('End');
    assert.match(await browser.text('turn'), /^turn 99,?999/);
  },

  // The first example has run; another script is refused at its line, one is refused a turn, and all of it is seen in the page of the run.
  async play(browser) {
    const answered = '!document.getElementById("run").disabled && !document.getElementById("answer").hidden';
    const run = async (script, how) => {
      await browser.value(`document.querySelector("#script_text textarea").value = ${JSON.stringify(script)}; document.getElementById("answer").hidden = true`);
      await how();
      await browser.until(answered, MOST_MILLISECONDS);
    };
    const sees = (counts) => browser.until(`document.documentElement.dataset.ready === "yes" && document.getElementById("counts").textContent.startsWith(${
      JSON.stringify(counts)})`, MOST_MILLISECONDS, () => browser.within);
    await browser.until(answered, MOST_MILLISECONDS);
    assert.match(await browser.text('status'), /to its end/);
    assert.match(await browser.text('written'), /out\.txttea at four/);
    await sees('4 turns, 0 refusals, 1 release');
    await browser.clickOn('#script_text textarea');
    await run('proc main c a p\nsend c 1\nsned c a\nend\n', () => browser.press('Control+Enter'));
    assert.match(await browser.text('status'), /script was refused/);
    assert.equal(await browser.value('document.querySelector("#script_text .numbers .refused").textContent'), '3');
    assert.equal(await browser.value('document.getElementById("seen").hidden'), true);
    await run('proc main c a p\nunlabel t a\nsend c t\nend\n', () => browser.clickOn('#run'));
    assert.match(await browser.text('summary'), /flow_current/);
    assert.equal(await browser.text('written'), 'out.txtnothing');
    await sees('3 turns, 1 refusal, 0 releases');
    await browser.clickOn('#summary .places button');
  },

  async look() {},
};

async function useAll(browser, { page, use, hidden }) {
  const { targetId } = await browser.ask('Target.createTarget', { url: 'about:blank' });
  browser.session = (await browser.ask('Target.attachToTarget', { targetId, flatten: true })).sessionId;
  for (const part of ['Page', 'Runtime', 'Log']) await browser.ask(`${part}.enable`);
  await browser.ask('Target.setAutoAttach', { autoAttach: true, waitForDebuggerOnStart: false, flatten: true });
  await browser.ask('Page.bringToFront');
  await browser.ask('Emulation.setDeviceMetricsOverride', { width: 1400, height: 900, deviceScaleFactor: 1, mobile: false });
  const started = Date.now();
  await browser.ask('Page.navigate', { url: pathToFileURL(path.resolve(page)).href });
  await browser.until('document.documentElement.dataset.ready === "yes"', MOST_MILLISECONDS);
  await browser.drawn();
  const milliseconds = Date.now() - started;
  assert.ok(milliseconds <= MOST_MILLISECONDS, `${page} stood after ${milliseconds} ms`);
  const name = path.basename(page, '.html');
  await USES[use](browser);
  await browser.picture(1400, name);
  await browser.picture(700, name);
  await browser.press(...KEYS);
  await browser.size(1400);
  await browser.press(...KEYS);
  for (const text of hidden) {
    assert.ok(!(await browser.value(`document.documentElement.outerHTML.includes(${JSON.stringify(text)})`)), `${name} holds ${text}`);
  }
  assert.deepEqual(browser.faults, [], `${name}: the browser's log`);
  browser.session = undefined;
  await browser.ask('Target.closeTarget', { targetId });
  return milliseconds;
}

const profile = fs.mkdtempSync(path.join(os.tmpdir(), 'lio-chromium-'));
const words = ['--headless=new', '--remote-debugging-pipe', '--no-first-run', '--disable-gpu', '--disable-dev-shm-usage', '--disable-extensions',
  '--disable-background-networking', '--disable-component-update', '--hide-scrollbars', `--user-data-dir=${profile}`];
// as root Chromium begins without its sandbox alone
if (process.getuid() === 0) words.push('--no-sandbox');
const child = spawn(program, words, { stdio: ['ignore', 'ignore', 'ignore', 'pipe', 'pipe'] });
const ended = new Promise((resolve) => { child.once('exit', resolve); });
const late = setTimeout(() => { child.kill('SIGKILL'); }, MOST_ALL);
const browser = new Browser(child);
const isDead = ended.then(() => { throw new Error('Chromium ended, or took too long'); });
try {
  const all = JSON.parse(fs.readFileSync(uses, 'utf8'));
  const times = [];
  for (const one of all) {
    times.push(await Promise.race([useAll(browser, one), isDead]).catch((fault) => {
      fault.message = `${path.basename(one.page)}, ${one.use}: ${fault.message}`;
      throw fault;
    }));
    if (PATIENCE !== 1) console.log(`chromium: ${path.basename(one.page)}, ${one.use}: stood after ${times[times.length - 1]} ms`);
  }
  console.log(`chromium: ${all.length} pages used by mouse and keys, no error in the log; the slowest stood after ${Math.max(...times)} ms`);
} finally {
  clearTimeout(late);
  isDead.catch(() => {});
  child.kill();
  await ended;
  fs.rmSync(profile, { recursive: true, force: true, maxRetries: 5, retryDelay: 200 });
}
