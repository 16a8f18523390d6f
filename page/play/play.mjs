// The page in which scripts are written and run: what is edited, the host beside it, and what a run says and writes.

import { element } from '../elements.mjs';
import { Editor } from './editor.mjs';
import { lineOf, linesOf, STATUSES, summaryOf } from './answers.mjs';
import { runPage } from './shown.mjs';

const POLICY = 'policy.json';
const SCRIPT = 'script.lio';
const HISTORY = 'history.txt';

function part(id) {
  return document.getElementById(id);
}

// The bytes of a text that stands in the page as base64 over gzip.
async function unpacked(text) {
  const packed = Uint8Array.from(atob(text.trim()), (sign) => sign.charCodeAt(0));
  const stream = new Blob([packed]).stream().pipeThrough(new DecompressionStream('gzip'));
  return new Uint8Array(await new Response(stream).arrayBuffer());
}

export class Play {
  constructor(examples) {
    this.examples = examples;
    this.policy = new Editor(part('policy_text'), 'the policy', () => this.changed());
    this.script = new Editor(part('script_text'), 'the script', () => this.changed());
    this.inputs = new Map();
    part('example').append(...examples.map(({ name }, place) => {
      const option = element('option', '', name);
      option.value = String(place);
      return option;
    }));
    part('example').addEventListener('change', () => {
      this.open(Number(part('example').value));
      this.run();
    });
    part('run').addEventListener('click', () => this.run());
    part('stop').addEventListener('click', () => this.giveUp());
    document.addEventListener('keydown', (event) => {
      if (event.key === 'Enter' && (event.ctrlKey || event.metaKey)) {
        event.preventDefault();
        this.run();
      }
    });
  }

  // Begins a host beside the page.
  async begin() {
    this.module = await unpacked(part('module').textContent);
    const source = new Blob([part('worker').textContent], { type: 'text/javascript' });
    this.source = URL.createObjectURL(source);
    this.open(0);
    await this.start();
    this.run();
  }

  start() {
    this.worker = new Worker(this.source);
    this.isRunning(true);
    return new Promise((resolve, reject) => {
      this.worker.onmessage = ({ data }) => {
        this.isRunning(false);
        if (data.fault === undefined) resolve();
        else {
          this.say(`This browser can't run the host: ${data.fault}. It takes WebAssembly with memory of 64 bits.`);
          reject(new Error(data.fault));
        }
      };
      this.worker.postMessage({ module: this.module });
    });
  }

  isRunning(isSo) {
    part('run').disabled = isSo;
    part('stop').disabled = !isSo;
  }

  // Opens an example.
  open(place) {
    const { policy, script, files } = this.examples[place];
    this.policy.value = policy;
    this.script.value = script;
    this.showInputs(files);
    this.forget();
  }

  // A field for the text of each input.
  showInputs(files) {
    this.inputs.clear();
    const fields = files.map(([name, text]) => {
      const field = element('textarea', 'input');
      field.value = text;
      field.rows = Math.min(Math.max(text.split('\n').length, 1), 6);
      field.spellcheck = false;
      field.addEventListener('input', () => this.changed());
      this.inputs.set(name, field);
      return element('label', 'field', element('code', '', name), field);
    });
    part('inputs').replaceChildren(...fields);
  }

  // A file that the policy names and that has no field yet gets one.
  addInputs() {
    let named = [];
    try {
      named = JSON.parse(this.policy.value).inputs.map(({ file }) => file).filter((file) => typeof file === 'string');
    } catch {
      return;
    }
    if (named.every((name) => this.inputs.has(name))) return;
    this.showInputs([...new Set([...this.inputs.keys(), ...named])].map((name) => [name, this.inputs.get(name)?.value ?? '']));
  }

  // What was edited isn't what was run.
  changed() {
    part('stale').hidden = part('answer').hidden;
  }

  forget() {
    part('answer').hidden = true;
    part('stale').hidden = true;
  }

  run() {
    if (part('run').disabled) return;
    this.addInputs();
    const encoder = new TextEncoder();
    const files = [[POLICY, this.policy.value], [SCRIPT, this.script.value], ...[...this.inputs].map(([name, field]) => [name, field.value])];
    const given = [...new Map(files.map(([name, text]) => [name, encoder.encode(text)]))];
    this.isRunning(true);
    this.worker.onmessage = ({ data }) => {
      this.isRunning(false);
      if (data.fault === undefined) this.show(data.answer);
      else this.say(`The run broke off: ${data.fault}`);
    };
    this.worker.postMessage({ words: [POLICY, SCRIPT, '--history', HISTORY], files: given });
  }

  // Gives up a run, with the host that takes it.
  async giveUp() {
    this.worker.terminate();
    this.say('The run was given up.');
    await this.start();
  }

  say(text) {
    this.forget();
    part('answer').hidden = false;
    part('status').textContent = text;
    part('summary').replaceChildren();
    part('written').replaceChildren();
    part('seen').hidden = true;
  }

  // What the host answered: a summary and files, or what it refused and where.
  show({ status, said, message, files }) {
    this.say(STATUSES[status] ?? `The host answered with status ${status}.`);
    this.policy.mark(lineOf(message, POLICY));
    this.script.mark(lineOf(message, SCRIPT));
    part('summary').replaceChildren(...summaryOf(said, message, linesOf(message, SCRIPT), (line) => {
      this.script.mark(line);
      this.script.reveal();
    }));
    const decoder = new TextDecoder();
    const texts = files.map(([name, bytes]) => [name, decoder.decode(bytes)]);
    part('written').replaceChildren(...texts.filter(([name]) => name !== HISTORY).flatMap(([name, text]) => [
      element('dt', '', element('code', '', name)), element('dd', '', element('pre', text === '' ? 'hint' : '', text === '' ? 'nothing' : text)),
    ]));
    const history = texts.find(([name]) => name === HISTORY);
    part('seen').hidden = history === undefined;
    if (history !== undefined) part('seen').srcdoc = runPage(part('run_page').textContent, this.policy.value, this.script.value, history[1]);
  }
}

export async function begin() {
  const play = new Play(JSON.parse(part('examples').textContent));
  await play.begin();
  document.documentElement.dataset.ready = 'yes';
  return play;
}
