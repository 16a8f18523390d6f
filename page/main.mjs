// The page: what it holds, who observes, and which turn is selected.

import { element } from './elements.mjs';
import { seenTurns, Sight } from './erasure.mjs';
import { HELP, listen } from './keys.mjs';
import { labelText, readLabel } from './labels.mjs';
import { bounded, firstFrom, lanesOf, nodesOf, showing, zoomed } from './layout.mjs';
import { Run } from './lines.mjs';
import { TurnList } from './list.mjs';
import { countsText, ObserverBar } from './observers.mjs';
import { ReleasePanel, ScriptPanel, TurnPanel } from './panels.mjs';
import { Plot } from './plot.mjs';
import { procedureNames } from './script.mjs';

function part(id) {
  return document.getElementById(id);
}

export class Page {
  // `held` is what the tool put into the page.
  constructor(held) {
    this.script = held.script;
    this.lines = held.lines;
    this.names = held.policy.principals;
    this.run = new Run(held.history, this.names, held.observer === null);
    this.maker = held.observer === null ? null : readLabel(this.names, held.observer);
    this.sight = new Sight(this.run.table, this.maker);
    this.selected = null;
    this.onlySeen = false;
    this.isWaiting = false;
    this.stretch = bounded(this.run.count, 0, this.run.count);
    this.allTurns = seenTurns(this.run, new Sight(this.run.table, null));
    this.place(held.policy);
    this.makeParts();
  }

  place(policy) {
    const labelOf = (text) => this.run.table.numberOf(labelText(this.names, readLabel(this.names, text)));
    this.lanes = lanesOf(this.run, policy, procedureNames(this.script), this.sight, labelOf);
    this.nodes = nodesOf(policy);
    this.laneOf = new Map(this.lanes.map((lane, place) => [lane.number, place]));
    for (const lane of this.lanes) this.nodes.set(lane.number, lane.name);
    this.births = this.run.births
      .map(({ turn, parent, child }) => ({ turn, from: this.laneOf.get(parent), to: this.laneOf.get(child) }))
      .filter(({ from, to }) => from !== undefined && to !== undefined);
  }

  makeParts() {
    this.plot = new Plot(this, part('plot'), part('lanes'));
    this.list = new TurnList(this, part('turns'));
    this.turnPanel = new TurnPanel(this, part('turn'));
    this.scriptPanel = new ScriptPanel(this, part('script'));
    this.releasePanel = new ReleasePanel(this, part('releases'));
    this.bar = new ObserverBar(this, part('observers'), part('label'), part('message'));
    this.onlyBox = part('only');
    this.onlyBox.addEventListener('change', () => this.listOnlySeen(this.onlyBox.checked));
    part('zoom_in').addEventListener('click', () => this.zoom(0.5));
    part('zoom_out').addEventListener('click', () => this.zoom(2));
    part('zoom_all').addEventListener('click', () => this.zoomOut());
    part('help_button').addEventListener('click', () => this.toggleHelp());
    part('owners').append(...this.names.map((name, owner) => element('span', 'owner', this.plot.drawing.ownerSwatch(owner), name)));
    part('help').append(...HELP.flatMap(([keys, does]) => [element('dt', '', keys), element('dd', '', does)]));
    window.addEventListener('resize', () => this.resize());
    listen(this);
    this.plot.resize();
    this.bar.pick(0);
  }

  nameOf(number) {
    return this.nodes.get(number) ?? `node ${number}`;
  }

  // Draws once for all that changes in one step of the browser.
  redraw() {
    if (this.isWaiting) return;
    this.isWaiting = true;
    requestAnimationFrame(() => {
      this.isWaiting = false;
      this.plot.draw();
      this.list.draw();
    });
  }

  resize() {
    this.plot.resize();
    this.redraw();
  }

  // Shows the run as an observer with a label sees it, or the operator.
  observe(label) {
    this.sight = new Sight(this.run.table, label);
    this.seen = seenTurns(this.run, this.sight);
    part('counts').textContent = countsText(this.run, this.sight, this.seen, this.isWhole(label));
    this.choose();
    this.scriptPanel.draw();
    this.releasePanel.draw();
    this.turnPanel.draw();
    this.redraw();
  }

  // Whether whoever observes sees all that is in the page.
  isWhole(label) {
    if (label === null) return true;
    return this.maker !== null && labelText(this.names, label) === labelText(this.names, this.maker);
  }

  // The turns that the list shows.
  choose() {
    this.shown = this.onlySeen ? this.seen : this.allTurns;
  }

  listOnlySeen(onlySeen) {
    this.onlySeen = onlySeen;
    this.onlyBox.checked = onlySeen;
    this.choose();
    this.redraw();
  }

  toggleOnlySeen() {
    this.listOnlySeen(!this.onlySeen);
  }

  // The place of a turn among those that the list shows, or -1.
  placeOf(turn) {
    const place = firstFrom(this.shown, turn);
    return this.shown[place] === turn ? place : -1;
  }

  select(turn) {
    this.selected = turn;
    this.stretch = showing(this.run.count, this.stretch, turn);
    const lane = this.laneOf.get(this.run.actors[turn]);
    if (lane !== undefined) this.plot.reveal(lane);
    this.list.reveal();
    this.turnPanel.draw();
    this.scriptPanel.markLine();
    this.redraw();
  }

  selectPlace(place) {
    if (this.shown.length === 0) return;
    this.select(this.shown[Math.min(Math.max(place, 0), this.shown.length - 1)]);
  }

  // Goes on by so many turns of the list.
  step(by) {
    if (this.selected === null) this.selectPlace(0);
    else this.selectPlace(firstFrom(this.shown, this.selected) + by);
  }

  stepInTask(by) {
    if (this.selected === null) {
      this.selectPlace(0);
      return;
    }
    const lane = this.lanes[this.laneOf.get(this.run.actors[this.selected])];
    const turn = lane.turns[firstFrom(lane.turns, this.selected) + by];
    if (turn !== undefined) this.select(turn);
  }

  // Selects the next seen turn in a direction that passes a test.
  find(by, passes) {
    const start = this.selected ?? (by > 0 ? -1 : this.run.count);
    for (let turn = start + by; turn >= 0 && turn < this.run.count; turn += by) {
      if (this.sight.sees(this.run, turn) && passes(this.run, turn)) {
        this.select(turn);
        return;
      }
    }
  }

  // Shows a stretch of turns.
  show(stretch) {
    this.stretch = stretch;
    this.redraw();
  }

  zoom(factor) {
    const { from, to } = this.stretch;
    const isInSight = this.selected !== null && this.selected >= from && this.selected < to;
    this.show(zoomed(this.run.count, this.stretch, isInSight ? this.selected + 0.5 : (from + to) / 2, factor));
  }

  zoomOut() {
    this.show(bounded(this.run.count, 0, this.run.count));
  }

  pan(share) {
    const by = share * (this.stretch.to - this.stretch.from);
    this.show(bounded(this.run.count, this.stretch.from + by, this.stretch.to + by));
  }

  toggleHelp() {
    part('help').hidden = !part('help').hidden;
    part('help_button').setAttribute('aria-expanded', String(!part('help').hidden));
  }

  hideHelp() {
    if (!part('help').hidden) this.toggleHelp();
  }
}

// Begins the page in a browser.
export function begin() {
  const page = new Page(JSON.parse(part('held').textContent));
  document.documentElement.dataset.ready = 'yes';
  return page;
}
