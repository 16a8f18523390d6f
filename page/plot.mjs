// The picture of the lanes with what the mouse does on it: a click picks a turn, a drag moves, the wheel zooms or scrolls.

import { AXIS_HEIGHT, Drawing, LANE_HEIGHT } from './drawing.mjs';
import { nearest, zoomed, bounded } from './layout.mjs';

const MOST_SHARE = 0.42;
const LEAST_HEIGHT = AXIS_HEIGHT + 2 * LANE_HEIGHT;
// how far the mouse may move in a click
const STILL = 4;

function makeCanvas(width, height) {
  const canvas = document.createElement('canvas');
  canvas.width = width;
  canvas.height = height;
  return canvas;
}

export class Plot {
  constructor(page, box, canvas) {
    this.page = page;
    this.box = box;
    this.drawing = new Drawing(canvas, makeCanvas);
    this.scrolled = 0;
    this.drag = null;
    canvas.addEventListener('pointerdown', (event) => this.pressed(event));
    canvas.addEventListener('pointermove', (event) => this.moved(event));
    canvas.addEventListener('pointerup', (event) => this.released(event));
    canvas.addEventListener('pointercancel', () => { this.drag = null; });
    canvas.addEventListener('wheel', (event) => this.wheeled(event), { passive: false });
  }

  get wholeHeight() {
    return AXIS_HEIGHT + this.page.lanes.length * LANE_HEIGHT + 4;
  }

  get mostScrolled() {
    return Math.max(this.wholeHeight - this.drawing.height, 0);
  }

  resize() {
    const most = Math.max(Math.round(window.innerHeight * MOST_SHARE), LEAST_HEIGHT);
    this.drawing.resize(this.box.clientWidth, Math.min(this.wholeHeight, most), window.devicePixelRatio || 1);
    this.scroll(this.scrolled);
  }

  scroll(scrolled) {
    this.scrolled = Math.min(Math.max(scrolled, 0), this.mostScrolled);
  }

  view() {
    const { run, sight, lanes, laneOf, births, stretch, selected } = this.page;
    return { run, sight, lanes, laneOf, births, stretch, selected, scrolled: this.scrolled };
  }

  draw() {
    this.drawing.draw(this.view());
  }

  // Scrolls so that the lane of a task is in sight.
  reveal(lane) {
    const top = lane * LANE_HEIGHT;
    const room = this.drawing.height - AXIS_HEIGHT;
    if (top < this.scrolled) this.scroll(top);
    else if (top + LANE_HEIGHT > this.scrolled + room) this.scroll(top + LANE_HEIGHT - room);
  }

  // The turn at a place of the picture: the nearest of the lane.
  turnAt(event) {
    const view = this.view();
    const lane = this.page.lanes[this.drawing.laneAt(view, event.offsetY)];
    const wanted = this.drawing.turnAt(view, event.offsetX) - 0.5;
    return lane === undefined ? -1 : nearest(lane.turns, wanted);
  }

  pressed(event) {
    event.target.setPointerCapture(event.pointerId);
    this.drag = { x: event.offsetX, y: event.offsetY, stretch: this.page.stretch, scrolled: this.scrolled, isClick: true };
  }

  moved(event) {
    if (this.drag === null) {
      this.hint(event);
      return;
    }
    const right = event.offsetX - this.drag.x;
    const down = event.offsetY - this.drag.y;
    if (Math.hypot(right, down) > STILL) this.drag.isClick = false;
    if (this.drag.isClick) return;
    const turns = (right * (this.drag.stretch.to - this.drag.stretch.from)) / this.drawing.plotWidth;
    this.scroll(this.drag.scrolled - down);
    this.page.show(bounded(this.page.run.count, this.drag.stretch.from - turns, this.drag.stretch.to - turns));
  }

  released(event) {
    const isClick = this.drag !== null && this.drag.isClick;
    this.drag = null;
    if (!isClick) return;
    const turn = this.turnAt(event);
    if (turn >= 0) this.page.select(turn);
  }

  hint(event) {
    const turn = this.turnAt(event);
    const isSeen = turn >= 0 && this.page.sight.sees(this.page.run, turn);
    this.drawing.canvas.title = isSeen ? `${turn}: ${this.page.list.lineOf(turn).slice(0, 300)}` : '';
  }

  // The wheel zooms about the mouse; where not all lanes have room it scrolls them, and zooms with Control.
  wheeled(event) {
    event.preventDefault();
    if (this.mostScrolled > 0 && !event.ctrlKey) {
      this.scroll(this.scrolled + event.deltaY);
      this.page.redraw();
      return;
    }
    const about = this.drawing.turnAt(this.view(), event.offsetX);
    this.page.show(zoomed(this.page.run.count, this.page.stretch, about, event.deltaY > 0 ? 1.25 : 0.8));
  }
}
