// Draws the lanes on a canvas.

import { bandsOf, colourOf, NOBODY, PUBLIC, textureOf } from './colours.mjs';
import { secrecyText } from './labels.mjs';
import { axisStep, firstFrom } from './layout.mjs';

export const LANE_HEIGHT = 26;
export const AXIS_HEIGHT = 24;

const BAND_HEIGHT = 18;
const BAND_TOP = 4;
const TEXTURE_SIZE = 8;
const FONT = '12px system-ui, sans-serif';
const SMALL_FONT = '11px system-ui, sans-serif';
const INK = '#151922';
const FAINT = '#5d6677';
const REFUSAL = '#b00020';
const RELEASE = '#ffd000';
const MARK_RANKS = ['other', 'raise', 'birth', 'send', 'ended', 'refusal', 'release'];

// The lines of each texture in a square of eight points.
const TEXTURE_LINES = {
  plain: [],
  rising: [[0, 8, 8, 0]],
  falling: [[0, 0, 8, 8]],
  upright: [[4, 0, 4, 8]],
  level: [[0, 4, 8, 4]],
  grid: [[4, 0, 4, 8], [0, 4, 8, 4]],
  dots: [[3, 4, 5, 4]],
};
const UNSEEN_LINES = [[0, 8, 8, 0], [-2, 2, 2, -2], [6, 10, 10, 6]];

// How a turn is marked.
export function markOf(run, turn) {
  if (run.isRefused(turn)) return 'refusal';
  if (run.isDisclosure(turn)) return 'release';
  const word = run.actWord(turn);
  if (word === 'fork' || word === 'spawn') return 'birth';
  return MARK_RANKS.includes(word) ? word : 'other';
}

// The marks of a lane, at most one for each point of width: the one that tells most.
export function marksInSight(run, turns, stretch, width) {
  const scale = width / (stretch.to - stretch.from);
  const marks = [];
  let column = -Infinity;
  for (let place = firstFrom(turns, Math.floor(stretch.from)); place < turns.length && turns[place] < stretch.to; place += 1) {
    const turn = turns[place];
    const kind = markOf(run, turn);
    const x = (turn + 0.5 - stretch.from) * scale;
    if (Math.floor(x) !== column) {
      marks.push({ turn, kind, x });
      column = Math.floor(x);
    } else if (MARK_RANKS.indexOf(kind) > MARK_RANKS.indexOf(marks[marks.length - 1].kind)) {
      marks[marks.length - 1] = { turn, kind, x };
    }
  }
  return marks;
}

function polygon(pen, points, fill) {
  pen.beginPath();
  points.forEach(([x, y], place) => (place === 0 ? pen.moveTo(x, y) : pen.lineTo(x, y)));
  pen.closePath();
  pen.fillStyle = fill;
  pen.fill();
}

function line(pen, points, colour, width) {
  pen.beginPath();
  points.forEach(([x, y], place) => (place === 0 ? pen.moveTo(x, y) : pen.lineTo(x, y)));
  pen.strokeStyle = colour;
  pen.lineWidth = width;
  pen.stroke();
}

function circle(pen, x, y, radius, fill, edge) {
  pen.beginPath();
  pen.arc(x, y, radius, 0, 2 * Math.PI);
  pen.fillStyle = fill;
  pen.fill();
  pen.strokeStyle = edge;
  pen.lineWidth = 1.5;
  pen.stroke();
}

// Each mark has a form of its own, so that it isn't told by its colour alone.
const MARKS = {
  other: (pen, x, y) => line(pen, [[x, y - 4], [x, y + 4]], 'rgba(255,255,255,0.75)', 1),
  raise: (pen, x, y) => line(pen, [[x - 4, y + 4], [x, y - 1], [x + 4, y + 4]], '#ffffff', 1.75),
  birth: (pen, x, y) => circle(pen, x, y, 3.5, '#ffffff', INK),
  send: (pen, x, y) => polygon(pen, [[x - 5, y - 4], [x + 5, y - 4], [x, y + 5]], INK),
  ended: (pen, x, y) => line(pen, [[x, y - 9], [x, y + 9]], INK, 3),
  refusal: (pen, x, y) => {
    line(pen, [[x - 5, y - 5], [x + 5, y + 5]], '#ffffff', 4.5);
    line(pen, [[x - 5, y + 5], [x + 5, y - 5]], '#ffffff', 4.5);
    line(pen, [[x - 5, y - 5], [x + 5, y + 5]], REFUSAL, 2.25);
    line(pen, [[x - 5, y + 5], [x + 5, y - 5]], REFUSAL, 2.25);
  },
  release: (pen, x, y) => {
    polygon(pen, [[x, y - 8], [x + 8, y], [x, y + 8], [x - 8, y]], INK);
    polygon(pen, [[x, y - 6], [x + 6, y], [x, y + 6], [x - 6, y]], RELEASE);
  },
};

// A text cut so that it fits a width.
function fitted(pen, text, width) {
  if (pen.measureText(text).width <= width) return text;
  let length = text.length;
  while (length > 0 && pen.measureText(`${text.slice(0, length)}…`).width > width) length -= 1;
  return length === 0 ? '' : `${text.slice(0, length)}…`;
}

// Draws what a page shows on one canvas. `makeCanvas` gives a canvas of a size for textures.
export class Drawing {
  constructor(canvas, makeCanvas) {
    this.canvas = canvas;
    this.pen = canvas.getContext('2d');
    this.makeCanvas = makeCanvas;
    this.patterns = new Map();
  }

  // The size in points, with as many dots to a point as the screen has.
  resize(width, height, dots) {
    this.width = width;
    this.height = height;
    this.canvas.width = Math.round(width * dots);
    this.canvas.height = Math.round(height * dots);
    this.canvas.style.width = `${width}px`;
    this.canvas.style.height = `${height}px`;
    this.pen.setTransform(dots, 0, 0, dots, 0, 0);
  }

  // The room for the names of lanes.
  get gutter() {
    return Math.min(180, Math.max(96, Math.round(this.width * 0.14)));
  }

  get plotWidth() {
    return Math.max(this.width - this.gutter - 8, 1);
  }

  x(view, turn) {
    return this.gutter + ((turn - view.stretch.from) * this.plotWidth) / (view.stretch.to - view.stretch.from);
  }

  turnAt(view, x) {
    return view.stretch.from + ((x - this.gutter) * (view.stretch.to - view.stretch.from)) / this.plotWidth;
  }

  laneTop(view, lane) {
    return AXIS_HEIGHT + lane * LANE_HEIGHT - view.scrolled;
  }

  laneAt(view, y) {
    return y < AXIS_HEIGHT ? -1 : Math.floor((y - AXIS_HEIGHT + view.scrolled) / LANE_HEIGHT);
  }

  texture(name, lines, colour, ground) {
    const key = `${name} ${colour} ${ground}`;
    if (!this.patterns.has(key)) {
      const square = this.makeCanvas(TEXTURE_SIZE, TEXTURE_SIZE);
      const pen = square.getContext('2d');
      pen.fillStyle = ground;
      pen.fillRect(0, 0, TEXTURE_SIZE, TEXTURE_SIZE);
      for (const [left, top, right, bottom] of lines) line(pen, [[left, top], [right, bottom]], colour, 1.25);
      this.patterns.set(key, this.pen.createPattern(square, 'repeat'));
    }
    return this.patterns.get(key);
  }

  ownerFill(owner) {
    const texture = textureOf(owner);
    return this.texture(texture, TEXTURE_LINES[texture], 'rgba(255,255,255,0.38)', colourOf(owner));
  }

  // A small picture of an owner's colour and texture.
  ownerSwatch(owner) {
    const picture = this.makeCanvas(22, 12);
    const pen = picture.getContext('2d');
    pen.fillStyle = this.ownerFill(owner);
    pen.fillRect(0, 0, 22, 12);
    return picture;
  }

  unseenFill() {
    return this.texture('unseen', UNSEEN_LINES, '#9aa3b2', '#eef0f4');
  }

  // One band: in stripes where any one of several owners may learn the data.
  band(band, left, top, width, height) {
    const { pen } = this;
    if (band.kind !== 'owned') {
      pen.fillStyle = band.kind === 'public' ? PUBLIC : NOBODY;
      pen.fillRect(left, top, width, height);
      return;
    }
    const stripe = band.owners.length === 1 ? width : 10;
    for (let place = 0; place * stripe < width; place += 1) {
      pen.fillStyle = this.ownerFill(band.owners[place % band.owners.length]);
      pen.fillRect(left + place * stripe, top, Math.min(stripe, width - place * stripe), height);
    }
  }

  bands(label, left, top, width, height) {
    const bands = bandsOf(label);
    bands.forEach((band, place) => this.band(band, left, top + (place * height) / bands.length, width, height / bands.length));
  }

  draw(view) {
    const { pen } = this;
    pen.fillStyle = '#ffffff';
    pen.fillRect(0, 0, this.width, this.height);
    const first = Math.max(Math.floor(view.scrolled / LANE_HEIGHT), 0);
    const last = Math.min(Math.ceil((view.scrolled + this.height - AXIS_HEIGHT) / LANE_HEIGHT), view.lanes.length);
    this.clipped(() => {
      for (let place = first; place < last; place += 1) this.lane(view, view.lanes[place], place);
      this.lines(view, first, last);
      for (let place = first; place < last; place += 1) this.marks(view, view.lanes[place], place);
      this.cursor(view);
    });
    for (let place = first; place < last; place += 1) this.name(view, view.lanes[place], place);
    this.axis(view);
    this.scrollbar(view);
  }

  // How much of the lanes is in sight, at the right edge, where not all are.
  scrollbar(view) {
    const { pen } = this;
    const room = this.height - AXIS_HEIGHT;
    const beyond = view.lanes.length * LANE_HEIGHT + 4 - room;
    if (beyond <= 4) return;
    const thumb = Math.max((room * room) / (room + beyond), 12);
    pen.fillStyle = '#e3e7ee';
    pen.fillRect(this.width - 6, AXIS_HEIGHT, 5, room);
    pen.fillStyle = FAINT;
    pen.fillRect(this.width - 6, AXIS_HEIGHT + ((room - thumb) * view.scrolled) / beyond, 5, thumb);
  }

  // Draws within the plot alone.
  clipped(draw) {
    const { pen } = this;
    pen.save();
    pen.beginPath();
    pen.rect(this.gutter, AXIS_HEIGHT, this.plotWidth, this.height - AXIS_HEIGHT);
    pen.clip();
    draw();
    pen.restore();
  }

  lane(view, lane, place) {
    const top = this.laneTop(view, place);
    if (lane.kind === 'task') this.stretches(view, lane, top);
    else this.channel(view, lane, top);
  }

  channel(view, lane, top) {
    const middle = top + LANE_HEIGHT / 2;
    if (!view.sight.reaches(lane.label)) {
      this.pen.fillStyle = this.unseenFill();
      this.pen.fillRect(this.gutter, top + BAND_TOP, this.plotWidth, BAND_HEIGHT);
    }
    line(this.pen, [[this.gutter, middle], [this.gutter + this.plotWidth, middle]], '#b9c0cc', 1);
  }

  stretches(view, lane, top) {
    const { stretch } = view;
    let drawn = -Infinity;
    for (let place = this.firstStretch(lane, stretch); place < lane.stretches.length; place += 1) {
      const part = lane.stretches[place];
      if (part.from >= stretch.to) break;
      const left = Math.max(this.x(view, part.from), this.gutter);
      const right = Math.min(this.x(view, part.to), this.gutter + this.plotWidth);
      if (right - drawn >= 0.5) {
        this.stretch(view, part, left, top, right - left);
        drawn = right;
      }
    }
    if (lane.leaves) this.leaving(view, lane, top);
  }

  firstStretch(lane, stretch) {
    let low = 0;
    let high = lane.stretches.length;
    while (low < high) {
      const middle = (low + high) >> 1;
      if (lane.stretches[middle].to <= stretch.from) low = middle + 1;
      else high = middle;
    }
    return low;
  }

  stretch(view, part, left, top, width) {
    const { pen } = this;
    if (!view.sight.reaches(part.label)) {
      pen.fillStyle = this.unseenFill();
      pen.fillRect(left, top + BAND_TOP, width, BAND_HEIGHT);
      return;
    }
    const label = view.run.table.labels[part.label];
    this.bands(label, left, top + BAND_TOP, width, BAND_HEIGHT);
    if (width > 48 && label.secrecy.length > 0) this.inscribe(secrecyText(label.text), left, top, width);
  }

  // The owners' names on a band.
  inscribe(text, left, top, width) {
    const { pen } = this;
    pen.font = SMALL_FONT;
    pen.textBaseline = 'middle';
    const shown = fitted(pen, text, width - 22);
    if (shown === '') return;
    const room = pen.measureText(shown).width + 6;
    pen.fillStyle = 'rgba(255,255,255,0.88)';
    pen.fillRect(left + 3, top + BAND_TOP + 2, room, BAND_HEIGHT - 4);
    pen.fillStyle = INK;
    pen.fillText(shown, left + 6, top + LANE_HEIGHT / 2);
  }

  // The place at which a task goes out of sight.
  leaving(view, lane, top) {
    const last = lane.turns[lane.turns.length - 1];
    const x = this.x(view, last === undefined ? lane.begin : last + 1);
    const middle = top + LANE_HEIGHT / 2;
    polygon(this.pen, [[x, middle - 9], [x + 9, middle], [x, middle + 9]], FAINT);
  }

  // Lines from a birth to the lane of the child, where that lane is in sight: those of hundreds of others would cover what is.
  lines(view, first, last) {
    for (const { from, to, turn } of view.births) {
      const outside = to < first || to >= last || turn + 1 < view.stretch.from || turn > view.stretch.to;
      if (!outside) this.birthLine(view, from, to, turn);
    }
  }

  birthLine(view, from, to, turn) {
    if (!view.sight.sees(view.run, turn)) return;
    const x = this.x(view, turn + 0.5);
    const bottom = this.laneTop(view, to) + LANE_HEIGHT / 2;
    const points = [[x, this.laneTop(view, from) + LANE_HEIGHT / 2], [x, bottom], [this.x(view, turn + 1), bottom]];
    line(this.pen, points, '#7a8393', 1);
  }

  marks(view, lane, place) {
    const middle = this.laneTop(view, place) + LANE_HEIGHT / 2;
    const each = this.plotWidth / (view.stretch.to - view.stretch.from);
    for (const { turn, kind, x } of marksInSight(view.run, lane.turns, view.stretch, this.plotWidth)) {
      if (view.sight.sees(view.run, turn)) this.mark(lane, kind, this.gutter + x, middle, each);
    }
  }

  mark(lane, kind, x, middle, each) {
    if (lane.kind === 'channel') {
      if (kind === 'refusal') MARKS.refusal(this.pen, x, middle);
      else circle(this.pen, x, middle, 3.5, INK, INK);
    } else if (kind !== 'other' || each >= 5) {
      MARKS[kind](this.pen, x, middle);
    }
  }

  cursor(view) {
    if (view.selected === null) return;
    const x = this.x(view, view.selected + 0.5);
    line(this.pen, [[x, AXIS_HEIGHT], [x, this.height]], '#e08a00', 1.5);
    const place = view.laneOf.get(view.run.actors[view.selected]);
    if (place === undefined) return;
    this.pen.strokeStyle = '#e08a00';
    this.pen.lineWidth = 2;
    this.pen.strokeRect(x - 9, this.laneTop(view, place) + 2, 18, LANE_HEIGHT - 4);
  }

  name(view, lane, place) {
    const { pen } = this;
    const top = this.laneTop(view, place);
    const indent = 10 + Math.min(lane.depth, 6) * 12;
    pen.fillStyle = '#ffffff';
    pen.fillRect(0, top, this.gutter, LANE_HEIGHT);
    if (lane.kind === 'channel') this.channelSwatch(view, lane, top);
    pen.font = FONT;
    pen.textBaseline = 'middle';
    pen.fillStyle = INK;
    const name = lane.kind === 'channel' ? `→ ${lane.name}` : lane.name;
    pen.fillText(fitted(pen, name, this.gutter - indent - (lane.kind === 'channel' ? 24 : 6)), indent, top + LANE_HEIGHT / 2);
  }

  channelSwatch(view, lane, top) {
    this.bands(view.run.table.labels[lane.label], this.gutter - 16, top + BAND_TOP, 12, BAND_HEIGHT);
  }

  axis(view) {
    const { pen } = this;
    pen.fillStyle = '#ffffff';
    pen.fillRect(0, 0, this.width, AXIS_HEIGHT);
    pen.font = SMALL_FONT;
    pen.textBaseline = 'alphabetic';
    const step = axisStep(((view.stretch.to - view.stretch.from) * 64) / this.plotWidth);
    for (let turn = Math.ceil(view.stretch.from / step) * step; turn < view.stretch.to; turn += step) {
      const x = this.x(view, turn + 0.5);
      line(pen, [[x, AXIS_HEIGHT - 6], [x, AXIS_HEIGHT]], FAINT, 1);
      pen.fillStyle = FAINT;
      pen.fillText(String(turn), x + 3, AXIS_HEIGHT - 8);
    }
  }
}
