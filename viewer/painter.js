"use strict";
// Draws a view on a canvas. Only the rows and times that are seen are looked at, and changes that share a few pixels are drawn as one.

const FONT = '12px ui-monospace, "DejaVu Sans Mono", Menlo, Consolas, monospace';
const COLOURS = ["ground", "ink", "dim", "line", "chosen", "wave", "word", "busy", "cursor", "mark", "fault", "cause", "effect", "other", "differs"];
const EDGE = 6; // from the top of a row to its high level, and from its low level to the bottom
const GRAIN = 3; // in so many pixels more than one change is too much to be seen
const LEAST_CELL = 10; // between changes that are nearer than this, lines stand upright and don't cross
const SLOPE = 3; // half the width of a crossing
const LEAST_STEP = 3; // between steps that end nearer to each other than this a line stands for their arrows

class Painter {
  constructor(canvas, view) {
    Object.assign(this, { canvas, view });
    this.ink = canvas.getContext("2d", { alpha: false });
  }

  /** Takes the places of findings, and what finds causes. */
  take(places, causes) {
    this.causes = causes;
    this.placeTimes = Int32Array.from(places, (place) => place.time).sort();
    this.marks = new Map();
    for (const place of places) for (const wire of place.wires) this.addMark(wire, place.time);
    for (const times of this.marks.values()) times.sort((a, b) => a - b);
  }

  addMark(wire, time) {
    if (!this.marks.has(wire)) this.marks.set(wire, []);
    this.marks.get(wire).push(time);
  }

  /** Takes the colours of the page, and the size of the canvas. */
  resize() {
    const style = getComputedStyle(document.documentElement);
    this.colour = Object.fromEntries(COLOURS.map((name) => [name, style.getPropertyValue(`--${name}`).trim()]));
    this.dots = window.devicePixelRatio || 1;
    const { clientWidth, clientHeight } = this.canvas;
    this.canvas.width = Math.round(clientWidth * this.dots);
    this.canvas.height = Math.round(clientHeight * this.dots);
    this.ink.font = FONT;
    this.letter = this.ink.measureText("0").width;
    const names = this.view.rows.reduce((most, row) => Math.max(most, row.name.length), 4);
    const labels = LEFT + (names + this.view.letters + 4) * this.letter;
    this.view.resize(clientWidth, clientHeight, Math.ceil(Math.min(labels, clientWidth * 0.4)));
  }

  draw() {
    const { ink, view, colour } = this;
    ink.setTransform(this.dots, 0, 0, this.dots, 0, 0);
    this.thick = Math.max(1, Math.round(this.dots * 1.25)) / this.dots;
    Object.assign(ink, { font: FONT, textBaseline: "middle", lineWidth: this.thick });
    this.box(0, 0, view.width, view.height, colour.ground);
    this.clipped(view.labels, HEAD, () => {
      this.grid();
      this.eachRow((row, y) => this.row(row, y));
      this.cursors();
      this.arrows();
      this.period();
    });
    this.clipped(0, HEAD, () => this.eachRow((row, y) => this.label(row, y)));
    this.clipped(view.labels, 0, () => this.head());
  }

  /** Draws nothing left of `left` and above `top`. */
  clipped(left, top, draw) {
    this.ink.save();
    this.ink.beginPath();
    this.ink.rect(left, top, this.view.width, this.view.height);
    this.ink.clip();
    draw();
    this.ink.restore();
  }

  box(x, y, width, height, colour) {
    this.ink.fillStyle = colour;
    this.ink.fillRect(x, y, width, height);
  }

  /** Where the dot begins that a place lies in, so that lines are sharp. */
  edge(place) {
    return Math.floor(place * this.dots) / this.dots;
  }

  /** An upright line from the head of the picture down. */
  upright(time, colour) {
    this.box(this.edge(this.view.x(time)), HEAD, this.thick, this.view.height, colour);
  }

  stroke(colour) {
    this.ink.strokeStyle = colour;
    this.ink.stroke();
  }

  eachRow(draw) {
    const { view } = this;
    const end = Math.min(view.rows.length, Math.ceil((view.top + view.height - HEAD) / ROW));
    for (let place = Math.floor(view.top / ROW); place < end; place++) draw(view.rows[place], view.y(place));
  }

  /** Goes through some rising times, those that are seen. One that has a grain for itself is given to `one`, with its place and its number; a run of
   * grains with more of them to `many`, with its ends and the number of the last. Grains stay where they are in time when the picture moves. */
  eachGrain(times, one, many) {
    const { view } = this;
    const unit = GRAIN / view.scale;
    const end = firstFrom(times, view.time(view.width));
    const grain = (number) => Math.floor(times[number] / unit);
    for (let next = firstFrom(times, view.from); next < end; ) {
      const begin = grain(next);
      let stop = begin;
      let after = next;
      while (after < end && grain(after) === stop) {
        const beyond = Math.max(after + 1, firstFrom(times, (stop + 1) * unit, after + 1));
        if (beyond === after + 1) break;
        after = beyond;
        stop++;
      }
      if (stop > begin) many(this.edge(view.x(begin * unit)), this.edge(view.x(stop * unit)), after - 1);
      else one(view.x(times[next]), after++);
      next = after;
    }
  }

  /** The times at which lines stand: steps of 1, 2 or 5 times a power of ten. */
  *ticks() {
    const { view } = this;
    const least = Math.max(1, 76 / view.scale);
    const power = 10 ** Math.floor(Math.log10(least));
    const step = Math.ceil([1, 2, 5, 10].find((times) => times * power >= least) * power);
    for (let time = Math.ceil(view.from / step) * step; view.x(time) < view.width; time += step) yield time;
  }

  grid() {
    for (const time of this.ticks()) this.upright(time, this.colour.line);
  }

  row(row, y) {
    const { view, colour } = this;
    if (row === view.row || view.pointed.has(row.wire)) this.box(view.labels, y, view.width, ROW, colour.chosen);
    if (row.differs) this.shade(row.differs.times, y);
    if (row.before) this.wave({ ...row, wave: row.before, wire: undefined, isBehind: true }, y);
    this.wave(row, y);
    const marks = this.marks.get(row.wire);
    if (marks) this.eachGrain(marks, (x) => this.flaw(x, x, y), (x, end) => this.flaw(x, end, y));
  }

  wave(row, y) {
    if (row.isNarrow) this.bit(row, y);
    else this.word(row, y);
  }

  /** Marks findings between two places at the top of a row. */
  flaw(x, end, y) {
    const { ink, colour } = this;
    ink.fillStyle = colour.fault;
    ink.beginPath();
    ink.moveTo(x - 4, y);
    ink.lineTo(end + 4, y);
    ink.lineTo(end, y + 6);
    ink.lineTo(x, y + 6);
    ink.fill();
  }

  /** Marks where a wave differs, by the times at which that begins and ends in turn. */
  shade(times, y) {
    const { view } = this;
    let begin = firstFrom(times, view.from) % 2 ? view.labels : null;
    const fill = (from, end) => this.box(from, y, Math.max(end - from, 1), ROW, this.colour.differs);
    const turn = (x, number) => {
      if (begin !== null) fill(begin, x);
      begin = number % 2 ? null : x;
    };
    this.eachGrain(times, turn, (x, end, last) => {
      turn(end, last);
      fill(x, end);
    });
    if (begin !== null) fill(begin, view.width);
  }

  /** The waves are drawn of boxes, as far as they can, since these are painted much faster than lines. */
  bit({ wave, wire }, y) {
    const { ink, view, colour, thick } = this;
    const heightOf = (change) => (wave.isHigh(change) ? y + EDGE : y + ROW - EDGE - thick);
    let [begin, height] = [view.labels, heightOf(firstFrom(wave.times, view.from) - 1)];
    const bands = [];
    const lineTo = (x) => ink.fillRect(begin, height, x - begin, thick);
    ink.fillStyle = wire === undefined ? colour.other : colour.wave;
    const one = (place, change) => {
      const x = this.edge(place);
      lineTo(x);
      ink.fillRect(x, y + EDGE, thick, ROW - 2 * EDGE);
      [begin, height] = [x, heightOf(change)];
    };
    this.eachGrain(wave.times, one, (x, end, last) => {
      lineTo(x);
      bands.push([x, end]);
      [begin, height] = [end, heightOf(last)];
    });
    lineTo(view.width);
    this.bands(bands, y);
  }

  /** Where a wave changes too often to be drawn. */
  bands(bands, y) {
    for (const [x, end] of bands) this.box(x, y + EDGE, end - x, ROW - 2 * EDGE, this.colour.busy);
  }

  word(row, y) {
    const { ink, view, colour } = this;
    const cells = [];
    const bands = [];
    let begin = view.labels - EDGE;
    let change = firstFrom(row.wave.times, view.from) - 1;
    const cellTo = (end) => cells.push([begin, end, change]);
    const one = (x, next) => {
      cellTo(this.edge(x));
      [begin, change] = [this.edge(x), next];
    };
    this.eachGrain(row.wave.times, one, (x, end, last) => {
      cellTo(x);
      bands.push([x, end]);
      [begin, change] = [end, last];
    });
    cellTo(view.width + EDGE);
    ink.fillStyle = row.wire === undefined ? colour.other : colour.word;
    ink.beginPath();
    for (const [x, end] of cells) this.cell(x, end, y);
    this.stroke(ink.fillStyle);
    this.bands(bands, y);
    if (row.isBehind) return; // (its levels would stand among those of the wave before it)
    ink.fillStyle = colour.ink;
    for (const [x, end, of] of cells) if (end - x > this.letter + 8) this.level(Math.max(x, view.labels) + 5, end - 3, view.level(row, of), y);
  }

  /** The lines of a level between two changes. */
  cell(begin, end, y) {
    const { ink, thick } = this;
    const slope = end - begin < LEAST_CELL ? 0 : SLOPE;
    const [top, bottom] = [y + EDGE, y + ROW - EDGE - thick];
    ink.fillRect(begin + slope, top, end - begin - 2 * slope, thick);
    ink.fillRect(begin + slope, bottom, end - begin - 2 * slope, thick);
    if (!slope) return ink.fillRect(begin, top, thick, bottom - top);
    for (const [x, inner] of [[begin, begin + slope], [end, end - slope]]) {
      ink.moveTo(inner, top + thick / 2);
      ink.lineTo(x, y + ROW / 2);
      ink.lineTo(inner, bottom + thick / 2);
    }
  }

  /** A level, if it has room. */
  level(x, end, text, y) {
    if (text.length * this.letter <= Math.min(end, this.view.width) - x) this.ink.fillText(text, x, y + ROW / 2);
  }
}
