"use strict";
// What a painter draws over and beside the waves: names, times, cursors, and the arrows of causes.

Object.assign(Painter.prototype, {
  label(row, y) {
    const { ink, view, colour } = this;
    this.box(0, y, view.labels, ROW, row === view.row || view.pointed.has(row.wire) ? colour.chosen : colour.ground);
    const level = view.levelAtCursor(row);
    const room = Math.floor((view.labels - LEFT) / this.letter) - 2 - Math.max(view.letters, level.length);
    ink.fillStyle = row.wire === undefined || row.isChanged ? colour.other : colour.ink;
    ink.fillText(row.name.length > room ? `${row.name.slice(0, Math.max(room - 1, 3))}…` : row.name, LEFT, y + ROW / 2);
    ink.fillStyle = colour.dim;
    ink.fillText(level, view.labels - (level.length + 1) * this.letter, y + ROW / 2);
  },

  /** The times, the places of findings, and above them which part of all times is seen. */
  head() {
    const { ink, view, colour } = this;
    this.box(view.labels, 0, view.width, HEAD, colour.ground);
    ink.fillStyle = colour.dim;
    for (const time of this.ticks()) this.tickText(time);
    this.eachGrain(this.placeTimes, (x) => this.flaw(x, x, HEAD - 6), (x, end) => this.flaw(x, end, HEAD - 6));
    const part = (view.width - view.labels) / view.horizon;
    this.box(view.labels, 4, view.width, 8, colour.line);
    this.box(view.labels + view.from * part, 4, Math.max(3, ((view.width - view.labels) / view.scale) * part), 8, colour.busy);
    this.flag(view.cursor, colour.cursor);
    this.flag(view.mark, colour.mark);
  },

  /** A time, where it has room and no time of a cursor stands. */
  tickText(time) {
    const { view, letter } = this;
    const x = view.x(time) + 3;
    const end = x + String(time).length * letter;
    const flags = [view.cursor, view.mark].map((other) => this.flagPlace(other));
    const isFree = flags.every((flag) => flag === null || flag.begin >= end || flag.end <= x);
    if (isFree && end <= view.width) this.ink.fillText(String(time), x, HEAD - 16);
  },

  /** Where the time of a cursor stands: from its line on, or up to the end of the picture. Nowhere where the line isn't seen. */
  flagPlace(time) {
    const { view, letter } = this;
    if (time === null || view.x(time) < view.labels - 1 || view.x(time) > view.width) return null;
    const size = (String(time).length + 1) * letter;
    const begin = Math.min(view.x(time), view.width - size);
    return { begin, end: begin + size };
  },

  /** The time of a cursor. */
  flag(time, colour) {
    const place = this.flagPlace(time);
    if (place === null) return;
    this.box(place.begin, HEAD - 25, place.end - place.begin, 18, colour);
    this.ink.fillStyle = this.colour.ground;
    this.ink.fillText(String(time), place.begin + this.letter / 2, HEAD - 16);
  },

  cursors() {
    const { ink, view, colour } = this;
    if (view.mark !== null) {
      ink.globalAlpha = 0.1;
      this.box(view.x(view.cursor), HEAD, (view.mark - view.cursor) * view.scale, view.height, colour.mark);
      ink.globalAlpha = 1;
      this.upright(view.mark, colour.mark);
    }
    this.upright(view.cursor, colour.cursor);
  },

  /** The arrows of the chain of causes, and of what its last change leads to. */
  arrows() {
    const { view, causes, colour } = this;
    if (!view.chain) return;
    view.chain.reach(view.from);
    const { ages, steps } = view.chain;
    const [last] = steps;
    for (let next = Math.max(0, firstFrom(ages, -view.time(view.width)) - 1); next < steps.length && ages[next] <= -view.from; ) {
      const step = steps[next];
      for (const event of step.events.slice(1)) this.arrow(event, step, colour.dim);
      if (step.events.length) this.arrow(step.events[0], step, colour.cause);
      const after = firstFrom(ages, LEAST_STEP / view.scale - causes.time(step), next + 1);
      if (after > next + 1 && after < steps.length) this.thread(steps[after], step.events[0], colour.cause);
      next = after;
    }
    for (const effect of view.effects) this.arrow(last, effect, colour.effect);
  },

  /** The last period, shaded, and its critical cycle. */
  period() {
    const { ink, view, colour } = this;
    if (!view.isPeriodShown) return;
    const { units, to, steps } = view.period;
    ink.globalAlpha = 0.1;
    this.box(view.x(to - units), HEAD, units * view.scale, view.height, colour.cause);
    ink.globalAlpha = 1;
    for (const step of steps) this.arrow(step.events[0], step, colour.cause);
  },

  /** Where a line from one change to another begins and ends, if the rows of both are there and some of it may be seen. */
  ends(from, to) {
    const { view, causes } = this;
    const places = [from, to].map(({ wire }) => view.placesOfWires.get(wire));
    if (places.includes(undefined)) return null;
    const [x, end] = [from, to].map((change) => view.x(causes.time(change)));
    const [y, height] = places.map((place) => view.y(place) + ROW / 2);
    if (Math.max(y, height) < HEAD || Math.min(y, height) > view.height || x > view.width) return null;
    return { x, y, end, height };
  },

  /** A line in the place of arrows that are left out. */
  thread(from, to, colour) {
    const ends = this.ends(from, to);
    if (ends === null) return;
    this.ink.beginPath();
    this.ink.moveTo(ends.x, ends.y);
    this.ink.lineTo(ends.end, ends.height);
    this.stroke(colour);
  },

  /** An arrow from one change to another. */
  arrow(from, to, colour) {
    const { ink } = this;
    const ends = this.ends(from, to);
    if (ends === null) return;
    const { x, y, end, height } = ends;
    const bend = Math.max(8, (end - x) / 2);
    ink.beginPath();
    ink.moveTo(x, y);
    ink.bezierCurveTo(x + bend, y, end - bend, height, end - 5, height);
    this.stroke(colour);
    ink.fillStyle = colour;
    ink.beginPath();
    ink.moveTo(end, height);
    ink.lineTo(end - 7, height - 3.5);
    ink.lineTo(end - 7, height + 3.5);
    ink.fill();
  },
});
