"use strict";
// What is seen of the waves: which rows, which times, the cursors, and the chain of causes that is drawn. Lengths are pixels of the page.

const ROW = 28; // the height of a row
const HEAD = 46; // the height of what stands above the rows: the overview and the times
const LEFT = 14; // the room in front of the names
const MOST_SCALE = 80; // the most pixels of a unit, where not all units together have more room

/** The steps of a chain of causes, found as far back as they are asked for. */
class Chain {
  constructor(causes, wire, time) {
    this.causes = causes;
    this.source = causes.chain(wire, time);
    this.steps = [];
    this.ages = []; // the times of the steps, each less than 0, so that they rise
    this.isWhole = false;
  }

  next() {
    const { value, done } = this.source.next();
    this.isWhole = done;
    if (done) return;
    this.steps.push(value);
    this.ages.push(-this.causes.time(value));
  }

  /** Finds all steps down to a time. */
  reach(time) {
    while (!this.isWhole && !(this.ages.at(-1) > -time)) this.next();
  }

  /** Finds so many steps, or all. */
  count(most) {
    while (!this.isWhole && this.steps.length < most) this.next();
  }
}

class View {
  constructor() {
    this.horizon = 1;
    this.all = []; // the rows of all wires
    this.rows = []; // those that are shown, in their order
    this.width = this.height = this.labels = 0;
    this.from = 0; // the time at the left edge
    this.scale = 0; // how many pixels a unit has
    this.top = 0; // how far the rows are moved up
    this.cursor = 0;
    this.mark = null; // the time of the second cursor
    this.row = null; // the row that is chosen
    this.pointed = new Set(); // the wires of the place that the list leads to
    this.chain = null;
    this.effects = [];
    this.period = null;
    this.isPeriodShown = false;
    this.isHex = false;
  }

  /** Takes the waves of a netlist. What was seen before is seen again: the times, and the wires in their order. New wires come last. */
  take(netlist, waves) {
    const { isFitted } = this;
    const known = new Set(this.all.map((row) => row.name));
    this.horizon = netlist.horizon;
    this.all = waves.map((wave, wire) => ({ wave, wire, name: wave.name, isNarrow: netlist.wires[wire].width === 1 }));
    this.digits = this.all.reduce((most, row) => (row.isNarrow ? most : Math.max(most, row.wave.longest())), 1); // those of the longest level
    const now = new Map(this.all.map((row) => [row.name, row]));
    const kept = this.rows.map((row) => now.get(row.name)).filter(Boolean);
    this.row = now.get(this.row?.name) ?? null;
    this.cursor = Math.min(this.cursor, this.horizon - 1);
    if (this.mark !== null) this.mark = Math.min(this.mark, this.horizon - 1);
    Object.assign(this, { pointed: new Set(), chain: null, effects: [] });
    this.setRows([...kept, ...this.all.filter((row) => !known.has(row.name))]);
    this.look(this.from, isFitted ? 0 : this.scale);
  }

  setRows(rows) {
    this.rows = rows;
    this.places = new Map(rows.map((row, place) => [row, place]));
    this.placesOfWires = new Map(rows.flatMap((row, place) => (row.wire === undefined ? [] : [[row.wire, place]])));
    if (!this.places.has(this.row)) this.row = null;
    this.scroll(0);
  }

  /** The least scale, at which all units are seen. */
  get least() {
    return Math.max(this.width - this.labels, 1) / this.horizon;
  }

  /** Whether all units are seen. */
  get isFitted() {
    return this.scale <= this.least * 1.0001;
  }

  x(time) {
    return this.labels + (time - this.from) * this.scale;
  }

  time(x) {
    return this.from + (x - this.labels) / this.scale;
  }

  /** The unit of time at a place. */
  unit(x) {
    return Math.max(0, Math.min(Math.floor(this.time(x)), this.horizon - 1));
  }

  /** The top of a row by its place among the rows. */
  y(place) {
    return HEAD + place * ROW - this.top;
  }

  /** The place of the row at a height, or -1. */
  placeAt(y) {
    const place = Math.floor((y - HEAD + this.top) / ROW);
    return y >= HEAD && place < this.rows.length ? place : -1;
  }

  resize(width, height, labels) {
    const { isFitted } = this;
    Object.assign(this, { width, height, labels });
    this.look(this.from, isFitted ? 0 : this.scale);
    this.scroll(0);
  }

  /** Shows the times from `from` on at a scale, or what is nearest to that. */
  look(from, scale = this.scale) {
    this.scale = Math.max(this.least, Math.min(scale, Math.max(MOST_SCALE, this.least)));
    this.from = Math.max(0, Math.min(from, this.horizon - (this.width - this.labels) / this.scale));
  }

  /** Makes units wider by a factor; the time at `x` stays where it is. */
  zoom(factor, x) {
    const time = this.time(x);
    this.look(this.from, this.scale * factor);
    this.look(time - (x - this.labels) / this.scale);
  }

  /** Shows later times, by so many pixels. */
  pan(pixels) {
    this.look(this.from + pixels / this.scale);
  }

  /** Moves the rows up, by whole pixels, so that lines stay sharp. */
  scroll(pixels) {
    const most = this.rows.length * ROW - (this.height - HEAD);
    this.top = Math.round(Math.max(0, Math.min(this.top + pixels, most)));
  }

  /** Moves the picture so that a time and a row are seen. */
  reveal(time, place) {
    const x = this.x(time);
    if (x < this.labels + 20 || x > this.width - 40) this.look(time - (this.width - this.labels) / 2 / this.scale);
    const y = this.y(place);
    if (y < HEAD || y + ROW > this.height) this.scroll(y - (HEAD + this.height - ROW) / 2);
  }

  /** Moves a row to another place. */
  move(from, to) {
    if (from < 0 || to < 0 || to >= this.rows.length || from === to) return;
    const rows = [...this.rows];
    rows.splice(to, 0, ...rows.splice(from, 1));
    this.setRows(rows);
  }

  /** A level as it is shown. */
  level(row, change) {
    const level = row.wave.level(change);
    return this.isHex && !row.isNarrow ? `0x${BigInt(level).toString(16)}` : level;
  }

  /** How many letters the longest level has. */
  get letters() {
    return this.isHex ? Math.ceil(this.digits / Math.log10(16)) + 2 : this.digits;
  }

  /** The level of a row at the cursor. */
  levelAtCursor(row) {
    return this.level(row, row.wave.lastUpTo(this.cursor));
  }
}
