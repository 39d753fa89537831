"use strict";
// What the program writes, read: the waves of wires, the text of a netlist, and the lines of `check`.

/** The place of the first of these rising times that isn't below `time`, from the place `from` on. */
function firstFrom(times, time, from = 0) {
  let low = from;
  let high = from;
  for (let step = 1; high < times.length && times[high] < time; step *= 2) {
    low = high + 1;
    high += step;
  }
  high = Math.min(high, times.length);
  while (low < high) {
    const middle = (low + high) >>> 1;
    if (times[middle] < time) low = middle + 1;
    else high = middle;
  }
  return low;
}

const isDigit = (code) => code >= 48 && code <= 57;

/** The wave of a wire. A change is named by its number in the order of times; the number -1 stands for the level at time 0. */
class Wave {
  /** `begin` and `places` are where the levels stand in `text`, and `end` is where the wave ends there. */
  constructor(name, text, [begin, end], times, places) {
    Object.assign(this, { name, text, begin, end, times, places });
  }

  /** Whether another wave is written as this one is. */
  isLike(other) {
    return this.text.slice(this.begin, this.end) === other.text.slice(other.begin, other.end);
  }

  /** The last change up to a time in whole units. */
  lastUpTo(time) {
    return firstFrom(this.times, time + 1) - 1;
  }

  /** The change at a time, or -1 if there is none. */
  changeAt(time) {
    const change = firstFrom(this.times, time);
    return this.times[change] === time ? change : -1;
  }

  place(change) {
    return change < 0 ? this.begin : this.places[change];
  }

  /** The level from a change on, in decimal. */
  level(change) {
    return this.text.slice(this.place(change), this.levelEnd(change));
  }

  /** Whether the level from a change on is that of another wave from one of its changes on. */
  hasLevelOf(change, other, ofOther) {
    let place = this.place(change);
    let otherPlace = other.place(ofOther);
    for (;;) {
      const code = this.text.charCodeAt(place++);
      const otherCode = other.text.charCodeAt(otherPlace++);
      if (!isDigit(code) || !isDigit(otherCode)) return isDigit(code) === isDigit(otherCode);
      if (code !== otherCode) return false;
    }
  }

  levelEnd(change) {
    let end = this.place(change);
    while (isDigit(this.text.charCodeAt(end))) end++;
    return end;
  }

  /** How many digits the longest level has. */
  longest() {
    let most = this.levelEnd(-1) - this.begin;
    for (let change = 0; change < this.times.length; change++) most = Math.max(most, this.levelEnd(change) - this.places[change]);
    return most;
  }

  /** Whether a wire of width 1 is high from a change on. */
  isHigh(change) {
    return this.text.charCodeAt(this.place(change)) === 49;
  }

  /** Whether each level is 0 or 1. */
  isNarrow() {
    const isBit = (place) => this.text.charCodeAt(place) <= 49 && !isDigit(this.text.charCodeAt(place + 1));
    return isBit(this.begin) && this.places.every(isBit);
  }
}

/** Reads the text of waves, piece by piece. */
class WaveReader {
  constructor(text) {
    this.text = text;
    this.at = 0;
  }

  fail(wanted) {
    throw new Error(`no ${wanted} at byte ${this.at}`);
  }

  name() {
    const begin = this.at;
    this.at = Math.max(this.text.indexOf(" ", begin), begin);
    const name = this.text.slice(begin, this.at);
    return /^[A-Za-z][A-Za-z0-9_]*$/.test(name) ? name : this.fail("name");
  }

  number() {
    let value = 0;
    const begin = this.at;
    for (let code = this.text.charCodeAt(begin); isDigit(code); code = this.text.charCodeAt(++this.at)) value = value * 10 + code - 48;
    return this.at > begin ? value : this.fail("number");
  }

  /** Passes over a character if it stands next. */
  passes(code) {
    const isThere = this.text.charCodeAt(this.at) === code;
    if (isThere) this.at++;
    return isThere;
  }
}

/** The waves that `waves` wrote, in its order. What isn't such a text is an error. */
function readWaves(text) {
  const most = text.length >> 2; // (a change has four characters or more; what isn't used of this takes no memory)
  const times = new Int32Array(most);
  const places = new Int32Array(most);
  const reader = new WaveReader(text);
  const waves = [];
  let next = 0;
  while (reader.at < text.length) {
    const first = next;
    const name = reader.name();
    if (!reader.passes(32)) reader.fail("blank");
    const begin = reader.at;
    reader.number();
    while (reader.passes(32)) {
      times[next] = reader.number();
      if (!reader.passes(61)) reader.fail("=");
      places[next++] = reader.at;
      reader.number();
    }
    const end = reader.at;
    if (!reader.passes(10) && reader.at < text.length) reader.fail("end of a line");
    waves.push(new Wave(name, text, [begin, end], times.subarray(first, next), places.subarray(first, next)));
  }
  return waves;
}

/** The netlist whose text `text` wrote. Wires and modules are named by their numbers, -1 being no wire. */
class Netlist {
  constructor(text) {
    this.horizon = 0;
    this.wires = [];
    this.modules = [];
    this.bundles = new Map();
    this.wireNumbers = new Map();
    this.moduleNumbers = new Map();
    for (const line of text.split("\n")) this.read(line.split(" "));
  }

  read([statement, name, ...words]) {
    if (statement === "horizon") this.horizon = Number(name);
    else if (statement === "wire") {
      this.wireNumbers.set(name, this.wires.length);
      this.wires.push({ name, width: Number(words[0]), isSet: false, driver: null, readers: [] });
    } else if (statement === "module") this.readModule(name, words);
    else if (statement === "stim") this.wires[this.wireNumbers.get(name)].isSet = true;
    else if (statement === "bundle") this.bundles.set(name, words.slice(0, 3).map((word) => this.wireNumbers.get(word)));
  }

  readModule(name, words) {
    const colon = words.indexOf(":");
    const arrow = words.indexOf(">", colon);
    const number = this.modules.length;
    const inputs = words.slice(colon + 1, arrow).map((word) => this.port(word));
    const outputs = words.slice(arrow + 1).map((word) => this.port(word));
    this.moduleNumbers.set(name, number);
    this.modules.push({ name, kind: words[0], inputs, outputs });
    for (const { wire, delay } of inputs) this.wires[wire].readers.push({ module: number, delay });
    for (const { wire, delay } of outputs) if (wire >= 0) this.wires[wire].driver = { module: number, delay };
  }

  port(word) {
    const [name, delay] = word.split("/");
    return { wire: this.wireNumbers.get(name) ?? -1, delay: Number(delay ?? 0) };
  }
}

/** What a line of `check` speaks of: its time, and its wires by number. */
function readPlace(line, netlist) {
  const words = line.split(" ");
  const time = Number(/ at (\d+)$/.exec(line)?.[1] ?? (isDigit(line.charCodeAt(0)) ? words[0] : 0));
  if (words[0] === "note" && words[1] === "bundle") return { line, time: Number(words.at(-1)), wires: netlist.bundles.get(words[2]) };
  if (words[0] === "note") return { line, time, wires: [netlist.wireNumbers.get(words[2])] };
  if (words[1] === "bundle") return { line, time, wires: netlist.bundles.get(words[2]) };
  if (words[1] === "module") {
    const { inputs, outputs } = netlist.modules[netlist.moduleNumbers.get(words[2])];
    return { line, time, wires: [...inputs, ...outputs].map((port) => port.wire).filter((wire) => wire >= 0) };
  }
  const waited = [...line.matchAll(/ waits for (\w+)/g)]; // those of a deadlock
  return { line, time, wires: waited.map((found) => netlist.wireNumbers.get(found[1])) };
}
