"use strict";
// Waves beside others: those of a second file, or those that a page showed before.

/** The text of waves in a file that `waves` or `page` wrote. */
function wavesIn(file) {
  const page = /<script type="text\/plain" id="waves-text"[^>]*>([^<]*)<\/script>/.exec(file);
  return (page ? page[1] : file).replace(/\r/g, "").trimStart();
}

/** The times at which two waves begin to differ and end to, in turn, up to the first so many. */
function differences(first, second, most = Infinity) {
  if (first.isLike(second)) return Int32Array.of();
  const times = new Int32Array(Math.min(first.times.length + second.times.length + 1, most));
  let count = 0;
  let one = -1;
  let two = -1;
  for (let time = 0; time < Infinity && count < most; ) {
    if (first.hasLevelOf(one, second, two) === (count % 2 === 1)) times[count++] = time;
    const next = one + 1 < first.times.length ? first.times[one + 1] : Infinity;
    const other = two + 1 < second.times.length ? second.times[two + 1] : Infinity;
    time = Math.min(next, other);
    if (next === time) one++;
    if (other === time) two++;
  }
  return times.slice(0, count);
}

/** Where two waves differ. The times are found when they are asked for, but the first one at once; it is undefined if the waves are the same. */
class Difference {
  constructor(...waves) {
    this.waves = waves;
    [this.first] = differences(...waves, 1);
  }

  get isNone() {
    return this.first === undefined;
  }

  get times() {
    return (this.found ??= differences(...this.waves));
  }
}

/** The rows of a view with a row for each wave of a second file, behind the row of the wire of its name, and what there is to tell of them. */
function compared(all, waves) {
  const others = new Map(waves.map((wave) => [wave.name, { wave, name: `${wave.name} ′`, isNarrow: wave.isNarrow() }]));
  const rows = [];
  const told = [];
  for (const row of all) {
    const other = others.get(row.name);
    others.delete(row.name);
    Object.assign(row, { differs: null, before: null, isChanged: false }); // (a version before may have marked it)
    rows.push(row);
    if (!other) {
      told.push({ line: `${row.name} isn't in the second file`, time: 0, row });
      continue;
    }
    other.isNarrow = row.isNarrow && other.isNarrow;
    other.differs = new Difference(row.wave, other.wave);
    if (!other.differs.isNone) told.push({ line: `${row.name} differs from ${other.differs.first} on`, time: other.differs.first, row: other });
    rows.push(other);
  }
  for (const row of others.values()) told.push({ line: `${row.wave.name} is in the second file alone`, time: 0, row });
  told.sort((one, two) => one.time - two.time);
  return { rows: [...rows, ...others.values()], told };
}

/** Marks the rows of a view whose waves aren't those of their names among the rows before, and returns what there is to tell of them. */
function changed(all, before) {
  const others = new Map(before.map((row) => [row.name, row]));
  const told = [];
  for (const row of all) {
    const other = others.get(row.name);
    others.delete(row.name);
    if (other) row.differs = new Difference(row.wave, other.wave);
    row.isChanged = !row.differs?.isNone;
    if (!other) told.push({ line: `${row.name} is new`, time: 0, row });
    else if (row.isChanged) told.push({ line: `${row.name} differs from ${row.differs.first} on`, time: row.differs.first, row });
    if (other && row.isChanged) row.before = other.wave;
  }
  for (const name of others.keys()) told.push({ line: `${name} is gone`, time: 0 });
  return told.sort((one, two) => one.time - two.time);
}
