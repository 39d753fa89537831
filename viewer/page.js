"use strict";
// The page: what is typed, clicked and dropped on it, and the lists beside the picture.

const MOST_LINES = 200; // as many lines of a list stand there at first
const MOST_STEPS = 20; // as many steps of a chain
const NEAR = 5; // a click so many pixels from a change means the change

const element = (id) => document.getElementById(id);
const written = (id) => element(id).textContent;

/** Fills a list with a button for each item, the first ones of them. */
function fill(list, items, act, most = MOST_LINES) {
  const lines = items.slice(0, most).map((item) => line(item.line, () => act(item), item.isNew));
  if (items.length > most) {
    lines.push(line(`${items.length - most} more`, () => fill(list, items, act, most + 5 * MOST_LINES)));
    lines.at(-1).className = "more";
  }
  list.replaceChildren(...lines);
}

function line(text, act, isNew) {
  const button = Object.assign(document.createElement("button"), { textContent: text, onclick: act });
  const item = document.createElement("li");
  if (isNew) item.className = "new";
  item.append(button);
  return item;
}

class Page {
  constructor() {
    this.view = new View();
    this.painter = new Painter(element("picture"), this.view);
    this.found = 0; // the place of the row that the search found last
    document.querySelector("h1").textContent = document.title;
    this.take({ netlist: written("netlist-text"), waves: written("waves-text"), places: written("places-text"), period: written("period-text") });
  }

  /** Takes what the program wrote of a netlist. The cursor stays, and so does the wire that is chosen. */
  take(texts) {
    const { view } = this;
    const isAsked = view.chain !== null;
    const netlist = new Netlist(texts.netlist);
    const waves = readWaves(texts.waves);
    const places = texts.places.split("\n").filter(Boolean).map((text) => readPlace(text, netlist));
    this.causes = new Causes(netlist, waves);
    view.take(netlist, waves);
    this.painter.take(places.filter(({ line }) => !line.startsWith("note ")), this.causes); // (a note is no fault)
    if (isAsked) this.choose(view.row, view.cursor);
    element("places").querySelector("h2").textContent = `${places.length ? "Found" : "Nothing found"} by ${element("places-text").title}`;
    fill(element("places").querySelector("ul"), places, (place) => this.goTo(place));
    const said = texts.period.split("\n").filter(Boolean);
    view.period = readPeriod(said, this.causes);
    if (!view.period) view.isPeriodShown = false;
    fill(element("period").querySelector("ul"), said.map((text) => readPeriodLine(text, netlist)), (place) => this.goToPeriod(place));
  }

  /** Draws the picture before the screen is next shown. */
  show() {
    if (this.isWaiting) return;
    this.isWaiting = true;
    requestAnimationFrame(() => {
      this.isWaiting = false;
      this.painter.draw();
      this.tell();
    });
  }

  resize() {
    this.painter.resize();
    this.show();
  }

  /** Tells the times of the cursors, and the level of the chosen wire. */
  tell() {
    const { view } = this;
    const level = view.row ? `${view.row.name} = ${view.levelAtCursor(view.row)}` : "";
    const second = view.mark === null ? "" : `second ${view.mark} · difference ${view.mark - view.cursor}`;
    const told = [`time ${view.cursor}`, level, second].filter(Boolean).join(" · ");
    if (element("readout").textContent !== told) element("readout").textContent = told;
  }

  /** Takes a row and a time: the cursor goes there, and the causes of the level are found. */
  choose(row, time) {
    const { view, causes } = this;
    Object.assign(view, { row, cursor: time, pointed: new Set(), chain: null, effects: [] });
    if (row && row.wire !== undefined) {
      view.chain = new Chain(causes, row.wire, time);
      view.chain.count(1);
      if (view.chain.steps.length) view.effects = causes.effects(view.chain.steps[0]);
    }
    this.listCauses();
    this.show();
  }

  listCauses(most = MOST_STEPS) {
    const { view, causes } = this;
    const section = element("why");
    section.hidden = !view.chain;
    if (!view.chain) return;
    view.chain.count(most + 1);
    const steps = view.chain.steps.slice(0, most);
    const lines = steps.map((step) => line(`${causes.said(step)} < ${causes.saidCause(step)}`, () => this.goToChange(step)));
    if (!steps.length) lines.push(line(causes.why(view.row.wire, view.cursor, 1)[0], () => {}));
    if (view.chain.steps.length > most) lines.push(line("further back", () => this.listCauses(most + MOST_LINES)));
    if (view.chain.steps.length > most) lines.at(-1).className = "more";
    section.querySelector("ol").replaceChildren(...lines);
    const saidEffect = (effect) => `${causes.said(effect)} by ${effect.module.name} ${effect.module.kind}/${effect.delay}`;
    const effects = view.effects.map((effect) => ({ ...effect, line: saidEffect(effect) }));
    section.querySelectorAll("h2")[1].textContent = effects.length ? "What it causes" : "No change answers it";
    fill(section.querySelector("ul"), effects, (effect) => this.goToChange(effect));
  }

  /** Shows a row, also one that is hidden, at a time. */
  lead(row, time) {
    const { view } = this;
    if (!view.places.has(row)) view.setRows([...view.rows, row]);
    view.reveal(time, view.places.get(row));
  }

  /** Goes to a change of the chain that is drawn, which stays. */
  goToChange(change) {
    const { view, causes } = this;
    this.lead(view.all[change.wire], causes.time(change));
    Object.assign(view, { row: view.all[change.wire], cursor: causes.time(change) });
    this.show();
  }

  /** Goes to the place of a finding, a note or a difference. */
  goTo({ time, wires, row }) {
    const { view } = this;
    const rows = row ? [row] : wires.map((wire) => view.all[wire]);
    for (const other of [...rows].reverse()) this.lead(other, time);
    this.choose(rows.find((other) => other.wave.changeAt(time) >= 0) ?? rows[0], time);
    view.pointed = new Set(wires);
  }

  /** Shows the last period and its critical cycle, or hides them again after the line that says it; other lines lead to their wires. */
  goToPeriod(place) {
    const { view } = this;
    if (view.period) view.isPeriodShown = place.wires.length > 0 || !view.isPeriodShown;
    if (place.wires.length) this.goTo(place);
    else if (view.isPeriodShown) view.look(view.period.to - view.period.units, (view.width - view.labels) / view.period.units);
    this.show();
  }

  /** The time that a click at a place means: that of a change which is near, or the unit there. */
  timeAt(row, x) {
    const { view } = this;
    const next = row ? firstFrom(row.wave.times, view.time(x)) : 0;
    const near = row ? [next - 1, next].map((change) => row.wave.times[change]).filter((time) => Math.abs(view.x(time) - x) <= NEAR) : [];
    const distance = (time) => Math.abs(view.x(time) - x);
    return near.length ? near.reduce((one, two) => (distance(two) < distance(one) ? two : one)) : view.unit(x);
  }

  /** Goes to the next row whose name has what is searched for, or with the step -1 to the one before; behind the last comes the first. */
  search(step) {
    const { rows } = this.view;
    const matches = this.matches();
    const found = [...rows.keys()].filter((place) => matches(rows[place]));
    const place = step > 0 ? (found.find((at) => at > this.found) ?? found[0]) : (found.findLast((at) => at < this.found) ?? found.at(-1));
    element("search").setCustomValidity(place === undefined ? "No wire has this in its name" : "");
    if (place === undefined) return;
    this.found = place;
    this.view.reveal(this.view.cursor, place);
    this.choose(rows[place], this.view.cursor);
  }

  matches() {
    const text = element("search").value.toLowerCase();
    return (row) => row.name.toLowerCase().includes(text);
  }

  setRows(rows) {
    this.view.setRows(rows);
    this.show();
  }

  hexOrDecimal() {
    this.view.isHex = !this.view.isHex;
    element("hex").setAttribute("aria-pressed", this.view.isHex);
    this.resize();
  }

  lightOrDark(isDark) {
    document.documentElement.classList.toggle("dark", isDark);
    element("ground").textContent = isDark ? "Light" : "Dark";
    this.resize();
  }

  /** Compares with a file of waves. */
  async compare(file) {
    const section = element("differences");
    section.hidden = false;
    this.isComparing = true;
    section.querySelector("h2").textContent = `Compared with ${file.name}`;
    try {
      const { rows, told } = compared(this.view.all, readWaves(wavesIn(await file.text())));
      this.view.setRows(rows);
      this.resize();
      if (told.length) fill(section.querySelector("ul"), told, (place) => this.goTo(place));
      else fill(section.querySelector("ul"), [{ line: "no difference" }], () => {});
    } catch (fault) {
      fill(section.querySelector("ul"), [{ line: `This isn't a file of waves: ${fault.message}` }], () => {});
    }
    this.isComparing = false;
  }
}
