"use strict";
// The page of a live desk. `watch --page` writes two scripts beside it: one with a version of the netlist, and one with its number, which is loaded
// again some times a second while the page is seen. So a page shows each version as soon as it is there, and what differs from the one before.

const LOOKS = 200; // milliseconds from one look to the next
const MOST_EDITS = 12; // as many edits stand in their list at first, so that other lists are seen too
const BESIDE = location.href.replace(/[?#].*$/, "").replace(/\.html$/, ""); // what the names of the scripts begin with

/** Runs a script beside the page as it is now, and returns whether it is there. */
async function load(name) {
  const script = document.createElement("script");
  const isThere = new Promise((done) => {
    script.onload = () => done(true);
    script.onerror = () => done(false);
  });
  script.src = `${BESIDE}.${name}.js?${Date.now()}`; // (what the browser has kept has another name)
  document.head.append(script);
  await isThere;
  script.remove();
  return isThere;
}

/** The versions of a page. Each has the number of the run of `watch` that wrote it, and its own number at the desk. */
class Live {
  constructor() {
    this.told = null; // what the script of the number says
    this.data = null; // what the script of the version says
    this.shown = null;
  }

  tell(told) {
    this.told = told;
  }

  take(data) {
    this.data = data;
  }

  isShown({ run, version }) {
    return this.shown !== null && this.shown.run === run && this.shown.version === version;
  }

  /** Shows the version that is there now, if it isn't shown yet. */
  async look() {
    const isThere = (await load("version")) && this.told !== null;
    if (isThere && !this.isShown(this.told)) await this.renew();
    this.say(isThere);
  }

  /** While the mouse is held down the page stays as it is. */
  async renew() {
    this.data = null;
    await load("data");
    if (this.data !== null && !this.isShown(this.data) && held === null) this.show(this.data);
    this.data = null;
  }

  show({ run, version, edits, ...texts }) {
    const before = view.all;
    page.take(texts);
    if (this.shown !== null) this.listChanged(changed(view.all, before));
    this.listEdits(edits.split("\n").filter(Boolean), run);
    this.shown = { run, version };
    page.resize();
  }

  listChanged(lines) {
    this.list("differences", `${lines.length ? "Changed" : "Nothing changed"} since version ${this.shown.version}`, lines);
  }

  /** Lists the edits, the last one first. Those that the version before didn't have are new. */
  listEdits(edits, run) {
    const last = this.shown !== null && this.shown.run === run ? this.shown.version : edits.length;
    this.list("edits", edits.length ? "Edits" : "No edits", edits.map((line, place) => ({ line, isNew: place >= last })).reverse(), MOST_EDITS);
  }

  list(id, heading, lines, most) {
    const section = element(id);
    section.hidden = false;
    section.querySelector("h2").textContent = heading;
    fill(section.querySelector("ul"), lines, (place) => place.row && page.goTo(place), most);
  }

  say(isThere) {
    const version = this.shown === null ? "no version yet" : `version ${this.shown.version}`;
    const state = !isThere ? `${version}, nothing beside the page` : this.told.isOver ? `${version}, watched no more` : version;
    element("version").hidden = false;
    if (element("version").textContent !== state) element("version").textContent = state;
  }
}

const live = new Live();
const pause = (milliseconds) => new Promise((done) => setTimeout(done, milliseconds));
const turned = () => new Promise((done) => document.addEventListener("visibilitychange", done, { once: true }));

/** Looks again and again, as long as the page is seen. */
async function follow() {
  for (;;) {
    while (document.hidden) await turned();
    await live.look();
    await pause(LOOKS);
  }
}

follow();
