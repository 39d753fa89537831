"use strict";
// A page without a browser: `node page_in_node.js FILE.html` runs the scripts of the page over elements that keep what is put into them, and a canvas
// that notes in which colours is painted. Each line of standard input is an expression, whose value, awaited, is written as a line of JSON.
// What is loaded by the page, with how often, is in `loads`; `setHidden(true)` and `setHidden(false)` hide and show the page.

const { existsSync, readFileSync } = require("fs");
const { createInterface } = require("readline");
const { fileURLToPath, pathToFileURL } = require("url");
const { runInThisContext } = require("vm");

const html = readFileSync(process.argv[2], "utf8");

/** Notes the colours of what is painted, each with how many boxes and lines. */
function makeInk() {
  const painted = new Map();
  const note = (colour) => painted.set(colour, (painted.get(colour) ?? 0) + 1);
  const known = {
    painted,
    measureText: (text) => ({ width: 7 * text.length }),
    fillRect: () => note(known.fillStyle),
    stroke: () => note(known.strokeStyle),
  };
  return new Proxy(known, { get: (ink, name) => ink[name] ?? (() => {}) });
}

class Node {
  constructor() {
    Object.assign(this, { textContent: "", className: "", value: "", hidden: false, style: {}, listeners: new Map(), parts: new Map(), children: [] });
    Object.assign(this, { clientWidth: 1000, clientHeight: 700, classes: new Set() });
    const { classes } = this;
    const toggle = (name, isOn) => (isOn ? classes.add(name) : classes.delete(name));
    this.classList = { toggle, contains: (name) => classes.has(name) };
  }

  addEventListener(name, act) {
    this.listeners.set(name, [...(this.listeners.get(name) ?? []), act]);
  }

  tell(name, event = {}) {
    for (const act of this.listeners.get(name) ?? []) act(event);
  }

  /** What a selector names, made as soon as somebody asks for it. */
  querySelectorAll(selector) {
    if (!this.parts.has(selector)) this.parts.set(selector, [new Node(), new Node()]);
    return this.parts.get(selector);
  }

  querySelector(selector) {
    return this.querySelectorAll(selector)[0];
  }

  append(...nodes) {
    this.children.push(...nodes);
  }

  replaceChildren(...nodes) {
    this.children = nodes;
  }

  getContext() {
    return (this.ink ??= makeInk());
  }

  click() {
    this.tell("click");
  }

  remove() {}
  focus() {}
  setAttribute() {}
  setCustomValidity() {}
}

const elements = new Map();
for (const [, id, rest, inner] of html.replace(/<script>.*?<\/script>/gs, "").matchAll(/<[a-z]+[^>]* id="([\w-]+)"([^>]*)>([^<]*)/g)) {
  elements.set(id, Object.assign(new Node(), { textContent: inner, hidden: / hidden\b/.test(rest) }));
}

class Script extends Node {}

const loads = new Map(); // how often each script was loaded

/** Runs a script as it is in its file now. */
function runLater(script) {
  const path = fileURLToPath(script.src.replace(/\?.*/, ""));
  const name = path.split(".").at(-2);
  loads.set(name, (loads.get(name) ?? 0) + 1);
  setTimeout(() => {
    if (!existsSync(path)) return script.onerror();
    runInThisContext(readFileSync(path, "utf8"));
    script.onload();
  });
}

const page_document = Object.assign(new Node(), {
  title: /<title>(.*)<\/title>/.exec(html)[1],
  hidden: false,
  body: new Node(),
  documentElement: new Node(),
  head: { append: runLater },
  getElementById: (id) => elements.get(id),
  createElement: (name) => (name === "script" ? new Script() : new Node()),
});

function setHidden(isHidden) {
  page_document.hidden = isHidden;
  page_document.tell("visibilitychange");
  page_document.listeners.delete("visibilitychange");
}

const noted = { matches: false, addEventListener: () => {} };
Object.assign(globalThis, { document: page_document, loads, setHidden, window: globalThis, devicePixelRatio: 1, location: { href: String(pathToFileURL(process.argv[2])) } });
Object.assign(globalThis, {
  matchMedia: () => noted,
  requestAnimationFrame: (act) => setTimeout(act),
  getComputedStyle: () => ({ getPropertyValue: (name) => name.slice(2) }), // (a colour is called by its name)
  ResizeObserver: class {
    constructor(act) {
      this.observe = () => setTimeout(act);
    }
  },
});

for (const [, text] of html.matchAll(/<script>(.*?)<\/script>/gs)) runInThisContext(text);

(async () => {
  for await (const line of createInterface({ input: process.stdin })) {
    try {
      process.stdout.write(`${JSON.stringify({ value: await runInThisContext(line) })}\n`);
    } catch (fault) {
      process.stdout.write(`${JSON.stringify({ fault: String(fault) })}\n`);
    }
  }
  process.exit();
})();
