"use strict";
// Why a wire changed, and what a change leads to, found from a netlist and its waves. A change is a wire and the number of the change, and a
// step of a chain is a change with its cause: a stimulus, a start, or the events of a module's inputs that it answers.

class Causes {
  constructor(netlist, waves) {
    this.netlist = netlist;
    this.waves = waves;
  }

  time({ wire, change }) {
    return this.waves[wire].times[change];
  }

  /** The cause of a change. A step without a module is made by a stimulus, and one without events is a start. */
  step({ wire, change }) {
    const { driver } = this.netlist.wires[wire];
    if (!driver) return { wire, change, module: null, delay: 0, events: [] };
    const time = this.waves[wire].times[change];
    const module = this.netlist.modules[driver.module];
    const events = time === driver.delay ? [] : this.events(module, time - driver.delay);
    return { wire, change, module, delay: driver.delay, events };
  }

  /** The changes of which a module hears at a time, by port. */
  events(module, time) {
    const heard = module.inputs.map(({ wire, delay }) => ({ wire, delay, change: this.waves[wire].changeAt(time - delay) }));
    return heard.filter((event) => event.change >= 0);
  }

  /** The steps from the last change of a wire up to a time back to a stimulus or a start, each by the first event of the one before. */
  *chain(wire, time) {
    let next = { wire, change: this.waves[wire].lastUpTo(time) };
    while (next && next.change >= 0) {
      const step = this.step(next);
      yield step;
      next = step.events[0];
    }
  }

  /** The changes that answer a change, each with the module that makes it. */
  effects({ wire, change }) {
    const found = new Map();
    for (const reader of this.netlist.wires[wire].readers) {
      const module = this.netlist.modules[reader.module];
      for (const output of module.outputs.filter((port) => port.wire >= 0)) {
        const answer = this.waves[output.wire].changeAt(this.time({ wire, change }) + reader.delay + output.delay);
        if (answer >= 0) found.set(`${output.wire} ${answer}`, { wire: output.wire, change: answer, module, delay: output.delay });
      }
    }
    return [...found.values()];
  }

  /** A change as `WIRE TIME=LEVEL`. */
  said({ wire, change }) {
    const wave = this.waves[wire];
    return `${wave.name} ${change < 0 ? 0 : wave.times[change]}=${wave.level(change)}`;
  }

  /** What a step follows, as `why` writes it behind the change. */
  saidCause({ module, delay, events }) {
    if (!module) return "stim";
    const heard = events.map((event) => this.said(event) + (event.delay ? `/${event.delay}` : ""));
    return `${module.name} ${module.kind}/${delay} < ${heard.join(" ") || "start"}`;
  }

  /** What `why WIRE TIME` writes in at most so many lines. */
  why(wire, time, most) {
    const lines = [];
    for (const step of this.chain(wire, time)) {
      if (lines.length === most) break;
      lines.push(`${this.said(step)} < ${this.saidCause(step)}`);
    }
    return lines.length ? lines : [`${this.said({ wire, change: -1 })} declared`];
  }
}
