"use strict";
// What `steady` wrote, read: the period of a netlist that repeats, and its critical cycle.

/** The period that these lines of `steady` tell: its units, the time behind its last unit, and the steps of the critical cycle, as far as `causes` finds
 * them; null if nothing repeats. */
function readPeriod(lines, causes) {
  const repeats = /^(?:control )?repeats from \d+ every (\d+)$/.exec(lines[0] ?? "");
  if (!repeats) return null;
  const units = Number(repeats[1]);
  const to = causes.netlist.horizon;
  const [, length, name, time] = lines.map((line) => /^cycle (\d+) from (\w+) (\d+)$/.exec(line)).find(Boolean) ?? [];
  const steps = name ? cycleSteps(causes, causes.netlist.wireNumbers.get(name), Number(time), Number(length), units) : [];
  return { units, to, steps };
}

/** The steps of a cycle of so many units, from a change back, each the first cause of the one before. A cause before the last period stands for the
 * change so many periods later. */
function cycleSteps(causes, wire, time, length, units) {
  const steps = [];
  const changeAt = (number, at) => ({ wire: number, change: causes.waves[number].changeAt(at) });
  let change = changeAt(wire, time);
  for (let left = length; left > 0 && change.change >= 0; ) {
    const step = causes.step(change);
    const [event] = step.events;
    if (!event) break;
    steps.push(step);
    const sooner = causes.time(event);
    left -= causes.time(change) - sooner;
    change = changeAt(event.wire, sooner + Math.floor((causes.netlist.horizon - 1 - sooner) / units) * units);
  }
  return steps;
}

/** The wire and the time to which a line of `steady` leads. */
function readPeriodLine(line, netlist) {
  const [, sort, name, time] = /^(wire|cycle \d+ from|module) (\w+) (\d+)/.exec(line) ?? [];
  if (sort === "module") return { line, time: netlist.horizon - 1, wires: drivenBy(netlist, name) };
  if (sort === undefined) return { line, time: netlist.horizon - 1, wires: [] };
  return { line, time: sort === "wire" ? netlist.horizon - 1 : Number(time), wires: [netlist.wireNumbers.get(name)] };
}

function drivenBy(netlist, name) {
  const { outputs } = netlist.modules[netlist.moduleNumbers.get(name)];
  return outputs.map((port) => port.wire).filter((wire) => wire >= 0);
}
