"""Who waits at a time, and what a range of times measures, computed once more in Python, from what each module hears. Netlists are as in
`reference.py`; the modules' names are `module_names`."""
import bisect

import checks
import reference


def events(line):
    """The times of the events of a level."""
    return [time for time in range(1, len(line)) if line[time] != line[time - 1]]


def lines_of(lines):
    return "".join(f"{line}\n" for line in lines)


# ---- measure


def extremes(numbers):
    return [min(numbers), max(numbers)] if numbers else []


def measured_wire(name, times):
    gaps = [later - sooner for sooner, later in zip(times, times[1:])]
    return ["wire", name, len(times), *(times and [times[0], times[-1]]), *extremes(gaps)]


def measured_bundle(name, requests, acknowledges, changes, late):
    """The margins of the requests, whose data and acknowledges may lie anywhere, and the units by which data are late."""
    places = [(time, bisect.bisect_right(changes, time), bisect.bisect_right(acknowledges, time)) for time in requests]
    setups = [time - changes[place - 1] for time, place, _ in places if place]
    responses = [acknowledges[place] - time for time, _, place in places if place < len(acknowledges)]
    setup = ["setup", min(setups)] if setups else []
    response = ["response", *extremes(responses)] if responses else []
    return ["bundle", name, len(requests), *setup, *response, *(["late", max(late)] if late else [])]


def measure(netlist, begin=0, end=None, names=()):
    """What `measure` writes: with names of wires the lines of these wires alone, each once."""
    levels, _, _ = reference.evaluated(netlist)
    begin = min(begin, netlist.horizon - 1)
    end = netlist.horizon if end is None else min(end, netlist.horizon)
    all_events = [line and events(line) for line in levels]
    within = lambda wire: [time for time in all_events[wire] if begin <= time < end]
    numbers = {wire[0]: number for number, wire in enumerate(netlist.wires) if wire}
    found = [measured_wire(name, within(numbers[name])) for name in dict.fromkeys(names or numbers)]
    if names:
        return lines_of(" ".join(map(str, figures)) for figures in found)
    all_late = list(checks.Check(netlist).late()) if any(netlist.bundles) else []
    for number, (name, request, acknowledge, data, _) in ((number, bundle) for number, bundle in enumerate(netlist.bundles) if bundle):
        late = [units for time, at, units in all_late if at == number and begin <= time < end]
        found.append(measured_bundle(name, within(request), all_events[acknowledge], all_events[data], late))
    return lines_of(" ".join(map(str, figures)) for figures in found)


# ---- waits: each kind is followed through what it hears up to a time, and tells what it waits for


def last_event(heard, port):
    return max(events([now[port] for now in heard]), default=0)


def steps(heard):
    """Each time from 1 on with the ports that have an event."""
    for time in range(1, len(heard)):
        yield time, [now != before for now, before in zip(heard[time], heard[time - 1])]


def rendezvous(params, heard):
    output, *bubbles = params
    for now in heard:
        a, b = (level ^ bubble for level, bubble in zip(now, bubbles))
        output = a if a == b else output
    if a != b:
        missing = 0 if a == output else 1
        yield "waits for", missing, last_event(heard, 1 - missing)


def call(_, heard):
    served = taken = None
    for time, is_event in steps(heard):
        if is_event[2]:
            served = None
        for client in (0, 1):
            if is_event[client] and served is None:
                served, taken = client, time
    if served is not None:
        yield "waits for", 2, taken


def arbiter(_, heard):
    owner = granted = None
    asked = {}
    for time, is_event in steps(heard):
        if owner is not None and is_event[2 + owner]:
            owner = None
        if owner is None and asked:
            owner, granted = min(asked), time
            del asked[owner]
        for client in (0, 1):
            if is_event[client] and client != owner and client not in asked:
                if owner is None:
                    owner, granted = client, time
                else:
                    asked[client] = time
    if owner is not None:
        yield "waits for", 2 + owner, granted
        yield from (("keeps", client, time) for client, time in asked.items())


def register(params, heard):
    level, since = params[0], 0
    for time, (data, capture, pass_on) in enumerate(heard):
        if capture == pass_on:
            level, since = data, time + 1
    if capture != pass_on:
        yield "holds", level, since


WAITS = {"C": rendezvous, "CALL": call, "ARBITER": arbiter, "REG": register}


def waits(netlist, time):
    """What `waits` writes."""
    levels, states, _ = reference.evaluated(netlist)
    time = min(time, netlist.horizon - 1)
    lines = []
    for number, (kind, params, inputs, _) in ((number, found) for number, found in enumerate(netlist.modules) if found):
        heard = [state[0] for state in states[number][: time + 1]]
        for does, what, since in WAITS[kind](params, heard) if kind in WAITS else []:
            shown = what if does == "holds" else netlist.wires[inputs[what][0]][0]
            lines.append(f"{netlist.module_names[number]} {kind} {does} {shown} since {since}")
    for name, request, acknowledge, _, _ in filter(None, netlist.bundles):
        if levels[request][time] != levels[acknowledge][time]:
            since = max((event for event in events(levels[request]) if event <= time), default=0)
            lines.append(f"{name} bundle waits for {netlist.wires[acknowledge][0]} since {since}")
    return lines_of(lines)
