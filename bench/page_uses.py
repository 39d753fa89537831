"""What people do with a page, done by the mouse and the keys in a browser, and what has to come of it. What is otherwise is put to `faults`."""
import os
import re
import time

import browser
import page_checks

PLACES = 100

faults = []


def expect(what, wanted, found):
    if wanted != found:
        faults.append(f"{what}: {wanted!r:.300} was wanted, and {found!r:.300} found")


class Page:
    """A page that is open, with what the program wrote."""

    def __init__(self, shown, name, path, script, folder):
        self.shown, self.name, self.path, self.folder = shown, name, path, folder
        html = page_checks.written([script, "page", path])
        self.file = f"{folder}/{name}.html"
        with open(self.file, "w", encoding="utf-8") as out:
            out.write(html)
        self.netlist, waves, places = page_checks.texts_of(html)
        self.asked = list(page_checks.questions(waves))
        self.waves, self.places = page_checks.waves(waves), places.splitlines()

    def expect(self, what, wanted, found):
        expect(f"{self.name}, {what}", wanted, found)

    def open(self):
        """Opens the page, and returns the seconds until it was drawn."""
        self.shown.said.clear()
        began = time.monotonic()
        self.shown.open(self.file)
        self.shown.shown()
        return time.monotonic() - began

    def view(self, what):
        return self.shown.value(f"view.{what}")

    def names(self):
        return self.shown.value("view.rows.map((row) => row.name)")

    def at(self, x, y):
        """A place of the canvas as one of the page."""
        box = self.shown.value("(() => { const { x, y } = picture.getBoundingClientRect(); return [x, y]; })()")
        return box[0] + x, box[1] + y

    def told(self):
        """What the page tells of the cursor: the time, and the chosen wire with its level."""
        self.shown.shown()
        return [part.rsplit(" ", 1)[-1] if at == 0 else part for at, part in enumerate(self.shown.value('element("readout").textContent').split(" · "))]

    def lines(self, where):
        return self.shown.value(f"[...document.querySelectorAll('{where} li')].map((item) => item.textContent)")

    def close(self):
        self.expect("what the console says", [], self.shown.said)


# goes to some times and rows by random numbers, and tells of a place there: where it is on the page, its row, its unit, and which sides of the row are
# painted there, if units are wide and the row's wire has width 1
PLACE = """(async () => {
  const [from, zoom, down, row, across] = NUMBERS;
  page.choose(null, 0);
  view.look(from * view.horizon, view.least * 2 ** (12 * zoom));
  view.scroll((down - view.top / ROW / view.rows.length) * view.rows.length * ROW);
  page.show();
  await SHOWN;
  const rows = view.rows.map((_, place) => place).filter((place) => view.y(place) >= HEAD && view.y(place) + ROW <= view.height);
  const place = rows[Math.floor(row * rows.length)];
  const x = Math.floor(view.labels + 1 + across * (view.width - view.labels - 2));
  const unit = view.unit(x);
  const box = picture.getBoundingClientRect();
  const found = { x: box.x + x, y: box.y + view.y(place) + ROW / 2, name: view.rows[place].name, unit, times: [view.time(x - NEAR), view.time(x + NEAR)] };
  const middle = view.x(unit + 0.5);
  if (view.scale < 8 || !view.rows[place].isNarrow || middle <= view.labels + 2 || middle >= view.width) return found;
  const { dots } = page.painter;
  const copy = new OffscreenCanvas(picture.width, picture.height).getContext("2d", { willReadFrequently: true });
  copy.drawImage(picture, 0, 0);
  const at = (height) => copy.getImageData(Math.floor(middle * dots), Math.floor((view.y(place) + height) * dots), 1, 1).data.join();
  return { ...found, painted: [EDGE, ROW - EDGE - page.painter.thick].map((height) => at(height) !== at(ROW / 2)) };
})()""".replace("SHOWN", browser.SHOWN)


def check_levels(page, numbers):
    """At random places: the time and the level that a click tells, and the level that is painted."""
    for _ in range(PLACES):
        place = page.shown.value(PLACE.replace("NUMBERS", str([numbers.random() for _ in range(5)])))
        wave, unit = page.waves[place["name"]], place["unit"]
        if "painted" in place:
            is_high = page_checks.level(wave, unit) == "1"
            page.expect(f"what is painted of {place['name']} at {unit}", [is_high, not is_high], place["painted"])
        page.shown.click(place["x"], place["y"])
        told, level = page.told()[:2]
        time_told = int(told)
        is_near = place["times"][0] <= time_told <= place["times"][1] and any(time == time_told for time, _ in wave[1])
        page.expect(f"the time of a click on {place['name']} in the unit {unit}, {told}", True, time_told == unit or is_near)
        page.expect(f"the level at {told}", f"{place['name']} = {page_checks.level(wave, time_told)}", level)
    page.shown.key("Escape")
    page.shown.key("f")


def check_zoom(page):
    """The wheel zooms at the mouse, keys zoom and move, and all times are seen again."""
    labels, width = page.view("labels"), page.view("width")
    x = round(labels + (width - labels) * 0.4)
    before = page.view(f"time({x})"), page.view("scale")
    page.shown.wheel(*page.at(x, 120), down=-400)
    page.shown.shown()
    after = page.view(f"time({x})"), page.view("scale")
    page.expect("the time at the mouse after a zoom", round(before[0], 3), round(after[0], 3))
    page.expect("the zoom of the wheel", round(min(4 * before[1], max(80, before[1])), 6), round(after[1], 6))
    page.shown.drag(*page.at(x, 120), *page.at(x - 50, 120))
    wanted = min(after[0] - (x - labels - 50) / after[1], page.view("horizon") - (width - labels) / after[1])
    page.expect("a drag", True, abs(page.view("from") - wanted) < 1e-6)
    page.shown.key("Home")
    page.expect("the first time", 0, page.view("from"))
    page.shown.key("End")
    page.expect("the last time", page.view("horizon"), round(page.view(f"time({width})")))
    page.shown.key("f")
    page.expect("all times", (0, before[1]), (page.view("from"), page.view("scale")))


# tells of each time above the picture where it begins and ends
HEAD_TEXTS = """(() => {
  const { ink } = page.painter, found = [];
  page.painter.draw();
  ink.fillText = (text, x) => found.push([x, x + ink.measureText(text).width]);
  page.painter.head();
  delete ink.fillText;
  page.painter.draw();
  return found;
})()"""


def check_times(page):
    """The times above the picture stand in it whole, and none over another, wherever the cursors are and whatever is seen."""
    labels, width, horizon = page.view("labels"), page.view("width"), page.view("horizon")
    for cursor, mark in ((0, horizon - 1), (horizon - 1, horizon // 2)):
        page.shown.value(f"page.choose(null, {cursor}); view.mark = {mark}")
        for start in range(20):
            page.shown.value(f"view.look({start} * view.horizon / 40, view.least * {1 + start % 4 / 2})")
            texts = sorted(page.shown.value(HEAD_TEXTS))
            page.expect(f"times that are cut, from {start}", [], [text for text in texts if text[0] < labels - 1 or text[1] > width])
            page.expect(f"times over times, from {start}", [], [pair for pair in zip(texts, texts[1:]) if pair[0][1] > pair[1][0]])
    page.shown.key("Escape")
    page.shown.key("f")


def check_rows(page):
    """Search goes to a wire; wires are chosen, hidden and moved, and all come back."""
    names = page.names()
    last = names[-1]
    page.shown.key("/")
    page.shown.type(last[:1])
    matches = [name for name in names if last[:1].lower() in name.lower()]
    for key, shift, at in (("Shift", False, 0), ("Enter", False, 1), ("Enter", True, 0), ("Enter", True, -1), ("Enter", False, 0)):
        page.shown.key(key, shift=shift)
        page.expect(f"what the search finds, {at}", matches[at % len(matches)], page.told()[1].split(" = ")[0])
    page.shown.value("element('only').click()")
    page.expect("only what is found", matches, page.names())
    page.shown.key("a")
    page.expect("all wires", names, page.names())
    page.shown.value("page.choose(view.rows[0], 0)")
    page.shown.key("ArrowDown", alt=True)
    moved = [*names[1:2], names[0], *names[2:]]
    page.expect("a wire that is moved", moved, page.names())
    page.shown.key("x")
    page.expect("a wire that is hidden", moved[:1] + moved[2:] if len(names) > 1 else names, page.names())
    page.shown.key("a")
    page.shown.drag(*page.at(20, 60), *page.at(20, 60 + 28))
    page.expect("a name that is dragged", moved, page.names())
    page.shown.key("a")
    page.shown.value("element('search').value = ''")


def check_causes(page):
    """The causes in the page are those of `why`, and a click shows them as lines, with what the change leads to."""
    asks = [[name, time, steps] for name, time, steps in page.asked]
    found = page.shown.value(f"{asks}.map(([name, time, steps]) => page.causes.why(page.causes.netlist.wireNumbers.get(name), time, steps))")
    page.expect("causes", page_checks.reasons(page.path, page.asked), found)
    name = max(page.waves, key=lambda name: len(page.waves[name][1]))
    page.shown.value(f"page.choose(view.all.find((row) => row.name === '{name}'), view.horizon - 1)")
    (wanted,) = page_checks.reasons(page.path, [(name, page.view("horizon") - 1, 20)])
    page.expect("the lines of causes", wanted, page.lines("#why ol")[:20])
    change = wanted[0].split(" < ")[0]
    for line in page.lines("#why ul"):
        effect, time = line.split(" by ")[0].split("=")[0].split(" ")
        ((cause,),) = page_checks.reasons(page.path, [(effect, time, 1)])
        changes = [event.rsplit("/", 1)[0] for event in re.findall(r"\w+ \d+=\d+(?:/\d+)?", cause.split(" < ", 2)[2])]
        page.expect(f"whether {change} is a cause of {line}", True, change in changes)


def check_list(page):
    """Each line of the list leads to its time."""
    page.expect("the list", page.places[:200], page.lines("#places")[:200])
    for number, line in enumerate(page.places[:5]):
        page.shown.value(f"document.querySelectorAll('#places button')[{number}].click()")
        if line[0].isdigit():
            page.expect(f"where {line} leads", line.split(" ")[0], page.told()[0])
            x = page.view("x(view.cursor)")
            page.expect(f"whether the place of {line} is seen", True, page.view("labels") <= x <= page.view("width"))
    page.shown.key("f")


def check_hex(page):
    """The first level above 9 that a wire changes to, in hex."""
    found = [(name, time) for name, (_, changes) in page.waves.items() for time, level in changes if int(level) > 9]
    if not found:
        return
    wide, time = found[0]
    page.shown.value(f"page.choose(view.all.find((row) => row.name === '{wide}'), {time})")
    page.shown.key("h")
    level = hex(int(page_checks.level(page.waves[wide], time)))
    page.expect("a level in hex", f"{wide} = {level}", page.told()[1])
    page.shown.key("h")


def check_second(page):
    """A file of waves that is dropped stands beside the first, with what differs; what isn't one is told."""
    name, (begin, changes) = next(iter(page.waves.items()))
    other = f"{page.folder}/second.waves"
    with open(other, "w", encoding="ascii") as out:
        for wire, (first, pairs) in page.waves.items():
            pairs = [(1, "0" if first != "0" else "1")] if wire == name else pairs
            out.write(" ".join([wire, first, *(f"{time}={level}" for time, level in pairs)]) + "\n")
        out.write("added 0 1=1\n")
    page.shown.drop(*page.at(400, 200), other)
    wait(page, "#differences h2", "Compared with second.waves")
    changed = (begin, [(1, "0" if begin != "0" else "1")])
    first = next(time for time in sorted({1, *(time for time, _ in changes)}) if page_checks.level((begin, changes), time) != page_checks.level(changed, time))
    page.expect("what differs", sorted([f"{name} differs from {first} on", "added is in the second file alone"]), sorted(page.lines("#differences")))
    page.expect("the rows of both", 2 * len(page.waves) + 1, len(page.names()))
    page.shown.picture(f"{page.folder}/{page.name}-compared.png")
    page.shown.drop(*page.at(400, 200), page.file)
    wait(page, "#differences h2", f"Compared with {page.name}.html")
    page.expect("what differs from itself", ["no difference"], page.lines("#differences"))
    page.shown.drop(*page.at(400, 200), page.path)
    wait(page, "#differences h2", f"Compared with {os.path.basename(page.path)}")
    page.expect("what no file of waves is", True, page.lines("#differences")[0].startswith("This isn't a file of waves"))


def wait(page, where, text):
    """Waits until an element has a text, and its file is read."""
    for _ in range(200):
        page.shown.shown()
        if page.shown.value(f"document.querySelector('{where}').textContent") == text and page.shown.value("page.isComparing") is False:
            return
    page.expect(where, text, page.shown.value(f"document.querySelector('{where}').textContent"))


KEYS = "+ = - f ArrowLeft ArrowRight Home End PageUp PageDown ArrowUp ArrowDown n p c m Escape x a h h d d".split()


def check_keys(page):
    """All keys at once: nothing is said on the console."""
    for key in [*KEYS, *reversed(KEYS)]:
        page.shown.key(key)
    page.shown.shown()
    page.shown.key("a")
    page.shown.key("f")
