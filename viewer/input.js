"use strict";
// What the keys, the mouse and the buttons of the page do.

const page = new Page();
const { view } = page;
const picture = element("picture");

const PAN = 90; // how many pixels a key moves the picture
const ZOOM = 1.5; // how much a key zooms

/** Where a zoom by keys holds the picture: at the cursor, or in the middle if the cursor isn't seen. */
function middle() {
  const x = view.x(view.cursor);
  return x >= view.labels && x <= view.width ? x : (view.labels + view.width) / 2;
}

function chooseRow(step) {
  if (!view.rows.length) return;
  const place = Math.max(0, Math.min((view.places.get(view.row) ?? -step) + step, view.rows.length - 1));
  view.reveal(view.cursor, place);
  page.choose(view.rows[place], view.cursor);
}

/** Moves the cursor to the next or the previous change of the chosen wire. */
function chooseChange(step) {
  const row = view.row ?? view.rows[0];
  if (!row) return;
  const last = row.wave.lastUpTo(view.cursor);
  const change = step > 0 ? last + 1 : row.wave.times[last] === view.cursor ? last - 1 : last;
  const time = change < 0 ? 0 : row.wave.times[change];
  if (time === undefined) return;
  view.reveal(time, view.places.get(row));
  page.choose(row, time);
}

function chooseCause() {
  const event = view.chain?.steps[0]?.events[0];
  if (!event) return;
  page.goToChange(event);
  page.choose(view.row, view.cursor);
}

function hide() {
  if (!view.row || view.rows.length < 2) return;
  const place = view.places.get(view.row);
  page.setRows(view.rows.filter((row) => row !== view.row));
  page.choose(view.rows[Math.min(place, view.rows.length - 1)], view.cursor);
}

function moveRow(step) {
  const place = view.places.get(view.row) ?? -1;
  view.move(place, place + step);
}

function clear() {
  view.mark = null;
  page.choose(null, view.cursor);
}

const KEYS = {
  "+": () => view.zoom(ZOOM, middle()),
  "=": () => view.zoom(ZOOM, middle()),
  "-": () => view.zoom(1 / ZOOM, middle()),
  f: () => view.look(0, 0),
  ArrowLeft: () => view.pan(-PAN),
  ArrowRight: () => view.pan(PAN),
  Home: () => view.look(0),
  End: () => view.look(view.horizon),
  PageUp: () => view.scroll(HEAD - view.height),
  PageDown: () => view.scroll(view.height - HEAD),
  ArrowUp: () => chooseRow(-1),
  ArrowDown: () => chooseRow(1),
  n: () => chooseChange(1),
  p: () => chooseChange(-1),
  c: chooseCause,
  m: () => (view.mark = view.cursor),
  Escape: clear,
  x: hide,
  a: () => page.setRows(view.all),
  h: () => page.hexOrDecimal(),
  d: () => page.lightOrDark(!document.documentElement.classList.contains("dark")),
  "/": () => element("search").focus(),
};
const WITH_ALT = { ArrowUp: () => moveRow(-1), ArrowDown: () => moveRow(1) };

document.addEventListener("keydown", (event) => {
  if (event.ctrlKey || event.metaKey || (event.target !== picture && event.target !== document.body)) return;
  const act = (event.altKey ? WITH_ALT : KEYS)[event.key];
  if (!act) return;
  event.preventDefault();
  act();
  page.show();
});

element("search").addEventListener("keydown", (event) => {
  if (event.key === "Enter") page.search(event.shiftKey ? -1 : 1);
  if (event.key === "Escape") picture.focus();
});
element("search").addEventListener("input", () => {
  page.found = -1;
  page.search(1);
});

const BUTTONS = {
  only: () => page.setRows(view.rows.filter(page.matches())),
  every: KEYS.a,
  in: KEYS["+"],
  out: KEYS["-"],
  fit: KEYS.f,
  hex: KEYS.h,
  ground: KEYS.d,
  open: () => element("file").click(),
};
for (const [id, act] of Object.entries(BUTTONS)) {
  element(id).addEventListener("click", () => {
    act();
    picture.focus();
    page.show();
  });
}

picture.addEventListener(
  "wheel",
  (event) => {
    event.preventDefault();
    const pixels = event.deltaMode ? 30 : 1; // (a wheel may count lines)
    if (event.offsetX < view.labels) view.scroll(event.deltaY * pixels);
    else if (event.shiftKey || Math.abs(event.deltaX) > Math.abs(event.deltaY)) view.pan((event.deltaX || event.deltaY) * pixels);
    else view.zoom(2 ** ((-event.deltaY * pixels) / 200), event.offsetX);
    page.show();
  },
  { passive: false },
);

let held = null; // where the mouse went down, and what it has moved since

picture.addEventListener("pointerdown", (event) => {
  if (event.button !== 0) return;
  picture.focus();
  picture.setPointerCapture(event.pointerId);
  const place = view.placeAt(event.offsetY);
  held = { x: event.offsetX, y: event.offsetY, place, moved: 0, isName: event.offsetX < view.labels, isOverview: event.offsetY < HEAD / 2 };
  if (held.isName && place >= 0) page.choose(view.rows[place], view.cursor);
});

picture.addEventListener("pointermove", (event) => {
  if (!held) return;
  const [x, y] = [event.offsetX - held.x, event.offsetY - held.y];
  held.moved += Math.abs(x) + Math.abs(y);
  if (held.isName) {
    const place = view.placeAt(event.offsetY);
    if (place >= 0) view.move(held.place, place);
    held.place = place < 0 ? held.place : place;
  } else if (held.isOverview) overview(event.offsetX);
  else if (held.moved > 4) {
    view.pan(-x);
    view.scroll(-y);
  }
  Object.assign(held, { x: event.offsetX, y: event.offsetY });
  page.show();
});

/** Goes to the times around a place of the overview. */
function overview(x) {
  const seen = (view.width - view.labels) / view.scale;
  view.look(((x - view.labels) / (view.width - view.labels)) * view.horizon - seen / 2);
}

picture.addEventListener("pointerup", (event) => {
  const click = held && held.moved <= 4 && !held.isName;
  const { place, isOverview } = held ?? {};
  held = null;
  if (!click) return;
  const row = view.rows[place] ?? null;
  if (isOverview) overview(event.offsetX);
  else if (event.shiftKey) view.mark = page.timeAt(row, event.offsetX);
  else page.choose(row ?? view.row, page.timeAt(row, event.offsetX));
  page.show();
});

picture.addEventListener("pointercancel", () => (held = null));

for (const name of ["dragenter", "dragover", "dragleave", "drop"]) {
  document.addEventListener(name, (event) => {
    event.preventDefault();
    document.body.classList.toggle("dropping", name === "dragenter" || name === "dragover");
    if (name === "drop" && event.dataTransfer.files.length) page.compare(event.dataTransfer.files[0]);
  });
}
element("file").addEventListener("change", (event) => page.compare(event.target.files[0]));

/** Draws anew where the screen has more or fewer dots a pixel from now on. */
function watchDots() {
  const dots = matchMedia(`(resolution: ${devicePixelRatio}dppx)`);
  const changed = () => {
    page.resize();
    watchDots();
  };
  dots.addEventListener("change", changed, { once: true });
}

new ResizeObserver(() => page.resize()).observe(picture);
watchDots();
const ground = matchMedia("(prefers-color-scheme: dark)");
ground.addEventListener("change", () => page.lightOrDark(ground.matches));
page.lightOrDark(ground.matches);
