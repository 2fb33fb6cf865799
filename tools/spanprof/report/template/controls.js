// Mouse, fingers, keys and buttons of the timelines.

const allLanes = [...document.querySelectorAll(".lanes")].map(
  (element) => new (program.isLarge ? LevelLanes : Lanes)(element));
const toDraw = new Set();
function drawAll() {
  allLanes.forEach((lanes) => lanes.draw());
}
function drawSoon(lanes) {
  if (!toDraw.size) requestAnimationFrame(() => { toDraw.forEach((one) => one.draw()); toDraw.clear(); });
  toDraw.add(lanes);
}

const ACTS = {
  in: (stretch) => stretch.zoom(1 / 1.6, (stretch.from + stretch.to) / 2),
  out: (stretch) => stretch.zoom(1.6, (stretch.from + stretch.to) / 2),
  all: (stretch) => stretch.show(0, stretch.whole),
  left: (stretch) => stretch.move(-0.25),
  right: (stretch) => stretch.move(0.25),
};
const KEYS = { "+": "in", "=": "in", w: "in", "-": "out", s: "out", "0": "all", a: "left", ArrowLeft: "left",
  d: "right", ArrowRight: "right" };
const STEPS_OF_KEYS = { n: nextCritical, Escape: leave };

const at = (lanes, event) => {
  const box = lanes.element.getBoundingClientRect();
  return [event.clientX - box.left, event.clientY - box.top];
};

function listenToKeys(lanes) {
  lanes.element.addEventListener("keydown", (event) => {
    if (event.ctrlKey || event.metaKey || event.altKey) return;
    const key = event.key.length === 1 ? event.key.toLowerCase() : event.key;
    const act = ACTS[KEYS[key]], go = STEPS_OF_KEYS[key];
    if (!act && !go) return;
    event.preventDefault();
    if (go) return go(lanes);
    act(lanes.stretch);
    drawSoon(lanes);
  });
  lanes.element.addEventListener("blur", (event) => { if (event.relatedTarget) showTip(""); });
}

function listenToZoom(lanes) {
  const { element } = lanes, zoom = (factor, event) => {
    lanes.stretch.zoom(factor, lanes.time(at(lanes, event)[0]));
    drawSoon(lanes);
  };
  element.addEventListener("wheel", (event) => {
    if (!event.ctrlKey) return;
    event.preventDefault();
    zoom(event.deltaY > 0 ? 1.25 : 0.8, event);
  }, { passive: false });
}

// What fingers or the mouse do with a timeline: a drag moves it, two fingers zoom, a tap chooses.
class Hold {
  constructor(lanes) { Object.assign(this, { lanes, pointers: new Map(), from: 0, moved: false }); }
  down(event) {
    this.pointers.set(event.pointerId, event.clientX);
    this.moved = this.pointers.size > 1;
    this.x = event.clientX;
    this.from = this.lanes.stretch.from;
  }
  move(event) {
    const before = [...this.pointers.values()];
    this.pointers.set(event.pointerId, event.clientX);
    this.moved = this.moved || Math.abs(event.clientX - this.x) > 4;
    if (!this.moved) return;
    if (this.pointers.size > 1) this.pinch(before, [...this.pointers.values()]);
    else this.lanes.stretch.show(this.from - (event.clientX - this.x) / this.lanes.scale, this.lanes.stretch.length);
    showTip("");
    drawSoon(this.lanes);
  }
  pinch(before, now) {
    const apart = ([a, b]) => Math.max(Math.abs(a - b), 10), middle = (now[0] + now[1]) / 2;
    const box = this.lanes.element.getBoundingClientRect();
    this.lanes.stretch.zoom(apart(before) / apart(now), this.lanes.time(middle - box.left));
  }
  up(event) {
    if (!this.pointers.delete(event.pointerId)) return;
    if (!this.moved) this.tap(event);
    if (this.pointers.size === 1) { [this.x] = this.pointers.values(); this.from = this.lanes.stretch.from; }
  }
  tap(event) {
    const bars = this.lanes.barsAt(...at(this.lanes, event));
    if (bars.length === 1) this.lanes.chosen = this.lanes.chosen === bars[0].segment ? null : bars[0].segment;
    drawSoon(this.lanes);
    this.lanes.tellAt(...at(this.lanes, event), event);
  }
}

function listenToPointer(lanes) {
  const { element } = lanes, hold = new Hold(lanes);
  element.addEventListener("pointerdown", (event) => {
    element.setPointerCapture(event.pointerId);     // so that a drag may leave the timeline
    hold.down(event);
  });
  element.addEventListener("pointerup", (event) => hold.up(event));
  element.addEventListener("pointercancel", (event) => hold.pointers.delete(event.pointerId));
  element.addEventListener("pointermove", (event) => {
    if (hold.pointers.size) hold.move(event);
    else lanes.tellAt(...at(lanes, event), event);
  });
  element.addEventListener("pointerleave", (event) => {
    if (event.pointerType === "mouse" && tipOf === lanes) showTip("");
  });
}

function listenToControls(lanes) {
  lanes.figure.querySelectorAll("[data-act]").forEach((button) => button.addEventListener("click", () => {
    ACTS[button.dataset.act](lanes.stretch);
    drawSoon(lanes);
  }));
}

const CHOICES = {
  region: (lanes, value) => {
    const [from, to] = value ? value.split(" ").map(Number) : [0, lanes.stretch.whole];
    lanes.stretch.show(from, to - from);
  },
  thread: (lanes, value) => lanes.showThread(value),
};
function listenToChoices(lanes) {
  lanes.figure.querySelectorAll("[data-choose]").forEach((select) => select.addEventListener("change", () => {
    CHOICES[select.dataset.choose](lanes, select.value);
    drawSoon(lanes);
  }));
}

for (const listen of [listenToKeys, listenToZoom, listenToPointer, listenToControls, listenToChoices]) {
  allLanes.forEach(listen);
}
document.querySelectorAll("details").forEach((part) => part.addEventListener("toggle", () => {
  allLanes.filter((lanes) => part.contains(lanes.element)).forEach((lanes) => lanes.draw());
}));
addEventListener("resize", () => allLanes.forEach(drawSoon));
drawAll();
