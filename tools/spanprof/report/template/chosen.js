// A chosen segment: arrows of what it waited for and of what waited for it; a key goes along the critical path.

const MOST_ARROWS = 40;     // in each direction

function arrow(lanes, name, from, to) {
  const a = lanes.barOf(from), b = lanes.barOf(to);
  const clamped = (x) => Math.max(LEFT - 4, Math.min(x, lanes.width + 4));
  const [x0, x1] = [clamped(lanes.x(a.end)), clamped(lanes.x(b.start))];
  const [y0, y1] = [from, to].map((segment) => lanes.top(lanes.rowOf(segment)) + lanes.height / 2 - 2);
  const bend = Math.max(14, Math.abs(x1 - x0) / 2).toFixed(1);
  return `<path class="${name}" d="M${x0.toFixed(1)} ${y0}c${bend} 0 ${(x1 - x0 - bend).toFixed(1)} ${y1 - y0} ` +
    `${(x1 - x0).toFixed(1)} ${y1 - y0}"/><path class="${name} head" d="M${x1.toFixed(1)} ${y1}l-6 -3.5v7z"/>`;
}

function arrowsOf(lanes) {
  const { chosen } = lanes, { waits } = program;
  if (!waits || !lanes.barOf(chosen)) return "";
  const shown = (of) => neighbours(lanes, of, chosen).filter((segment) => lanes.barOf(segment)), { run } = lanes;
  const before = shown(waits.before).sort((a, b) => run.ends[b] - run.ends[a]);
  const after = shown(waits.after).sort((a, b) => run.starts[a] - run.starts[b]);
  return [...before.slice(0, MOST_ARROWS).map((s) => arrow(lanes, "waited", s, chosen)),
    ...after.slice(0, MOST_ARROWS).map((s) => arrow(lanes, "waits", chosen, s))].join("");
}

function choose(lanes, segment) {
  const bar = lanes.barOf(segment);
  if (!bar) return;
  lanes.chosen = segment;
  lanes.stretch.reveal(bar.start, bar.end);
  lanes.draw();
  const box = lanes.element.getBoundingClientRect(), below = lanes.top(lanes.rowOf(segment) + 1);
  showTip(lanes.words([bar]), box.left + Math.max(lanes.x(bar.start), LEFT), box.top + below, lanes);
}

function leave(lanes) {
  lanes.chosen = null;
  showTip("");
  lanes.draw();
}

// The next in time after the chosen one on the critical path; after the last of all the first.
function nextCritical(lanes) {
  const now = lanes.barOf(lanes.chosen), after = now ? [now.start, lanes.chosen] : [-1, -1];
  const isAfter = (bar) => bar.start > after[0] || bar.start === after[0] && bar.segment > after[1];
  const found = lanes.rows.flatMap((row) => row.filter((bar) => program.critical.has(bar.segment)))
    .sort((a, b) => a.start - b.start || a.segment - b.segment);
  const next = found.find(isAfter) || found[0];
  if (next) choose(lanes, next.segment);
}
