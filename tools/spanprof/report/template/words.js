// What a timeline tells of segments and of a stretch of time.

const MOST_TOLD = 3;    // places of a stretch

// The segments with a bar that one waits for, or that wait for it, through those that take no time.
function neighbours(lanes, of, segment) {
  const open = [...of[segment]], found = new Set(), seen = new Set(open);
  while (open.length) {
    const next = open.pop();
    if (lanes.run.where.has(next)) { found.add(next); continue; }
    of[next].filter((s) => !seen.has(s)).forEach((s) => { seen.add(s); open.push(s); });
  }
  return [...found];
}

// Two moments in the unit of the later one, with enough digits to tell them apart.
function between(start, end) {
  const { nanoseconds, unit } = program, step = Math.max((end - start) / 20, 1e-3);
  const whole = end * (nanoseconds || 0);
  const [name, size] = STEPS.find(([, least]) => whole >= least) || [unit, nanoseconds];
  const scale = size / nanoseconds || 1, digits = Math.max(0, Math.ceil(Math.log10(scale / step) - 1e-9));
  const written = (time) => `${grouped(time / scale, Math.min(digits, 9))} ${name}`.trim();
  return `from ${written(start)} to ${written(end)}`;
}

function wordsOfWaits(lanes, { segment, start }) {
  const { before, after } = program.waits, { ends } = lanes.run;
  const late = start - before[segment].reduce((latest, p) => Math.max(latest, ends[p]), 0);
  return `\nwaited for ${neighbours(lanes, before, segment).length}, and ` +
    `${neighbours(lanes, after, segment).length} for it` +
    (late > 0 ? `; ready ${human(late)} before it began` : "");
}

function wordsOfOne(lanes, bar) {
  const { segment, start, end } = bar, own = program.cost[segment];
  const took = lanes.run.isTimed && Math.abs(end - start - own) > Math.max(1, own / 100) ?
    `, took ${human(end - start)} by the clock` : "";
  return `${program.places[program.place[segment]]}\nsegment ${segment} of task ${program.task[segment]}\n` +
    `cost ${cost(own)}${took}\n${between(start, end)}\n` +
    `slack ${human(program.slack[segment])}` +
    (program.critical.has(segment) ? ", on the critical path" : "") + wordsOfWaits(lanes, bar);
}

function sumsBy(bars, keyOf, valueOf) {
  const sums = new Map();
  bars.forEach((bar) => sums.set(keyOf(bar), (sums.get(keyOf(bar)) || 0) + valueOf(bar)));
  return [...sums].sort((a, b) => b[1] - a[1]);
}

function wordsOfMany(lanes, bars) {
  const { place, places, critical } = program, costOf = (bar) => program.cost[bar.segment];
  const sum = bars.reduce((all, bar) => all + costOf(bar), 0);
  const [most] = sumsBy(bars, (bar) => place[bar.segment], costOf)[0];
  const path = bars.filter((bar) => critical.has(bar.segment)).length;
  return `${bars.length} segments, too thin to be told apart here\ncosts ${human(sum)} together` +
    `\nmost of it: ${places[most]}` + (path ? `\n${path} on the critical path` : "");
}

// The bars of a stretch, each with how much of it lies there.
function inside(lanes, from, to) {
  return lanes.rows.flatMap((row) => {
    const out = [];
    for (let k = firstToEndAfter(row, from); k < row.length && row[k].start < to; k++) {
      out.push({ segment: row[k].segment, part: Math.min(row[k].end, to) - Math.max(row[k].start, from) });
    }
    return out;
  });
}

function wordsOfStretch(lanes, from, to) {
  const bars = inside(lanes, from, to), busy = bars.reduce((sum, bar) => sum + bar.part, 0);
  const most = sumsBy(bars, (bar) => program.place[bar.segment], (bar) => bar.part).slice(0, MOST_TOLD)
    .filter(([, sum]) => sum > busy / 1000);
  const places = most.map(([place, sum]) => `${program.places[place]} ${percent(sum, busy)}`);
  return `${between(from, to)} (${human(to - from)}): threads busy ` +
    `${percent(busy, (to - from) * lanes.rows.length)}, ${grouped(bars.length)} segments` +
    (places.length ? `; most of the time: ${places.join(", ")}` : "");
}
