"use strict";
// What the page knows of its program, from the element `data`.

const numbers = (text) => (text ? text.split(" ").map((word) => (word === "-" ? null : parseInt(word, 36))) : []);
const grouped = (value, digits = 0) => value.toLocaleString("en-US",
  { minimumFractionDigits: digits, maximumFractionDigits: digits });
const byId = (name) => document.getElementById(name);

const STEPS = [["s", 1e9], ["ms", 1e6], ["µs", 1e3], ["ns", 1]];

// A time as people read it: in the largest unit in which there is at least one, with three digits.
function human(value) {
  const { nanoseconds, unit } = program;
  if (!nanoseconds || !value) return `${grouped(value, value % 1 ? 2 : 0)} ${unit}`.trim();
  const whole = Math.abs(value) * nanoseconds;
  const [name, size] = STEPS.find(([, step]) => whole >= step * 0.9995) || STEPS[3];
  const number = value * nanoseconds / size, large = Math.abs(number);
  const digits = Number.isInteger(number) && size <= nanoseconds ? 0 : large < 9.995 ? 2 : large < 99.95 ? 1 : 0;
  return `${grouped(number, digits)} ${name}`;
}

// A cost, and in full where that says more.
function cost(value) {
  const words = human(value), exact = `${grouped(value)} ${program.unit}`.trim();
  return words === exact ? words : `${words} (${exact})`;
}
const percent = (part, whole) => `${(whole ? 100 * part / whole : 0).toFixed(1)} %`;

// One run: of each segment its thread, begin and end, and a row of bars for each thread.
class Run {
  constructor(packed, costs) {
    const inUnits = (words) => numbers(words).map((time) => time / (packed.per || 1));
    this.isTimed = Boolean(packed.lengths);
    this.starts = inUnits(packed.starts);
    this.lanes = numbers(packed.lanes);
    const lengths = this.isTimed ? inUnits(packed.lengths) : costs;
    this.ends = this.starts.map((start, segment) => start + lengths[segment]);
    this.rows = Array.from({ length: packed.count }, () => []);
    this.where = new Map();     // of each segment that has a bar its row and its place there
    this.fill(lengths);
  }
  fill(lengths) {
    this.starts.forEach((start, segment) => {
      const lane = this.lanes[segment];
      if (lane !== null && lengths[segment]) this.rows[lane].push({ segment, start, end: this.ends[segment] });
    });
    this.rows.forEach((row, i) => {
      row.sort((a, b) => a.start - b.start);
      row.forEach((bar, index) => this.where.set(bar.segment, { row: i, index }));
    });
  }
  get end() { return Math.max(0, ...this.rows.map((row) => (row.length ? row[row.length - 1].end : 0))); }
}

// A run of too many segments for one bar each: bins of time, with how busy a thread is there and with what most.
class LevelRun {
  constructor(packed) {
    const wide = packed.wide, digit = (words, i) => parseInt(words[i], 36);
    this.isTimed = true;
    this.where = new Map();
    this.end = packed.end;
    this.rows = packed.rows.map((words) => {
      const row = [];
      for (let i = 0; i < packed.bins; i++) {
        const busy = digit(words, 2 * i) / 35;
        if (busy) row.push({ start: i * wide, end: (i + 1) * wide, busy, colour: digit(words, 2 * i + 1) });
      }
      return row;
    });
  }
}

// Of each segment those that it waits for, and those that wait for it.
function waits(packed) {
  if (!packed.waits) return null;
  const counts = numbers(packed.waits.counts), steps = numbers(packed.waits.steps);
  const before = [], after = counts.map(() => []);
  let next = 0;
  counts.forEach((count, segment) => {
    before.push(steps.slice(next, next + count).map((step) => segment - step));
    next += count;
    before[segment].forEach((p) => after[p].push(segment));
  });
  return { before, after };
}

// Of a program with too many segments for a row each: runs in bins of time.
function unpackedLarge({ name, unit, nanoseconds, names, levels }) {
  const runs = Object.fromEntries(Object.entries(levels).map(([run, packed]) => [run, new LevelRun(packed)]));
  return { name, unit, nanoseconds, names, runs, isLarge: true, waits: null, per: 1, cost: [], place: [] };
}

function unpacked(packed) {
  if (packed.levels) return unpackedLarge(packed);
  const { name, unit, nanoseconds, places } = packed, out = { name, unit, nanoseconds, places, runs: {} };
  for (const column of ["cost", "task", "place", "slack"]) out[column] = numbers(packed[column]);
  out.colour = numbers(packed.taskPlace).map((place) => Math.min(place, packed.colours - 1));
  out.critical = new Set(numbers(packed.critical));
  out.waits = waits(packed);
  out.per = Math.max(...Object.values(packed.runs).map((run) => run.per || 1));
  for (const [run, words] of Object.entries(packed.runs)) out.runs[run] = new Run(words, out.cost);
  return out;
}
