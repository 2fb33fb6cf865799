// How bars, their names and axes are drawn.

const AXIS = 24;
const mostRows = Math.max(0, ...Object.values(program.runs).map((run) => run.rows.length));
const LEFT = Math.max(30, 12 + 8 * String(mostRows - 1).length);     // room for the numbers of the threads
const LETTER = 6.4, MOST_NAMES = 400;       // a letter's width in bars, and how many names are drawn at most
const rowHeight = (count) => (count <= 8 ? 28 : count <= 16 ? 20 : count <= 32 ? 13 : 9);

class Paths {
  constructor() { this.words = new Map(); }
  add(name, x, y, width, height) {
    if (!this.words.has(name)) this.words.set(name, []);
    const box = [x, y].map((v) => v.toFixed(2)).join(" ");
    this.words.get(name).push(`M${box}h${width.toFixed(2)}v${height.toFixed(2)}h${(-width).toFixed(2)}z`);
  }
  toString() {
    const order = [...this.words.keys()].sort((a, b) => a.includes("strip") - b.includes("strip"));
    return order.map((name) => `<path class="${name}" d="${this.words.get(name).join("")}"/>`).join("");
  }
}

// A row of bars. What is on the critical path has a strip below it.
class Bars {
  constructor(paths, top, height) {
    Object.assign(this, { paths, top, pixel: -1 });
    this.strip = height < 12 ? 2 : 3;
    this.height = height - this.strip - 2;
  }
  add(name, left, width, isCritical) {
    this.paths.add(name, left, this.top, width, this.height);
    if (isCritical) this.mark(left, width);
  }
  mark(left, width) {
    this.paths.add("strip", left, this.top + this.height + 1, Math.max(width, 1), this.strip);
  }
  // Bars thinner than a pixel: one column for each pixel, as high as the share of its time that the thread is busy.
  addThin(from, to, name, isCritical) {
    for (let x = from; x < to;) {
      const pixel = Math.floor(x), until = Math.min(to, pixel + 1);
      if (pixel !== this.pixel) this.flush(pixel);
      this.parts[name] = (this.parts[name] || 0) + until - x;
      this.isCritical = this.isCritical || isCritical;
      x = until > x ? until : to;
    }
  }
  flush(next) {
    if (this.pixel >= 0) {
      const [name] = Object.entries(this.parts).sort((a, b) => b[1] - a[1])[0];
      const busy = Math.min(1, Object.values(this.parts).reduce((a, b) => a + b, 0));
      const high = Math.max(2, busy * this.height);
      this.paths.add(name, this.pixel, this.top + this.height - high, 1, high);
      if (this.isCritical) this.mark(this.pixel, 1);
    }
    Object.assign(this, { pixel: next, parts: {}, isCritical: false });
  }
}

const escaped = (words) => words.replace(/[&<>"]/g, (sign) => `&#${sign.charCodeAt(0)};`);

// As much of a place's name as there is room for: `task at sort.c:33`, `sort.c:33`, `:33`; of a task to which several
// calls led also the function that called it.
function nameFor(name, width) {
  const where = name.slice(name.indexOf(" at ") < 0 ? 0 : name.indexOf(" at ") + 4);
  const [creation, caller] = where.split(" called from "), line = (/:\d+$/.exec(creation) || [""])[0];
  const called = caller ? `${line} from ${caller.split(" at ")[0]}` : "", room = Math.floor((width - 6) / LETTER);
  return [name, where, called, creation, line].find((words) => words && words.length <= room) || "";
}

function nameIn(bar, words, colour) {
  const { left, top, width, height } = bar;
  return `<g><rect class="c${colour}" x="${left.toFixed(1)}" y="${top}" width="${width.toFixed(1)}" ` +
    `height="${height}"/><text class="t${colour} name" x="${(left + 4).toFixed(1)}" y="${top + height / 2 + 4}">` +
    `${escaped(words)}</text></g>`;
}

function firstToEndAfter(row, time) {
  let low = 0, high = row.length;
  while (low < high) {
    const middle = (low + high) >> 1;
    if (row[middle].end > time) high = middle; else low = middle + 1;
  }
  return low;
}

function niceStep(length, most) {
  const raw = length / most, power = 10 ** Math.floor(Math.log10(raw));
  return ([1, 2, 5].find((step) => step * power >= raw) || 10) * power;
}

// How the times of an axis are written: in the largest unit in which all of them are whole, and else in the
// program's own.
function inUnit(step, unit) {
  const units = ["ns", "µs", "ms", "s"];
  let index = units.indexOf(unit), divisor = 1;
  while (index >= 0 && index < 3 && step % (divisor * 1000) === 0) { divisor *= 1000; index++; }
  const digits = Math.max(0, -Math.floor(Math.log10(step / divisor) + 1e-9));
  return (time) => `${grouped(time / divisor, digits)} ${index < 0 ? unit : units[index]}`.trim();
}
