// One timeline: a row for each thread, and an axis.

const tip = document.querySelector(".tip");
let tipOf = null;    // the timeline that the words are of
function showTip(words, x, y, lanes = null) {
  tipOf = lanes;
  tip.classList.toggle("shown", Boolean(words));
  if (!words) return;
  tip.textContent = words;
  const { offsetWidth, offsetHeight } = tip;
  tip.style.left = Math.max(4, Math.min(x + 14, innerWidth - offsetWidth - 8)) + "px";
  tip.style.top = (y + 18 + offsetHeight > innerHeight ? y - offsetHeight - 10 : y + 18) + "px";
}

class Lanes {
  constructor(element) {
    this.element = element;
    this.figure = element.closest("figure");
    this.run = program.runs[element.dataset.run];
    this.stretch = new Stretch(this.run.end);
    this.chosen = null;         // a segment
    this.showThread("");
  }
  showThread(number) {          // or all threads
    this.threads = number ? [Number(number)] : [...this.run.rows.keys()];
    this.rows = this.threads.map((thread) => this.run.rows[thread]);
    this.height = rowHeight(this.rows.length);
  }
  get scale() { return (this.width - LEFT) / this.stretch.length; }
  get bottom() { return this.rows.length * this.height + 2; }
  x(time) { return LEFT + (time - this.stretch.from) * this.scale; }
  time(x) { return this.stretch.from + (x - LEFT) / this.scale; }
  top(row) { return 2 + row * this.height; }
  rowOf(segment) { return this.threads.indexOf(this.run.where.get(segment)?.row); }
  barOf(segment) { return this.rows[this.rowOf(segment)]?.[this.run.where.get(segment).index]; }

  draw() {
    this.width = this.element.clientWidth;
    if (!this.width) return;    // it is folded
    const paths = new Paths(), names = [];
    this.rows.forEach((row, i) => this.drawRow(paths, names, row, i));
    this.element.innerHTML = `<svg viewBox="0 0 ${this.width} ${this.bottom + AXIS}"><rect class="back" x="${LEFT}" ` +
      `y="0" width="${this.width - LEFT}" height="${this.bottom}"/>${this.axis()}${this.numbers()}${paths}` +
      `${names.join("")}${arrowsOf(this)}${this.chosenBox()}</svg>`;
    this.figure.querySelector(".stretch").textContent = `Shown: ${this.tellStretch(this.stretch)}.`;
  }
  drawRow(paths, names, row, i) {
    const { from, to } = this.stretch, bars = new Bars(paths, this.top(i), this.height);
    for (let k = firstToEndAfter(row, from); k < row.length && row[k].start < to; k++) {
      const { segment, start, end } = row[k], name = `c${program.colour[program.task[segment]]}`;
      const left = Math.max(this.x(start), LEFT), right = Math.min(this.x(end), this.width);
      const isCritical = program.critical.has(segment), width = right - left;
      if ((end - start) * this.scale < 1) { bars.addThin(left, right, name, isCritical); continue; }
      const seam = width > 3 ? 0.6 : 0;
      bars.add(name, left, width - seam, isCritical);
      this.addName(names, bars, segment, left, width - seam);
    }
    bars.flush(-1);
  }
  addName(names, bars, segment, left, width) {
    if (width < 24 || bars.height < 13 || names.length >= MOST_NAMES) return;
    const words = nameFor(program.places[program.place[segment]], width);
    const { top, height } = bars, colour = program.colour[program.task[segment]];
    if (words) names.push(nameIn({ left, top, width, height }, words, colour));
  }
  axis() {
    const { from, to, length } = this.stretch, step = niceStep(length, Math.max(2, this.width / 110)), out = [];
    const written = inUnit(step, program.unit), bottom = this.bottom;
    for (let time = Math.ceil(from / step) * step; time <= to; time += step) {
      const x = this.x(time).toFixed(1), anchor = x > this.width - 50 ? "end" : time === 0 ? "start" : "middle";
      out.push(`<line class="tick" x1="${x}" x2="${x}" y1="0" y2="${bottom}"/>`);
      out.push(`<text x="${x}" y="${bottom + 15}" text-anchor="${anchor}">${written(time)}</text>`);
    }
    return out.join("");
  }
  numbers() {
    const every = Math.ceil(14 / this.height);
    return this.threads.map((thread, i) => (i % every ? "" :
      `<text x="${LEFT - 6}" y="${this.top(i) + this.height / 2 + 4}" text-anchor="end">${thread}</text>`)).join("");
  }
  chosenBox() {
    const bar = this.barOf(this.chosen);
    if (!bar) return "";
    const left = Math.max(this.x(bar.start), LEFT), right = Math.min(this.x(bar.end), this.width);
    return right < left ? "" : `<rect class="cursor" x="${left - 1}" ` +
      `y="${this.top(this.rowOf(this.chosen)) - 1}" width="${Math.max(right - left, 1) + 2}" ` +
      `height="${this.height - 1}"/>`;
  }

  // What stands at a point: the bars of its pixel.
  barsAt(x, y) {
    const row = this.rows[Math.floor((y - 2) / this.height)];
    if (!row || x < LEFT) return [];
    const from = this.time(Math.floor(x)), to = this.time(Math.floor(x) + 1), found = [];
    for (let k = firstToEndAfter(row, from); k < row.length && row[k].start < to; k++) found.push(row[k]);
    const wide = found.filter((bar) => (bar.end - bar.start) * this.scale >= 1);
    const at = wide.find((bar) => bar.start <= this.time(x) && this.time(x) < bar.end);
    return at ? [at] : found.length === wide.length ? wide.slice(0, 1) : found;
  }
  words(bars) { return bars.length === 1 ? wordsOfOne(this, bars[0]) : wordsOfMany(this, bars); }
  tellStretch({ from, to }) { return wordsOfStretch(this, from, to); }
  tellAt(x, y, event) {
    const bars = this.barsAt(x, y);
    showTip(bars.length ? this.words(bars) : "", event.clientX, event.clientY, this);
  }
}
