// The program of the page, and the stretch of time that a timeline shows.

const program = unpacked(JSON.parse(byId("data").textContent));

class Stretch {
  // No less is shown than 20 units, a part of a shorter run, or 2 microseconds of one with recorded times.
  constructor(end) {
    this.whole = Math.max(end, 1);
    this.least = Math.min(20, this.whole / 20, 2000 / program.per);
    this.show(0, this.whole);
  }
  get length() { return this.to - this.from; }
  show(from, length) {
    const kept = Math.min(Math.max(length, this.least), this.whole);
    this.from = Math.min(Math.max(from, 0), this.whole - kept);
    this.to = this.from + kept;
  }
  zoom(factor, at) { this.show(at - (at - this.from) * factor, this.length * factor); }
  move(part) { this.show(this.from + part * this.length, this.length); }
  reveal(start, end) {
    if (end - start > this.length * 0.9) this.show(start - (end - start) * 0.1, (end - start) * 1.2);
    else if (start < this.from || end > this.to) this.show((start + end - this.length) / 2, this.length);
  }
}
