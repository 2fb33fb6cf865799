// A timeline of bins of time.

class LevelLanes extends Lanes {
  drawRow(paths, names, row, i) {
    const { from, to } = this.stretch, bars = new Bars(paths, this.top(i), this.height);
    for (let k = firstToEndAfter(row, from); k < row.length && row[k].start < to; k++) {
      const { start, end, busy, colour } = row[k];
      const left = Math.max(this.x(start), LEFT), right = Math.min(this.x(end), this.width);
      if (right - left < 1) { bars.addThin(left, left + (right - left) * busy, `c${colour}`, false); continue; }
      const high = Math.max(1, busy * bars.height);
      paths.add(`c${colour}`, left, bars.top + bars.height - high, right - left, high);
    }
    bars.flush(-1);
  }
  words(bars) {
    const [from, to] = [bars[0].start, bars[bars.length - 1].end];
    return `${between(from, to)}\n${wordsOfBins(this, bars, to - from)}`;
  }
  tellStretch({ from, to }) {
    const bars = this.rows.flatMap((row) => row.filter((bar) => bar.end > from && bar.start < to));
    return `${between(from, to)} (${human(to - from)}): ` +
      wordsOfBins(this, bars, (to - from) * this.rows.length);
  }
}

function wordsOfBins(lanes, bars, whole) {
  const timeOf = (bar) => bar.busy * (bar.end - bar.start), sum = bars.reduce((all, bar) => all + timeOf(bar), 0);
  const most = sumsBy(bars, (bar) => bar.colour, timeOf).slice(0, MOST_TOLD);
  return `about ${percent(Math.min(sum, whole), whole)} busy` +
    (most.length ? `; mostly: ${most.map(([colour]) => program.names[colour]).join(", ")}` : "");
}
