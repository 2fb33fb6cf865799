// What is wrong with the looks of the page in the window, as a list of words. Evaluated in the page by visit.py, more
// than once, so everything here is a function.

function leastContrast() { return 4.5; }
function slack() { return 2; }    // pixels that do not count

function short(element) {
  const names = element.className.baseVal ?? element.className;
  return `${element.tagName}.${names} "${element.textContent.trim().slice(0, 40)}"`;
}

function isSeen(element) {
  return element.checkVisibility({ visibilityProperty: true }) && element.getBoundingClientRect().width > 0;
}

function faultsOfSizes() {
  const faults = [], wide = document.documentElement.scrollWidth;
  for (const part of document.querySelectorAll("section, figure, svg, .times, .went, table")) {
    const { width, height } = part.getBoundingClientRect();
    if (part.checkVisibility() && !(width > 0 && height > 0)) faults.push(`without a size: ${short(part)}`);
  }
  if (wide > innerWidth) faults.push(`the page is ${wide} wide in a window of ${innerWidth}`);
  for (const lanes of document.querySelectorAll(".lanes")) {
    if (isSeen(lanes) && !lanes.querySelector("path")) faults.push("a timeline without bars");
  }
  for (const line of document.querySelectorAll(".edge.creates:not(.depends)")) {
    if (getComputedStyle(line).strokeDasharray === "none") faults.push(`not dashed: ${short(line)}`);
  }
  return faults;
}

// ---- colours ----

// Any colour of CSS as red, green, blue and opacity, from 0 to 255.
function rgba(colour) {
  rgba.canvas ??= document.createElement("canvas").getContext("2d", { willReadFrequently: true });
  rgba.canvas.clearRect(0, 0, 1, 1);
  rgba.canvas.fillStyle = colour;
  rgba.canvas.fillRect(0, 0, 1, 1);
  return [...rgba.canvas.getImageData(0, 0, 1, 1).data];
}

// The relative luminance of WCAG 2.
function luminance(colour) {
  const parts = rgba(colour).slice(0, 3).map((part) => part / 255);
  const linear = parts.map((part) => (part <= 0.03928 ? part / 12.92 : ((part + 0.055) / 1.055) ** 2.4));
  return 0.2126 * linear[0] + 0.7152 * linear[1] + 0.0722 * linear[2];
}

function contrast(a, b) {
  const [low, high] = [luminance(a), luminance(b)].sort((x, y) => x - y);
  return (high + 0.05) / (low + 0.05);
}

function paperOf(element) {
  for (let here = element; here; here = here.parentElement) {
    const colour = getComputedStyle(here).backgroundColor;
    if (rgba(colour)[3] > 250) return colour;
  }
  return getComputedStyle(document.body).backgroundColor;
}

function contrastOf(element) {
  const picture = element.closest("svg"), words = element.closest("text");
  if (!picture) return contrast(getComputedStyle(element).color, paperOf(element));
  const box = words.closest("g")?.querySelector("rect");
  return contrast(getComputedStyle(words).fill, box ? getComputedStyle(box).fill : paperOf(picture.parentElement));
}

function faultsOfColours() {
  const hasOwnWords = (element) => [...element.childNodes].some((node) => node.nodeType === 3 && node.data.trim());
  const elements = [...document.querySelectorAll("body *")].filter((element) =>
    hasOwnWords(element) && isSeen(element) && !element.closest("script, style, title, .tip"));
  const found = elements.map((element) => [contrastOf(element), element]);
  return found.filter(([value]) => value < leastContrast())
    .map(([value, element]) => `contrast ${value.toFixed(1)}: ${short(element)}`);
}

// ---- words that overlap or are cut off ----

function overlap(a, b) {
  return Math.min(a.right, b.right) - Math.max(a.left, b.left) > slack() &&
    Math.min(a.bottom, b.bottom) - Math.max(a.top, b.top) > slack();
}

function isInside(box, frame) {
  return box.left >= frame.left - slack() && box.right <= frame.right + slack() && box.top >= frame.top - slack() &&
    box.bottom <= frame.bottom + slack();
}

function faultsOfPicture(picture) {
  const faults = [], frame = picture.getBoundingClientRect();
  const texts = [...picture.querySelectorAll("text")].filter(isSeen);
  const boxes = texts.map((text) => text.getBoundingClientRect());
  boxes.forEach((box, i) => {
    if (!isInside(box, frame)) faults.push(`cut off: ${short(texts[i])}`);
    boxes.slice(i + 1).forEach((other, k) => {
      if (overlap(box, other)) faults.push(`overlap: ${short(texts[i])} and ${short(texts[i + 1 + k])}`);
    });
  });
  return faults;
}

function faultsOfWords() {
  const elements = document.querySelectorAll("h1, h2, h3, button, a, .time, .went i, .badge, p, li, figcaption, td .place");
  const isCut = (element) => isSeen(element) && element.clientWidth > 0 &&
    element.scrollWidth > element.clientWidth + slack();
  return [...[...document.querySelectorAll("svg")].flatMap(faultsOfPicture),
    ...[...elements].filter(isCut).map((element) => `cut off: ${short(element)}`)];
}

[...new Set([...faultsOfSizes(), ...faultsOfColours(), ...faultsOfWords()])];
