// What is not of timelines: tables that are sorted, lines that are copied, tooltips, links into folded parts.

function sortBy(table, column) {
  const head = table.tHead.rows[0].cells[column], body = table.tBodies[0];
  const down = head.getAttribute("aria-sort") !== "descending";
  const key = (row) => {
    const cell = row.cells[column], number = cell.querySelector("data");
    return number ? Number(number.value) : cell.textContent.trim();
  };
  const before = (a, b) => (typeof a === "number" && typeof b === "number" ? b - a : String(a) < String(b) ? -1 : 1);
  const rows = [...body.rows].sort((a, b) => before(key(a), key(b)) * (down ? 1 : -1));
  [...table.tHead.rows[0].cells].forEach((cell) => cell.removeAttribute("aria-sort"));
  head.setAttribute("aria-sort", down ? "descending" : "ascending");
  body.append(...rows);
}
document.querySelectorAll("table.sortable").forEach((table) =>
  table.querySelectorAll("th").forEach((head, column) => head.querySelector("button")
    .addEventListener("click", () => sortBy(table, column))));

document.querySelectorAll("[data-copy]").forEach((button) => button.addEventListener("click", async () => {
  const source = byId(button.dataset.copy);
  try {
    await navigator.clipboard.writeText(source.textContent);
    button.textContent = "copied";
  } catch {
    getSelection().selectAllChildren(source);
  }
}));

// A finger that taps what has a tooltip is told it, as a mouse is.
document.addEventListener("pointerup", (event) => {
  if (event.target.closest(".lanes")) return;
  const inPicture = event.target.closest("svg") && event.target.querySelector(":scope > title");
  showTip(inPicture ? inPicture.textContent : event.target.closest("[title]")?.title, event.clientX, event.clientY);
});

// A part that a link leads to is opened.
function unfold() {
  const part = location.hash && byId(location.hash.slice(1))?.querySelector("details");
  if (part) part.open = true;
}
addEventListener("hashchange", unfold);
unfold();
