"use strict";
// Shows what a cell's title says in the panel, for a click, the arrow keys and a link to the cell.
const panel = document.getElementById("panel");
let picked = null;
function pick(cell) {
  if (!cell || cell.tagName !== "TD" || !cell.closest(".grid")) return;
  if (picked) picked.classList.remove("picked");
  picked = cell;
  cell.classList.add("picked");
  panel.textContent = cell.title;
}
function beside(rows, columns) {
  const row = picked.parentElement.parentElement.rows[picked.parentElement.sectionRowIndex + rows];
  const cell = row && row.cells[picked.cellIndex + columns];
  pick(cell);
  if (cell) picked.scrollIntoView({ block: "nearest", inline: "nearest" });
}
const steps = { ArrowUp: [-1, 0], ArrowDown: [1, 0], ArrowLeft: [0, -1], ArrowRight: [0, 1] };
document.querySelector(".grid").addEventListener("click", (event) => pick(event.target));
document.addEventListener("keydown", (event) => {
  if (!picked || !steps[event.key]) return;
  event.preventDefault();
  beside(...steps[event.key]);
});
function follow() {
  if (location.hash) pick(document.getElementById(location.hash.slice(1)));
}
addEventListener("hashchange", follow);
follow();
