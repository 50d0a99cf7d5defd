// Lines from each child that is listed to its page, and the way that an event has shown.
import { colourOf } from "./lanes.js";
import { element } from "./words.js";
import { eventAt, processOf, shown } from "./shown.js";

const isWrapped = row => row.lastElementChild && row.lastElementChild.offsetTop > row.firstElementChild.offsetTop + 4;

function edge(entry, to, base) {
  const from = entry.getBoundingClientRect(), target = to.getBoundingClientRect();
  const x = from.left + from.width / 2 - base.left, y = from.bottom - base.top;
  const left = target.left + Math.min(target.width / 2, 40) - base.left, top = target.top - base.top, bend = Math.max(12, (top - y) / 2);
  const parent = entry.closest(".card").dataset.page, isHot = shown.pointed !== null && [parent, entry.dataset.to].includes(shown.pointed);
  return `<path class="${isHot ? "hot" : ""}" d="M${x} ${y}C${x} ${y + bend} ${left} ${top - bend} ${left} ${top}"/>`;
}

// An arrow from the page that the process has read to the one where it goes.
function arrow({ page, way, process }, cards, base) {
  if (!["down", "right", "first"].includes(way?.to) || !cards.has(String(way.page))) return "";
  const from = cards.get(String(page)).getBoundingClientRect(), to = cards.get(String(way.page)).getBoundingClientRect();
  const isDown = to.top > from.bottom - 4, isBack = !isDown && to.left < from.left, by = isBack ? -1 : 1;
  const x = (isDown ? from.left + from.width / 2 : isBack ? from.left : from.right) - base.left, y = (isDown ? from.bottom : from.top + 22) - base.top;
  const left = (isDown ? to.left + to.width / 2 : isBack ? to.right : to.left) - base.left, top = (isDown ? to.top : to.top + 22) - base.top;
  const line = isDown ? `C${x} ${y + 18} ${left} ${top - 18} ${left} ${top - 3}` : `C${x + by * 8} ${y} ${left - by * 8} ${top} ${left - by * 3} ${top}`;
  const colour = colourOf(processOf(process));
  return `<defs><marker id="head" viewBox="0 0 8 8" refX="6" refY="4" markerWidth="5" markerHeight="5" orient="auto">
    <path d="M0 0L8 4L0 8z" style="fill:${colour};stroke:none"/></marker></defs>
    <path class="way" style="stroke:${colour}" marker-end="url(#head)" d="M${x} ${y}${line}"/>`;
}

// Where a level has more than one line of pages, only the lines of the page that the event is at are drawn, and those of one that is pointed at.
export function drawEdges(event) {
  const tree = element("tree"), base = tree.getBoundingClientRect(), svg = element("edges");
  const cards = new Map([...tree.querySelectorAll(".card")].map(card => [card.dataset.page, card]));
  const wraps = [...tree.querySelectorAll(".pages")].some(isWrapped);
  const isWanted = ({ dataset }) => !wraps || dataset.page === String(event?.page) || dataset.page === shown.pointed;
  const entries = [...tree.querySelectorAll("[data-to]")].filter(entry => cards.has(entry.dataset.to) && isWanted(entry.closest(".card")));
  svg.setAttribute("width", base.width);
  svg.setAttribute("height", base.height);
  svg.innerHTML = (event ? arrow(event, cards, base) : "") + entries.map(entry => edge(entry, cards.get(entry.dataset.to), base)).join("");
}

// Marks the lines of a page that is pointed at, and the child of an entry.
function point(target) {
  const tree = element("tree"), entry = target?.closest("[data-to]");
  shown.pointed = target?.closest(".card")?.dataset.page ?? null;
  drawEdges(eventAt(shown.moment));
  for (const card of tree.querySelectorAll(".card.child")) card.classList.remove("child");
  if (entry) tree.querySelector(`.card[data-page="${entry.dataset.to}"]`)?.classList.add("child");
}

export function listenToTree() {
  for (const type of ["mouseover", "focusin"]) element("tree").addEventListener(type, ({ target }) => point(target));
  for (const type of ["mouseout", "focusout"]) element("tree").addEventListener(type, () => point(null));
}
