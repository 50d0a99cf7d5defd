// The tree as rows of cards.
import { stateAt } from "./follow.js";
import { isLive } from "./pages.js";
import { card, token } from "./cards.js";
import { releasedOf } from "./tree.js";
import { drawEdges } from "./edges.js";
import { element, escaped, many } from "./words.js";
import { shown } from "./shown.js";

const isStill = matchMedia("(prefers-reduced-motion: reduce)");

// How much of its entries each page shows: what was chosen, or what fits.
export function formOf() {
  const wanted = element("detail").value, leaves = shown.tree.levels.at(-1).pages.length;
  if (wanted !== "auto") return wanted;
  return leaves <= 10 ? "full" : leaves <= 70 ? "keys" : "bars";
}

function link({ page }, next) {
  const right = isLive(page) ? page.right : 0;
  if (!right) return '<div class="link none"></div>';
  const isNear = next && next.x === right;
  return `<div class="link ${isNear ? "" : "far"}" title="links to page ${right}">${isNear ? "──▸" : `─▸<br>${right}`}</div>`;
}

function rowOf({ level, pages }, event, form) {
  const live = pages.filter(({ page }) => isLive(page)), entries = live.reduce((sum, { page }) => sum + page.pairs.length, 0);
  const head = `level ${level}: ${many(live.length, "page")}, ${many(entries, level ? "child" : "row")}`;
  return { head, slots: pages.map((node, i) => card(node, event, form) + link(node, pages[i + 1])) };
}

// The anchor, with the processes that have begun and looked at no page yet.
function firstRow(event, form) {
  const slots = [card(shown.tree.anchor, event, form)];
  const waiting = shown.running.filter(process => stateAt(process, shown.moment).page === null);
  const tokens = waiting.map(({ number }) => token(number, event?.process === number ? "acts" : "")).join("");
  if (tokens) slots.push(`<div class="link none"></div><div><small class="quiet">begun, on no page yet</small><div class="tokens">${tokens}</div></div>`);
  return { head: "", slots };
}

// Puts the rows on the page. What is as it was is left alone.
let standing = [];
function putRows(rows) {
  const box = element("levels"), slot = html => `<div class="slot">${html}</div>`;
  if (rows.length !== standing.length) {
    box.innerHTML = rows.map(({ head, slots }) =>
      `<section class="level"><h3 ${head ? "" : "hidden"}>${escaped(head)}</h3><div class="pages">${slots.map(slot).join("")}</div></section>`).join("");
  } else {
    rows.forEach(({ head, slots }, i) => {
      const [title, row] = box.children[i].children, was = standing[i].slots;
      if (head !== standing[i].head) title.textContent = head;
      if (slots.length !== was.length) row.innerHTML = slots.map(slot).join("");
      else slots.forEach((html, j) => { if (html !== was[j]) row.children[j].innerHTML = html; });
    });
  }
  standing = rows;
}

function putReleased(event) {
  const { released } = shown.tree, some = releasedOf(shown.replay, shown.tree, 24), isNow = x => event?.act === "release" && event.page === x;
  if (event?.act === "release" && !some.includes(event.page)) some.push(event.page);
  const chips = some.map(x => `<span class="chip ${isNow(x) ? "new" : ""}">${x}</span>`).join("");
  element("shelf").innerHTML = `released: ${chips || "none"}${released > some.length ? ` and ${many(released - some.length, "other")}` : ""}`;
}

const tokensOf = tree => [...tree.querySelectorAll(".token")].map(token => [token.dataset.process, token]);

// Lets the tokens go to their new places from those where they stood.
function moveTokens(tree, places) {
  if (isStill.matches || (shown.timer && Number(element("speed").value) > 5)) return;
  for (const [process, token] of tokensOf(tree)) {
    const from = places.get(process), to = token.getBoundingClientRect();
    if (!from || Math.abs(from.left - to.left) + Math.abs(from.top - to.top) < 3) continue;
    const start = `translate(${from.left - to.left}px,${from.top - to.top}px)`;
    token.animate([{ transform: start, zIndex: 9 }, { transform: "none", zIndex: 9 }], { duration: 260, easing: "ease-out" });
  }
}

export function drawTree(event) {
  const tree = element("tree"), focused = document.activeElement?.dataset?.page, form = formOf();
  const places = new Map(tokensOf(tree).map(([process, token]) => [process, token.getBoundingClientRect()]));
  const widest = Math.max(...shown.tree.levels.map(({ pages }) => pages.length));
  tree.style.fontSize = `${form !== "full" ? 13 : widest <= 3 ? 19 : widest <= 5 ? 16 : 14}px`;
  putReleased(event);
  putRows([firstRow(event, form), ...shown.tree.levels.map(level => rowOf(level, event, form))]);
  if (focused !== undefined) tree.querySelector(`.card[data-page="${focused}"]`)?.focus({ preventScroll: true });
  drawEdges(event);
  moveTokens(tree, places);
}
