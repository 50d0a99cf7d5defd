// What of the picture is in sight, and which page is chosen.
import { drawPage } from "./about.js";
import { isPlaced } from "./image.js";
import { canvas, draw, scale } from "./picture.js";
import { search } from "./search.js";
import { element, escaped, many } from "./words.js";
import { seen } from "./seen.js";

function clamp() {
  const { leaves } = seen.image, most = Math.max(1, (leaves / canvas.clientWidth) * 240);
  seen.zoom = Math.max(1, Math.min(seen.zoom, most));
  seen.from = Math.max(0, Math.min(seen.from, leaves - leaves / seen.zoom));
}

// So many leaves farther.
export function moveTo(from) {
  seen.from = from;
  clamp();
  draw();
}

// Nearer or farther away; the point of the picture stays where it is.
export function zoomBy(by, left) {
  const at = seen.from + left / scale();
  seen.zoom *= by;
  clamp();
  moveTo(at - left / scale());
}

export function showWhole() {
  seen.zoom = 1;
  moveTo(0);
}

// Brings a page into sight; near enough that its rows can be read, where that is wanted.
function bringIntoSight(x, isNear) {
  const { image } = seen;
  if (!isPlaced(image, x)) return;
  const begins = image.begins[image.level[x]], begin = begins[image.place[x]], end = begins[image.place[x] + 1];
  if (isNear) seen.zoom = Math.max(seen.zoom, image.leaves / Math.max(end - begin, canvas.clientWidth / 150));
  clamp();
  const wide = image.leaves / seen.zoom;
  if (isNear || begin < seen.from || end > seen.from + wide) seen.from = (begin + end - wide) / 2;
  clamp();
}

export function choose(x, isNear = false) {
  seen.chosen = Math.max(0, Math.min(seen.image.count - 1, x));
  bringIntoSight(seen.chosen, isNear);
  drawPage();
  draw();
}

// Shows the way of a search, and the leaf where it ends.
export function searchFor(text) {
  const isKey = /^\d{1,20}$/.test(text) && BigInt(text) < 2n ** 64n;
  element("way-box").hidden = false;
  element("way").innerHTML = "";
  if (!isKey) {
    element("way-head").textContent = "A key is a number from 0 to 18,446,744,073,709,551,615.";
    return;
  }
  const { steps, value, why } = search(seen.image, BigInt(text)), found = why || (value === null ? "absent" : `found ${value}`);
  seen.key = BigInt(text);
  seen.way = steps.map(({ x }) => x);
  element("way-head").textContent = `Search for ${text}: ${found}, in ${many(steps.length, "page")}`;
  element("way").innerHTML = steps.map(({ x, says }) => `<li><button data-page="${x}"><span>page <b>${x}</b></span><span>${escaped(says)}</span></button></li>`).join("");
  if (steps.length) choose(seen.way.at(-1), true);
}
