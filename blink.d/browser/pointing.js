// The mouse, or a finger: to drag, to come nearer, to point at a page and to choose it.
import { describe } from "./about.js";
import { isInner, keyAt, wordAt } from "./image.js";
import { canvas, pageAt, scale } from "./picture.js";
import { choose, moveTo, zoomBy } from "./sight.js";
import { element, escaped, short } from "./words.js";
import { seen } from "./seen.js";

function showTip(x, { clientX, clientY }) {
  const tip = element("tip"), { image } = seen;
  tip.hidden = x === null;
  if (x === null) return;
  const rows = Array.from({ length: image.size[x] }, (_, i) =>
    `<tr><td>${short(keyAt(image, x, i))}</td><td>${isInner(image, x) ? "→ " : ""}${short(wordAt(image, x, i))}</td></tr>`);
  tip.innerHTML = `<b>${escaped(describe(x))}</b><table>${rows.join("")}</table>`;
  const { width, height } = tip.getBoundingClientRect(), isBelow = clientY + 16 + height <= innerHeight;
  tip.style.left = `${Math.max(0, Math.min(innerWidth - width - 8, clientX + 14))}px`;
  tip.style.top = `${isBelow ? clientY + 16 : Math.max(0, clientY - height - 10)}px`;
}

function onWheel(event) {
  event.preventDefault();
  const isAlong = event.shiftKey || Math.abs(event.deltaX) > Math.abs(event.deltaY);
  if (isAlong) moveTo(seen.from + (event.deltaX || event.deltaY) / scale());
  else zoomBy(Math.exp(-event.deltaY / 400), event.offsetX);
}

// Where a drag began, and whether it has moved.
let drag = null;
function onMove(event) {
  if (!drag) {
    showTip(pageAt(event.offsetX, event.offsetY), event);
    return;
  }
  drag.isMoved ||= Math.abs(event.clientX - drag.x) > 3;
  if (!drag.isMoved) return;
  element("tip").hidden = true;
  moveTo(drag.from - (event.clientX - drag.x) / scale());
}

function onUp(event) {
  const x = pageAt(event.offsetX, event.offsetY), isClick = drag && !drag.isMoved;
  drag = null;
  if (isClick && x !== null) choose(x);
}

export function listenToPointer() {
  canvas.addEventListener("wheel", onWheel, { passive: false });
  canvas.addEventListener("pointerdown", event => {
    drag = { x: event.clientX, from: seen.from, isMoved: false };
    canvas.setPointerCapture(event.pointerId);
  });
  canvas.addEventListener("pointermove", onMove);
  canvas.addEventListener("pointerup", onUp);
  canvas.addEventListener("pointercancel", () => { drag = null; });
  canvas.addEventListener("pointerleave", () => { element("tip").hidden = true; });
}
