// The history and the map at a moment, and whether the leaves hold it.
import { isWrite } from "./parse.js";
import { agrees, historyAt } from "./points.js";
import { number, token } from "./cards.js";
import { compare } from "./order.js";
import { replyOf } from "./tell.js";
import { cut, element, escaped, many } from "./words.js";
import { processOf, shown } from "./shown.js";

const MOST_POINTS = 100, MOST_ROWS = 400;

function putVerdict({ wrong, map }) {
  const isWrong = wrong.length > 0 || !agrees(shown.tree, { map });
  const why = wrong.length ? `process ${wrong[0].process} answered what the history does not give` : "the leaves do not hold the map of the history";
  element("verdict").textContent = isWrong ? `✗ ${why}` : "✓ the leaves hold the map of the history";
  element("verdict").classList.toggle("bad", isWrong);
}

function pointLine({ moment, process: of }, place) {
  const process = processOf(of), label = `Point ${place}, at event ${moment}: ${process.name}, ${process.answer ?? "no answer yet"}`;
  return `<li class="${moment === shown.moment ? "last" : ""}"><button data-moment="${moment}" aria-label="${escaped(label)}">
    <span class="quiet">${place}</span>${token(of)}<span>${escaped(process.name)}</span><b>${escaped(cut(replyOf(process)))}</b></button></li>`;
}

function putPoints(points) {
  const list = element("points"), first = Math.max(0, points.length - MOST_POINTS);
  element("history-head").textContent = `History: ${many(points.length, "point")} so far`;
  list.innerHTML = points.length ? (first ? `<li class="quiet">${first} before</li>` : "") + points.slice(first).map((point, i) => pointLine(point, first + i + 1)).join("")
    : '<li class="quiet">No operation has taken effect.</li>';
  list.scrollTop = list.scrollHeight;
}

function putMap(map, points) {
  const last = points.length ? processOf(points.at(-1).process) : null, touched = last && isWrite(last) ? last.numbers[0] : null;
  const rows = [...map].sort(([one], [other]) => compare(one, other)), box = element("map");
  const some = rows.slice(0, MOST_ROWS).map(([key, value]) => `<span class="row ${key === touched ? "new" : ""}">${number(key)}<i>${number(value)}</i></span>`);
  element("map-head").textContent = `Map at this moment: ${many(rows.length, "row")}`;
  box.innerHTML = some.join("") + (rows.length > MOST_ROWS ? `<span class="quiet">and ${rows.length - MOST_ROWS} more</span>` : "");
  const mark = box.querySelector(".new");
  if (mark) box.scrollTop = mark.offsetTop - box.offsetTop - 60;
}

// Points and map are drawn anew where another point has come.
let drawn = null;
export function drawHistory() {
  const { points, map, wrong } = historyAt(shown.replay, shown.moment);
  putVerdict({ wrong, map });
  if (points.length !== drawn) {
    drawn = points.length;
    putPoints(points);
    putMap(map, points);
  }
  element("points").lastElementChild.classList.toggle("last", points.at(-1)?.moment === shown.moment);
}
