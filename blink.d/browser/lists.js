// The script, with the line that gave the turn, and all events.
import { cut, element, escaped } from "./words.js";
import { wordsOf } from "./tell.js";
import { shown } from "./shown.js";

// Brings a line into the sight of its box.
function bringIntoSight(box, top, above) {
  if (top < box.scrollTop || top > box.scrollTop + box.clientHeight - 30) box.scrollTop = Math.max(0, top - above);
}

export function drawScript(event) {
  const box = element("script-lines"), { scriptLines } = shown.replay;
  if (box.childElementCount !== scriptLines.length) {
    box.innerHTML = scriptLines.map((line, i) => `<div data-line="${i}"><span>${i + 1}</span>${escaped(line)}</div>`).join("");
  }
  for (const old of box.querySelectorAll(".on")) {
    old.classList.remove("on");
    old.removeAttribute("aria-current");
  }
  const line = event && event.line !== null ? box.children[event.line] : null;
  if (!line) return;
  line.classList.add("on");
  line.setAttribute("aria-current", "step");
  bringIntoSight(box, line.offsetTop, 80);
}

const HEIGHT = 22;

function eventLine(event) {
  const { moment, process, point, answer } = event, count = shown.replay.events.length, isNow = moment === shown.moment;
  const said = `${process} ${wordsOf(event)}${point === undefined ? "" : " ◆"}${answer === undefined ? "" : ` · answer ${cut(answer)}`}`;
  return `<div class="event ${isNow ? "on" : ""}" role="option" aria-selected="${isNow}" aria-setsize="${count}" aria-posinset="${moment}"
    data-moment="${moment}" style="top:${event.index * HEIGHT}px"><span>${moment}</span>${escaped(said)}</div>`;
}

// Only those in sight stand in the page.
export function drawList() {
  if (!element("list-box").open) return;
  const box = element("list"), pad = box.firstElementChild, { events } = shown.replay;
  const first = Math.max(0, Math.floor(box.scrollTop / HEIGHT) - 5), count = Math.ceil(box.clientHeight / HEIGHT) + 10;
  pad.style.height = `${events.length * HEIGHT}px`;
  pad.innerHTML = events.slice(first, first + count).map(eventLine).join("");
}

export function showInList() {
  if (!element("list-box").open) return;
  bringIntoSight(element("list"), (shown.moment - 1) * HEIGHT, 100);
  drawList();
}
