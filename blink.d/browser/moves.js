// From moment to moment.
import { drawEvent, drawBrief } from "./event.js";
import { drawHistory } from "./history.js";
import { drawProcesses } from "./processes.js";
import { drawScript, showInList } from "./lists.js";
import { drawTree } from "./levels.js";
import { drawOverview } from "./overview.js";
import { drawScore } from "./score.js";
import { treeAt } from "./tree.js";
import { lastOf, nextOf, runningAt } from "./lanes.js";
import { element } from "./words.js";
import { eventAt, processOf, shown } from "./shown.js";

function drawControls() {
  const { moment, replay } = shown;
  element("slide").value = moment;
  element("jump").value = moment;
  for (const id of ["first", "back"]) element(id).disabled = moment === 0;
  for (const id of ["step", "last"]) element(id).disabled = moment === replay.events.length;
}

export function draw() {
  const { replay, moment } = shown, event = eventAt(moment);
  shown.tree = treeAt(replay, moment);
  shown.running = runningAt(replay, moment);
  drawTree(event);
  drawEvent(event);
  drawBrief(event);
  drawProcesses(event);
  drawHistory();
  drawScript(event);
  showInList();
  drawOverview();
  drawScore();
  drawControls();
  element("tree").querySelector(".card.now")?.scrollIntoView({ block: "nearest", inline: "nearest" });
}

// The address keeps the moment, a little later, since a browser takes it ill to be told often.
let later = null;
function keepAddress() {
  clearTimeout(later);
  later = setTimeout(() => {
    if (location.hash !== "#check") history.replaceState(null, "", `#${shown.moment}`);
  }, 200);
}

export function go(moment) {
  shown.moment = Math.max(0, Math.min(shown.replay.events.length, Math.round(moment) || 0));
  draw();
  keepAddress();
}

export function play(isOn) {
  const { events } = shown.replay;
  clearInterval(shown.timer);
  shown.timer = null;
  if (isOn) {
    if (shown.moment === events.length) shown.moment = 0;
    shown.timer = setInterval(() => (shown.moment < events.length ? go(shown.moment + 1) : play(false)), 1000 / Number(element("speed").value));
  } else draw();
  element("play").textContent = isOn ? "Stop" : "Play";
}

// One event on, or back.
export function step(by) {
  if (shown.timer) play(false);
  go(shown.moment + by);
}

// To the next event of a process, or the one before.
export function toTurn(number, by) {
  const index = (by > 0 ? nextOf : lastOf)(processOf(number), shown.moment);
  if (index !== undefined) go(index + 1);
}

// To the next event of that kind, or the one before.
function toEvent(is, by) {
  const { events } = shown.replay;
  for (let moment = shown.moment + by; moment > 0 && moment <= events.length; moment += by) {
    if (is(events[moment - 1])) return go(moment);
  }
}
export const toPoint = by => toEvent(event => event.point !== undefined, by);
export const toPut = by => toEvent(event => event.act === "put", by);

// To the end of the next line of the script that has turns, or of the one before.
export function toLine(by) {
  const { events } = shown.replay, line = moment => eventAt(moment)?.line;
  let moment = by > 0 ? shown.moment + 1 : shown.moment - 1;
  if (by > 0) while (moment < events.length && line(moment + 1) === line(moment)) moment++;
  else while (moment > 0 && line(moment) === line(shown.moment)) moment--;
  go(moment);
}

// To what a line of the script has led to.
export const toLineOf = line => go(shown.replay.events.findLast(event => event.line !== null && event.line <= line)?.moment ?? 0);

// To where two processes first run at once.
export const toOverlap = () => { if (shown.replay.overlap !== null) go(shown.replay.overlap + 1); };

export function choose(number) {
  shown.chosen = shown.chosen === number ? null : number;
  draw();
}
