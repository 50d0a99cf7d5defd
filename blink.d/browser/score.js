// The events around this moment as a score: a line for each lane, shaded where its process holds a page.
import { stateAt } from "./follow.js";
import { colourOf, inkOn } from "./lanes.js";
import { wordsOf } from "./tell.js";
import { element, escaped } from "./words.js";
import { eventAt, processOf, shown } from "./shown.js";

const CELL = 54, HIGH = 22, MARGIN = 46;

// A process that has not answered runs to the end.
const lastIn = ({ end, own }) => (end === null ? shown.replay.events.length - 1 : own.at(-1));

// Where among the events a process holds a page: pairs of the first of them and the one behind the last.
function holdings(process, first, after) {
  const spans = [];
  let from = null;
  for (let i = Math.max(first, process.own[0]); i <= after; i++) {
    const holds = i < after && stateAt(process, i + 1)?.held.length > 0;
    if (holds) from ??= i;
    else if (from !== null) {
      spans.push([from, i]);
      from = null;
    }
  }
  return spans;
}

function laneOf(process, top, first, after) {
  const colour = colourOf(process), from = Math.max(process.own[0], first) - first, to = Math.min(lastIn(process), after - 1) - first;
  const held = holdings(process, first, after).map(([begin, end]) =>
    `<rect x="${(begin - first) * CELL + 2}" y="${top + 3}" width="${(end - begin) * CELL - 2}" height="${HIGH - 6}" fill="${colour}" opacity=".28"><title>process ${process.number} holds a page</title></rect>`);
  return `<rect x="${from * CELL + 2}" y="${top + HIGH / 2 - 1}" width="${(to - from + 1) * CELL - 4}" height="2" fill="${colour}"/>${held.join("")}`;
}

function cell(event, top, first) {
  const process = processOf(event.process), { act, moment, point } = event, left = (event.index - first) * CELL;
  const isLoud = act === "put" || act === "take", isLater = moment > shown.moment, isNow = moment === shown.moment;
  const words = act === "begin" ? `${process.number} begin` : wordsOf(event), label = `${point === undefined ? "" : "◆"}${words}`;
  const box = `x="${left + 1}" y="${top + 2}" width="${CELL - 2}" height="${HIGH - 4}" rx="4"`, dash = act === "miss" ? ' stroke-dasharray="3 2"' : "";
  const style = [isLoud && !isLater ? `fill:${inkOn(process)}` : "", label.length > 7 ? "font-size:9px" : ""].filter(Boolean).join(";");
  return `<g class="cell" data-moment="${moment}"><title>event ${moment}: process ${process.number} (${escaped(process.name)}) ${words}</title>
    <rect ${box} fill="var(--panel)"/><rect ${box} opacity="${isLater ? 0.5 : 1}" fill="${isLoud ? colourOf(process) : "none"}" pointer-events="all"
    stroke="${isNow ? "var(--now)" : colourOf(process)}" stroke-width="${isNow ? 2.5 : 1.2}"${dash}/>
    <text x="${left + CELL / 2}" y="${top + 15}" text-anchor="middle" opacity="${isLater ? 0.65 : 1}" style="${style}">${label}</text></g>`;
}

// The process whose lane that is at this moment, or the one that comes next there.
function name(lane, top, inSight) {
  const own = inSight.filter(process => process.lane === lane), isNow = process => process.own[0] < shown.moment && lastIn(process) >= shown.moment - 1;
  const process = own.find(isNow) || own[0];
  return `<g data-process="${process.number}" class="lane"><title>process ${process.number}: ${escaped(process.name)}</title>
    <rect x="2" y="${top + 2}" width="${MARGIN - 8}" height="${HIGH - 4}" rx="9" fill="${colourOf(process)}"/>
    <text x="${MARGIN / 2 - 2}" y="${top + 15}" text-anchor="middle" style="fill:${inkOn(process)};font-weight:700">${process.number}</text></g>`;
}

export function drawScore() {
  const box = element("score"), { events, processes } = shown.replay, columns = Math.max(3, Math.floor((box.clientWidth - MARGIN) / CELL));
  const first = Math.max(0, Math.min(events.length - columns, shown.moment - 1 - Math.floor(columns * 0.45))), after = Math.min(events.length, first + columns);
  const inSight = processes.filter(process => process?.own.length && process.own[0] < after && lastIn(process) >= first).sort((one, other) => one.own[0] - other.own[0]);
  const lanes = [...new Set(inSight.map(({ lane }) => lane))].sort((one, other) => one - other), tops = new Map(lanes.map((lane, i) => [lane, i * HIGH]));
  const high = lanes.length * HIGH, x = (shown.moment - first) * CELL, top = event => tops.get(processOf(event.process).lane);
  box.innerHTML = `<svg width="${MARGIN + columns * CELL}" height="${high}">${lanes.map(lane => name(lane, tops.get(lane), inSight)).join("")}
    <g transform="translate(${MARGIN} 0)">${inSight.map(process => laneOf(process, tops.get(process.lane), first, after)).join("")}
    ${events.slice(first, after).map(event => cell(event, top(event), first)).join("")}
    <line x1="${x}" x2="${x}" y1="0" y2="${high}" stroke="var(--now)" stroke-width="1.5"/></g></svg>`;
  const event = eventAt(shown.moment), at = event ? top(event) : 0;
  if (at < box.scrollTop || at + HIGH > box.scrollTop + box.clientHeight) box.scrollTop = at - 40;
}
