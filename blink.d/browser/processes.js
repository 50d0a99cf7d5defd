// The processes: what each holds and waits for, what it has read, and what it does next.
import { noted, ownerAt, stateAt } from "./follow.js";
import { nextOf } from "./lanes.js";
import { isPosting } from "./parse.js";
import { isLive } from "./pages.js";
import { cardAside, token } from "./cards.js";
import { replyOf, wordsOf } from "./tell.js";
import { cut, element, escaped, short } from "./words.js";
import { shown } from "./shown.js";

// What the process has read last was written since by another: what it has in hand is not what stands there.
function changedSince({ got, held, ended }) {
  if (!got || ended || held.includes(got.x)) return null;
  const last = noted(shown.replay.contents.get(got.x), shown.moment);
  return last.moment > got.moment ? last.moment : null;
}

function waitsFor(x) {
  const owner = ownerAt(shown.replay, x, shown.moment);
  const why = owner.is === "held" ? `, which ${owner.process} holds` : owner.is === "open" ? ", which is open now" : "";
  return `<span class="warn">waits for the latch of page <b>${x}</b>${why}</span>`;
}

function nextWords(process) {
  const index = nextOf(process, shown.moment);
  if (index === undefined) return "has no further turn here";
  const event = shown.replay.events[index];
  const words = event.act !== "miss" ? wordsOf(event) : event.miss.why === "latch" ? `tries the latch of ${event.miss.page}` : "misses";
  return `next: <b>${words}</b> at event ${index + 1}`;
}

function saysOf(process, state) {
  if (!state) return "has no turn yet";
  const says = [], changed = changedSince(state);
  if (state.waits !== null) says.push(waitsFor(state.waits));
  if (state.held.length) says.push(`holds ${state.held.map(x => `<b>${x}</b>`).join(", ")}`);
  if (state.got) says.push(`read page <b>${state.got.x}</b>${changed ? ` <span class="warn">as it was before event ${changed}</span>` : ""}`);
  const path = state.path.map(([level, x]) => `<b>${x}</b> on level ${level}`).join(", ");
  if (path) says.push(`${isPosting(process) ? "remembers" : "came down by"} ${path}`);
  if (isPosting(process) && state.level > 0) says.push(`posts ${short(state.key)} at level ${state.level}`);
  if (process.point !== null && process.point < shown.moment) says.push("◆ has taken effect");
  return [...says, nextWords(process)].join("; ");
}

// The page as the process has read it, where that has changed since, or the process is chosen.
function inHand({ number }, state) {
  if (!isLive(state?.got?.page) || !(changedSince(state) || shown.chosen === number)) return "";
  const { x, moment, page } = state.got;
  return `<div class="hand"><small>page ${x}, as it read it at event ${moment}</small>${cardAside(x, page, "keys")}</div>`;
}

function block(process, event) {
  const { number, name } = process, state = stateAt(process, shown.moment);
  const button = (by, sign, words) => `<button data-${by}="${number}" aria-label="To ${words} of process ${number}" title="${words}">${sign}</button>`;
  return `<div class="process ${shown.chosen === number ? "chosen" : ""}">${token(number, event?.process === number ? "acts" : "")}<b>${escaped(name)}</b>
    <span class="says">${saysOf(process, state)}${inHand(process, state)}</span>
    <span class="go">${button("before", "◂", "the event before")}${button("next", "▸", "the next event")}</span></div>`;
}

const more = (list, most) => (list.length > most ? `<p class="quiet">and ${list.length - most} more</p>` : "");

function endedBox(ended) {
  if (!ended.length) return "";
  const [{ number, name }] = ended, isOpen = element("ended")?.open;
  const line = process => `${token(process.number)}<span>${escaped(process.name)}: <b>${escaped(cut(process.answer))}</b></span>`;
  return `<details id="ended" ${isOpen ? "open" : ""}><summary>${ended.length} ended; the last: ${number} ${escaped(name)}: ${escaped(cut(replyOf(ended[0])))}</summary>
    <div class="ended">${ended.slice(0, 60).map(line).join("")}</div>${more(ended, 60)}</details>`;
}

export function drawProcesses(event) {
  const { replay, moment, running } = shown, all = replay.processes.slice(1);
  const waiting = all.filter(({ start, own }) => start <= moment && (!own.length || own[0] >= moment));
  const ended = all.filter(({ end }) => end !== null && end < moment).sort((one, other) => other.end - one.end);
  const run = `${running.length} ${running.length === 1 ? "runs" : "run"}`;
  element("processes-head").textContent = `Processes: ${run}, ${waiting.length} to begin, ${ended.length} ended`;
  const blocks = (list, most) => list.slice(0, most).map(process => block(process, event)).join("") + more(list, most);
  const first = running.length ? blocks(running, 40) : '<p class="quiet">None runs at this moment.</p>';
  const isOpen = waiting.length <= 4 ? "open" : "";
  const later = !waiting.length ? "" : `<details ${isOpen}><summary>${waiting.length} to begin</summary>${blocks(waiting, 60)}</details>`;
  element("processes").innerHTML = first + later + endedBox(ended);
}
