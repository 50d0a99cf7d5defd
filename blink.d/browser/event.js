// What an event was, in words, with the page that it is about.
import { cardAside, token } from "./cards.js";
import { formOf } from "./levels.js";
import { tell, wordsOf } from "./tell.js";
import { element, escaped, many } from "./words.js";
import { processOf, shown } from "./shown.js";

const paragraph = (text, classes = "") => `<p class="${classes}">${escaped(text)}</p>`;

function opening() {
  const { size } = shown.replay;
  const released = `${many(size - 2, "page")} ${size === 3 ? "is" : "are"} released`;
  return paragraph("The opening index", "line") + paragraph(`Page 0, the anchor, names page 1 as the leftmost page of level 0; page 1 is an empty leaf; ${released}.`);
}

function answer({ answer: text }) {
  const hint = / (post|thin) (\d+) (\d+)$/.exec(text);
  const work = hint && (hint[1] === "post" ? `the page that begins with ${hint[3]} waits to be listed at level ${hint[2]}`
    : `the page below level ${hint[2]} that begins with ${hint[3]} is thin`);
  return `<p><b>It answers:</b> ${escaped(text)}</p>${work ? paragraph(`A hint: ${work}.`, "quiet") : ""}`;
}

// The page of a put before and after it; and a page that was read, where the tree does not show all of it.
function cards({ act, page, content, old, isNew, read }) {
  const isFull = formOf() === "full", aside = [];
  if (act === "put" && content) {
    if (old && !isNew) aside.push(`<small>before</small>${cardAside(page, old, "full")}`);
    if (!isNew || !isFull) aside.push(`<small>now</small>${cardAside(page, content, "full", old)}`);
  }
  if (act === "get" && read && read.kind !== "anchor" && !isFull) aside.push(cardAside(page, read, "full"));
  return `<div class="cards">${aside.map(html => `<div>${html}</div>`).join("")}</div>`;
}

export function drawEvent(event) {
  if (!event) {
    element("event").innerHTML = opening();
    return;
  }
  const { line, more, point } = tell(event), { events, scriptLines } = shown.replay;
  const from = event.line === null ? "" : ` · line ${event.line + 1}: ${scriptLines[event.line]}`;
  element("event").innerHTML = [
    paragraph(`Event ${event.moment} of ${events.length} · ${event.process} ${wordsOf(event)}${from}`, "quiet"),
    `<p class="line">${token(event.process)} ${escaped(line)}</p>`,
    paragraph(`process ${event.process}: ${processOf(event.process).name}`, "quiet"),
    ...more.map(sentence => paragraph(sentence)),
    point ? paragraph(`◆ ${point}`, "point") : "",
    event.answer === undefined ? "" : answer(event),
    cards(event),
  ].join("");
}

// The same in one line, for narrow windows and for who listens.
export function drawBrief(event) {
  const { line, more, point } = event ? tell(event) : { line: "", more: [], point: "" };
  const said = event ? `${event.moment}: process ${event.process} ${line}. ${[...more, point].join(" ")}` : "The opening index.";
  element("slide").setAttribute("aria-valuetext", said);
  element("brief").setAttribute("aria-live", shown.timer ? "off" : "polite");
  element("brief").innerHTML = !event ? said
    : `${token(event.process)} ${escaped(line)}. <span class="quiet">${escaped(more.join(" "))}</span>${point ? ` <b>◆ ${escaped(point)}</b>` : ""}`;
}
