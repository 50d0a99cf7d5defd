// Keys, buttons and clicks.
import { changeColours, listenToColours } from "./colours.js";
import { drawList, showInList } from "./lists.js";
import { listenToTree } from "./edges.js";
import { choose, draw, go, play, step, toLine, toLineOf, toOverlap, toPoint, toPut, toTurn } from "./moves.js";
import { element, toField } from "./words.js";
import { eventAt, shown } from "./shown.js";

// By N and B the process that was chosen, or whose turn it was.
const toOwn = by => {
  const number = shown.chosen ?? eventAt(shown.moment)?.process;
  if (number) toTurn(number, by);
};

const KEYS = {
  ArrowRight: () => go(shown.moment + 1), ArrowLeft: () => go(shown.moment - 1), PageDown: () => go(shown.moment + 10), PageUp: () => go(shown.moment - 10),
  Home: () => go(0), End: () => go(shown.replay.events.length), " ": () => play(!shown.timer), n: () => toOwn(1), b: () => toOwn(-1),
  "]": () => toLine(1), "[": () => toLine(-1), p: () => toPoint(1), P: () => toPoint(-1), w: () => toPut(1), W: () => toPut(-1),
  i: toOverlap, g: () => toField("jump"), t: changeColours, "?": () => element("keys").showModal(), Escape: () => choose(null),
};

function onKey(event) {
  const { key, target } = event, act = KEYS[key];
  if (event.ctrlKey || event.metaKey || event.altKey || element("keys").open || !act) return;
  if (target.matches("input[type=number], select")) {
    if (key === "Escape") target.blur();
    return;
  }
  if (key === " " && target.matches("button, summary")) return;
  if (shown.timer && key !== " ") play(false);
  event.preventDefault();
  act();
}

function onClick({ target }) {
  const on = target.closest("[data-moment], [data-next], [data-before], [data-line], [data-process]");
  if (!on) return;
  const { moment, next, before, line, process } = on.dataset;
  if (moment) go(Number(moment));
  else if (next) toTurn(Number(next), 1);
  else if (before) toTurn(Number(before), -1);
  else if (line) toLineOf(Number(line));
  else if (!on.closest("#event")) choose(Number(process));
}

const BUTTONS = {
  first: () => go(0), back: () => step(-1), play: () => play(!shown.timer), step: () => step(1), last: () => go(shown.replay.events.length),
  overlap: toOverlap, "point-before": () => toPoint(-1), "point-next": () => toPoint(1), help: KEYS["?"],
};

export function listen() {
  for (const [id, act] of Object.entries(BUTTONS)) element(id).addEventListener("click", act);
  element("jump").addEventListener("change", () => go(Number(element("jump").value)));
  element("slide").addEventListener("input", () => go(Number(element("slide").value)));
  element("speed").addEventListener("change", () => { if (shown.timer) play(true); });
  element("detail").addEventListener("change", draw);
  element("list").addEventListener("scroll", drawList);
  element("list-box").addEventListener("toggle", showInList);
  document.addEventListener("keydown", onKey);
  document.addEventListener("click", onClick);
  addEventListener("resize", draw);
  addEventListener("hashchange", () => { if (/^#\d+$/.test(location.hash)) go(Number(location.hash.slice(1))); });
  listenToColours(draw);
  listenToTree();
}
