// Pages as cards, and processes as tokens on them.
import { ownerAt, stateAt } from "./follow.js";
import { colourOf, inkOn, isDoubled } from "./lanes.js";
import { isLive } from "./pages.js";
import { compare } from "./order.js";
import { describe, entriesOf } from "./tell.js";
import { escaped, short, span } from "./words.js";
import { processOf, shown } from "./shown.js";

const MARKS = {
  taken: "taken, not written", unlinked: "nothing leads to it yet", bypassed: "no link leads to it now", "off the anchor": "the anchor names it no more",
};

export function token(number, classes = "") {
  const process = processOf(number), doubled = isDoubled(process) ? "doubled" : "";
  const title = escaped(`process ${number}: ${process.name}`);
  return `<span class="token ${doubled} ${classes}" data-process="${number}" style="--own:${colourOf(process)};--on:${inkOn(process)}" title="${title}">${number}</span>`;
}

export function number(value) {
  const digits = short(value);
  return digits === String(value) ? digits : `<span title="${value}">${digits}</span>`;
}

// An entry of a page: of a leaf a row, of an inner page a child.
function entry(node, { pair: [key, word], is }, form) {
  const isInner = node.page.kind === "inner";
  const isTwin = !isInner && !is && (node.isOff || (node.counts !== undefined && key < node.counts));
  const more = isInner ? ` → <b>${word}</b>` : form === "keys" ? "" : `<i>${number(word)}</i>`;
  return `<span class="row ${is} ${isTwin ? "twin" : ""}"${isInner ? ` data-to="${word}"` : ""}>${number(key)}${more}</span>`;
}

// The entries of a page, with those that a put has brought or taken away.
function entriesBeside(page, old) {
  if (!old) return page.pairs.map(pair => ({ pair, is: "" }));
  const before = isLive(old) ? old.pairs : [], was = new Map(before), is = new Map(page.pairs);
  const rows = page.pairs.map(pair => ({ pair, is: was.get(pair[0]) === pair[1] ? "" : "new" }));
  rows.push(...before.filter(pair => !is.has(pair[0])).map(pair => ({ pair, is: "gone" })));
  return rows.sort((one, other) => compare(one.pair[0], other.pair[0]));
}

function body(node, old, form) {
  const { page } = node;
  if (!page || page.kind === "dead") return "";
  if (page.kind === "anchor") {
    const firsts = page.firsts.map((x, level) => `<span class="row" data-to="${x}">level ${level} → <b>${x}</b></span>`);
    return `<div class="rows">${firsts.reverse().join("")}</div>`;
  }
  if (form === "bars") return `<div class="fill" title="${entriesOf(page)}" style="--count:${page.pairs.length}"></div>`;
  const rows = entriesBeside(page, old), isList = page.kind === "inner" || form === "keys";
  const lines = rows.length > 14 ? 8 : Math.min(7, rows.length || 1);
  const style = isList ? "" : ` style="grid-template-rows:repeat(${lines},auto)"`;
  return `<div class="rows ${isList ? "keys" : ""}"${style}>${rows.map(row => entry(node, row, form)).join("")}</div>`;
}

function head({ x, page }) {
  const covers = !page ? "" : page.kind === "anchor" ? "anchor" : page.kind === "dead" ? `dead${page.right ? ` → ${page.right}` : ""}` : span(page.low, page.high);
  return `<div class="head"><b>${x}</b><span class="span">${covers}</span></div>`;
}

function badges({ owner, marks }, holder) {
  const said = marks.map(mark => `<span class="mark">${MARKS[mark] || mark}${mark === "retired" ? ` at ${owner.moment}` : ""}</span>`);
  if (holder) said.unshift(`<span class="mark held" style="--own:${colourOf(holder)};--on:${inkOn(holder)}">held by ${holder.number}</span>`);
  return said.length ? `<div class="marks">${said.join("")}</div>` : "";
}

function tokens(here, x, event) {
  const classes = process => [stateAt(process, shown.moment).waits === x ? "waits" : "", event?.process === process.number ? "acts" : ""].join(" ");
  return `<div class="tokens">${here.map(process => token(process.number, classes(process))).join("")}</div>`;
}

// What a card says to who cannot see it.
function labelOf({ x, page, marks }, holder, here) {
  const says = process => `process ${process.number} ${stateAt(process, shown.moment).waits === x ? "waits for its latch" : "is here"}`;
  const words = [`page ${x}`, page ? describe(page) : "", holder ? `held by process ${holder.number}` : "", ...marks.map(mark => MARKS[mark] || mark), ...here.map(says)];
  return escaped(words.filter(Boolean).join("; "));
}

const holderOf = ({ owner }) => (owner.is === "held" && owner.process ? processOf(owner.process) : null);

// A page of the tree. What the event has written is marked.
export function card(node, event, form) {
  const { x, page, isOff } = node, holder = holderOf(node), isNow = event?.page === x;
  const here = shown.running.filter(process => stateAt(process, shown.moment).page === x);
  const classes = ["card", page ? page.kind : "taken", isOff ? "off" : "", holder ? "held" : "", isNow ? "now" : ""].join(" ");
  const style = holder ? ` style="--own:${colourOf(holder)}"` : "";
  const old = isNow && event.act === "put" ? event.old : null;
  return `<div class="${classes}" data-page="${x}" tabindex="0" role="group" aria-label="${labelOf(node, holder, here)}"${style}>
    ${head(node)}${tokens(here, x, event)}${body(node, old, form)}${badges(node, holder)}</div>`;
}

// A page beside the tree, as it stood once, and with what the event has changed where an older state is given.
export function cardAside(x, page, form, old = null) {
  const node = { x, page, marks: [], owner: ownerAt(shown.replay, x, shown.moment) };
  return `<div class="card ${page.kind}" role="group" aria-label="${labelOf(node, null, [])}">${head(node)}${body(node, old, form)}</div>`;
}
