// Events in words: what each did, and what that means.
import { ownerAt, stateAt } from "./follow.js";
import { isOperation, isPosting, isWrite } from "./parse.js";
import { isLive } from "./pages.js";
import { runningAt } from "./lanes.js";
import { cut, many, short, span } from "./words.js";
import { processOf, shown } from "./shown.js";

export const entriesOf = page => many(page.pairs.length, page.kind === "leaf" ? "row" : "child");

export function describe(page) {
  if (!page) return "not written yet";
  if (page.kind === "anchor") return `the anchor, of ${many(page.firsts.length, "level")}, which begin at pages ${page.firsts.join(", ")}`;
  if (page.kind === "dead") return page.right ? `dead: its rows are in page ${page.right}` : "dead: it was the top of the tree";
  const kind = page.kind === "leaf" ? "a leaf" : "an inner page", link = page.right ? `, linked to page ${page.right}` : "";
  return `${kind} ${span(page.low, page.high)} with ${entriesOf(page)}${link}`;
}

// Where a process goes from the page that it has read.
const WAYS = {
  none: () => "The tree has no such level yet.",
  first: ({ way }) => `Its level is the top one: it goes to page ${way.page}.`,
  down: ({ way, read }, key) =>
    read.kind === "anchor" ? `It goes to the top of the tree, page ${way.page}.` : `It goes down to page ${way.page}, the child for ${short(key)}.`,
  right: ({ way, read }, key) => (read.kind === "dead" ? `It goes to page ${way.page}.` : alongLink(read, key)),
  again: () => "It begins again at the anchor.",
  here: ({ page, process }, key, before) => {
    if (before.held.includes(page)) return `It covers ${short(key)}, and the process holds it.`;
    const reads = isOperation(processOf(process)) && !isWrite(processOf(process));
    return reads ? `It covers ${short(key)}.` : `It covers ${short(key)}; next comes its latch.`;
  },
};
const alongLink = (page, key) => `${short(key)} is not below the bound ${short(page.high)}: it goes on along the link to page ${page.right}.`;

// The same of a page below the level to which it goes: a child of the page that it holds there.
function tellChild(page, key, kind) {
  if (kind === "compress") return `It is a child that may be compressed: ${entriesOf(page)}.`;
  if (page.low === key) return `It begins with ${short(key)}: this is the page to list.`;
  return page.high !== 0n && key >= page.high ? alongLink(page, key) : `No page begins with ${short(key)} any more.`;
}

function tellWay(event) {
  const { read: page, way } = event, { kind } = processOf(event.process), before = stateAt(processOf(event.process), event.moment - 1);
  if (kind === "lower" && page.kind === "anchor") return "It looks for the top level.";
  if (kind === "lower") return page.pairs.length === 1 ? "It has one child, so its level is not needed." : "Its level is needed.";
  if (!way || !before) return "";
  if (page.kind === "anchor" && before.held.includes(event.page)) return "It looks again how many levels there are, now that it holds the anchor.";
  return isLive(page) && page.level < before.level ? tellChild(page, before.key, kind) : WAYS[way.to](event, before.key, before);
}

function tellPut({ content: page, old, isNew }) {
  if (!page) return "What it has written is not told: these events were printed without --pages.";
  if (page.kind === "dead") return page.right ? `It is dead now, and names page ${page.right}, which has its entries.` : "It is dead now: whoever reads it begins again at the anchor.";
  if (page.kind !== "anchor") return isNew ? `It is new: ${describe(page)}. Nothing leads to it yet.` : `It is ${describe(page)} now.`;
  const levels = page.firsts.length;
  if (levels > old.firsts.length) return `The tree grows: level ${levels - 1} begins at page ${page.firsts[levels - 1]}.`;
  return `The tree has ${many(levels, "level")} now; page ${old.firsts.at(-1)} is its top no longer.`;
}

function tellRetire({ moment, index }) {
  const earlier = runningAt(shown.replay, moment).filter(process => stateAt(process, moment).begun && process.own[0] < index);
  const names = earlier.length ? `: ${earlier.map(({ number }) => number).join(", ")}` : "";
  return `It may be released once each process that began before has ended${names}.`;
}

function tellSee({ page, moment, process }) {
  const { is } = ownerAt(shown.replay, page, moment);
  if (processOf(process).kind === "reclaim") return [`looks whether page ${page} is retired`, is === "retired" ? "It is." : "It is not."];
  return [`looks whether page ${page} is open`, is === "open" ? "It is, so its way begins there." : "It is not, so its way begins at the anchor."];
}

function tellLook({ other, moment, process }) {
  const state = stateAt(processOf(other), moment);
  if (!state?.begun) return "That one has not begun.";
  if (state.ended) return "That one has ended.";
  const retired = ownerAt(shown.replay, Number(processOf(process).numbers[0]), moment);
  const isEarlier = processOf(other).own[0] + 1 < retired.moment;
  return isEarlier ? "That one began before the page was retired, and runs still: the page is kept." : "That one began later, and cannot meet the page.";
}

const MISSES = {
  latch: ({ page, holder }) => [`misses the latch of page ${page}`, holder ? `Process ${holder} holds it.` : "It is not open."],
  over: () => ["has answered already", "So this turn does nothing."],
  unfit: () => ["is not about to reserve anything", "So this refusal does nothing."],
  take: ({ page }) => [`misses page ${page}`, "It is in use, so it cannot be taken."],
  release: ({ page }) => [`does not release page ${page}`, "It is not retired any more as the process saw it."],
  refused: () => ["is refused what it is about to reserve", "There is no room for what it was to do next."],
};

const TOLD = {
  begin: () => ["begins", "It announces itself: no page is released from now on that it might still meet."],
  end: () => ["ends"],
  get: event => [`reads page ${event.page}`, `It is ${describe(event.read)}.`, tellWay(event)],
  latch: ({ page }) => [`takes the latch of page ${page}`, "From now on no other process changes this page, until it opens it."],
  take: ({ page }) => [`takes page ${page}`, "The page was released, and nobody else looks at it."],
  put: event => [`writes page ${event.page}`, tellPut(event)],
  open: ({ page }) => [`opens page ${page}`, "Others may latch it again."],
  retire: event => [`retires page ${event.page}`, tellRetire(event)],
  release: ({ page }) => [`releases page ${page}`, "It may be taken again."],
  see: tellSee,
  look: event => [`looks at process ${event.other}`, tellLook(event)],
  miss: ({ miss }) => MISSES[miss.why](miss),
};

// What an event was, in a line; more that it means; and, where it is the point of an operation, that.
export function tell(event) {
  const [line, ...more] = TOLD[event.act](event), process = processOf(event.process);
  const says = process.answer === null ? "" : `: ${cut(replyOf(process))}`;
  return { line, more: more.filter(Boolean), point: event.point === undefined ? "" : `Here “${process.name}” takes effect${says}.` };
}

// An event as it was printed, without its process.
export const wordsOf = ({ act, page, other }) => [act, page ?? other].filter(word => word !== null).join(" ");

// The reply of an operation: its answer without the hint behind it, and without what became of its post.
export function replyOf(process) {
  if (process.answer === null) return "…";
  const said = process.answer.replace(/ (post|thin) \d+ \d+$/, "");
  return isPosting(process) ? said.replace(/^(inserted|replaced \d+) (done|already|stale|noroom|tootall)$/, "$1") : said;
}
