// What a miss was. The events do not say it: the next event of its process tells which latch it tried, or that it opens what it holds since it
// was refused; where there is none, what it has read does.
import { ownerAt } from "./follow.js";
import { wayFrom } from "./pages.js";

const contents = (replay, x) => replay.contents.get(x).at(-1).page;

function hasReleased(replay) {
  return replay.owners.size < replay.size || [...replay.owners.values()].some(list => list.at(-1).is === "released");
}

// The page that a compression which holds so many pages comes to next: its parent's child for the key, and then the right one of the two.
function compressedNext(replay, { held, key }) {
  const { pairs } = contents(replay, held[0]);
  const behind = pairs.filter(pair => pair[0] <= key).length;
  const right = behind < pairs.length ? behind : behind - 1;
  return Number(pairs[held.length === 1 ? right - 1 : right][1]);
}

// The page whose latch a process tries next, by what it has read; null where it tries none.
function nextLatch(replay, { kind }, state) {
  const page = state.got && state.got.page;
  if (kind === "compress" && state.held.length) return compressedNext(replay, state);
  if (kind === "lower") return state.held.length && page.kind === "anchor" ? page.firsts.at(-1) : 0;
  if (state.held.length || !page) return null;
  const way = wayFrom(page, state.key, state.level);
  if (way.to === "none" || way.to === "again") return 0;
  return way.to === "here" ? state.got.x : way.page;
}

export function missOf(replay, event, state, process) {
  const words = event.line === null ? [] : replay.scriptLines[event.line].split(" ");
  const latch = page => ({ why: "latch", page, holder: ownerAt(replay, page, event.moment).process });
  const later = process.own.map(i => replay.events[i]).find(other => other.index > event.index && other.act !== "miss");
  const isOver = process.past.at(-1)?.ended;
  if (isOver) return { why: "over" };
  if (process.kind === "reclaim") return { why: "release", page: Number(process.numbers[0]) };
  if (words[0] === "refuse") return { why: state.held.length && (!later || later.act === "open") ? "refused" : "unfit" };
  if (later && (later.act === "get" || later.act === "latch")) return latch(later.page);
  if (later && later.act === "take") return { why: "take", page: Number(words[2]) };
  if (later && later.act === "open" && !hasReleased(replay)) return { why: "refused" };
  const page = nextLatch(replay, process, state);
  if (page !== null) return latch(page);
  return words[0] === "turn" && words.length > 2 && hasReleased(replay) ? { why: "take", page: Number(words[2]) } : { why: "refused" };
}
