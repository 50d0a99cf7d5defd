// What stood where at each moment: in each page, who owned it, and what each process had seen.
import { firstWhere } from "./order.js";
import { isLive, wayFrom } from "./pages.js";
import { isPosting } from "./parse.js";
import { missOf } from "./misses.js";

// The last of what was noted, by rising moments, up to this one.
export function noted(list, moment) {
  const after = firstWhere(list.length, i => list[i].moment > moment);
  return after ? list[after - 1] : null;
}

export const pageAt = (replay, x, moment) => noted(replay.contents.get(x) || [], moment)?.page ?? null;
export const ownerAt = (replay, x, moment) => noted(replay.owners.get(x) || [], moment) || { is: "released", moment: 0 };
export const stateAt = (process, moment) => noted(process.past, moment);

const note = (map, x, entry) => {
  if (!map.has(x)) map.set(x, []);
  map.get(x).push(entry);
};

// The level to whose page a process goes, and the key that it looks for.
const goalOf = ({ kind, numbers }) => (kind === "post" || kind === "compress" ? Number(numbers[0]) : 0);
function keyOf({ kind, numbers }) {
  if (kind === "post" || kind === "compress") return numbers[1];
  return kind === "lower" || kind === "reclaim" ? 0n : numbers[0];
}

// What a process knows before its first turn: `page` is where it looked last, `got` what it has read last, and `path` what it came down by.
const unborn = process =>
  ({ page: null, got: null, held: [], waits: null, path: [], level: goalOf(process), key: keyOf(process), begun: false, ended: false });

function get(replay, event, state) {
  const page = pageAt(replay, event.page, event.moment);
  event.read = page;
  event.way = page && wayFrom(page, state.key, state.level);
  state.got = { x: event.page, moment: event.moment, page };
  // What it goes down from, without its latch, it remembers.
  if (event.way?.to === "down" && isLive(page) && !state.held.includes(event.page)) {
    state.path = state.path.filter(([level]) => level !== page.level).concat([[page.level, event.page]]);
  }
}

function own(replay, event, state) {
  const isTaken = event.act === "take";
  note(replay.owners, event.page, { moment: event.moment, is: "held", process: event.process, isTaken });
  if (isTaken) note(replay.contents, event.page, { moment: event.moment, page: null });
  state.held = state.held.concat([event.page]);
}

function put(replay, event, state) {
  event.old = pageAt(replay, event.page, event.moment);
  event.isNew = ownerAt(replay, event.page, event.moment).isTaken === true;
  note(replay.contents, event.page, { moment: event.moment, page: event.content || event.old });
  if (!event.content) replay.isTold = false;
  if (event.isNew && event.content && !state.held.includes(0)) state.split = { level: event.content.level, key: event.content.low };
}

function leave(replay, event, state, process) {
  const is = { open: "open", retire: "retired", release: "released" }[event.act];
  note(replay.owners, event.page, { moment: event.moment, is });
  if (event.act === "release") note(replay.contents, event.page, { moment: event.moment, page: null });
  state.held = state.held.filter(x => x !== event.page);
  // An insertion that posts goes on to the level above once it has opened what it has split.
  if (event.act === "open" && isPosting(process) && !state.held.length && state.split) {
    Object.assign(state, { level: state.split.level + 1, key: state.split.key, split: null });
  }
}

function miss(replay, event, state, process) {
  event.miss = missOf(replay, event, state, process);
  if (event.miss.why === "latch") state.waits = state.page = event.miss.page;
}

const ACTS = { get, latch: own, take: own, put, open: leave, retire: leave, release: leave, miss };

export function follow(replay) {
  replay.contents = new Map();
  replay.owners = new Map();
  replay.isTold = true;
  note(replay.contents, 0, { moment: 0, page: { kind: "anchor", level: 0, firsts: [1], pairs: [] } });
  note(replay.contents, 1, { moment: 0, page: { kind: "leaf", level: 0, low: 0n, high: 0n, right: 0, pairs: [] } });
  for (const x of [0, 1]) note(replay.owners, x, { moment: 0, is: "open" });
  const states = replay.processes.map(process => process && unborn(process));
  for (const event of replay.events) {
    const process = replay.processes[event.process], state = states[event.process];
    state.waits = null;
    if (event.page !== null) state.page = event.page;
    if (event.act === "begin") state.begun = true;
    ACTS[event.act]?.(replay, event, state, process);
    if (event.answer !== undefined) {
      state.ended = true;
      process.end = event.index;
      process.answer = event.answer;
    }
    process.past.push({ ...state, moment: event.moment });
  }
}
