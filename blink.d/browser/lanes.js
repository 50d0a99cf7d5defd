// Lanes: processes that run at once have lanes of their own, and with them colours.

// Those of Okabe and Ito, which the colour-blind tell apart, each with the one that can be read on it.
const COLOURS = [["#E69F00", "#000"], ["#56B4E9", "#000"], ["#009E73", "#000"], ["#CC79A7", "#000"], ["#D55E00", "#000"], ["#0072B2", "#fff"], ["#F0E442", "#000"]];
export const colourOf = process => COLOURS[process.lane % COLOURS.length][0];
export const inkOn = process => COLOURS[process.lane % COLOURS.length][1];
// Where there are more lanes than colours the others have a double rim.
export const isDoubled = process => process.lane >= COLOURS.length;

export function layLanes(replay) {
  const ends = [];
  const begun = replay.processes.slice(1).filter(process => process.own.length);
  for (const process of begun.sort((one, other) => one.own[0] - other.own[0])) {
    const free = ends.findIndex(end => end < process.own[0]);
    process.lane = free < 0 ? ends.length : free;
    ends[process.lane] = process.end === null ? Infinity : process.own.at(-1);
  }
  for (const process of replay.processes.slice(1)) process.lane ??= 0;
  replay.lanes = ends.length;
  replay.overlap = firstOverlap(replay);
}

// The first event at which two processes have begun and not ended, or null.
function firstOverlap({ events }) {
  let running = 0;
  for (const { act, index } of events) {
    running += act === "begin" ? 1 : act === "end" ? -1 : 0;
    if (running > 1) return index;
  }
  return null;
}

// The processes that have begun and not ended.
export function runningAt(replay, moment) {
  return replay.processes.filter(process => process && process.own.length && process.own[0] < moment && (process.end === null || process.end >= moment));
}

// The next event of a process from this moment on, and the one before its event at this moment.
export const nextOf = ({ own }, moment) => own.find(index => index >= moment);
export const lastOf = ({ own }, moment) => own.findLast(index => index + 1 < moment);
