// The history: at which event each operation takes effect, and the map that they give.
import { compare, firstWhere } from "./order.js";
import { isOperation, isWrite } from "./parse.js";

// A write takes effect at its first put of a page that was there before, any other operation at its last get.
function pointOf({ events }, process) {
  const put = isWrite(process) ? process.own.find(i => events[i].act === "put" && !events[i].isNew) : undefined;
  if (put !== undefined) return put;
  if (process.end === null) return null;
  return process.own.findLast(i => i < process.end && events[i].act === "get") ?? null;
}

export function findPoints(replay) {
  replay.points = [];
  for (const process of replay.processes.slice(1).filter(isOperation)) {
    const point = pointOf(replay, process);
    process.point = point;
    if (point === null) continue;
    replay.events[point].point = process.number;
    replay.points.push({ moment: point + 1, process: process.number });
  }
  replay.points.sort((one, other) => one.moment - other.moment);
}

// Carries a write, or a search, out on a map, and gives the reply that it must have.
function carryOut(map, { kind, numbers: [key, value, other] }) {
  const there = map.get(key);
  const set = (reply, to) => {
    map.set(key, to);
    return reply;
  };
  switch (kind) {
    case "insert": case "insertpost":
      return there === undefined ? set("inserted", value) : `present ${there}`;
    case "put": case "putpost":
      return set(there === undefined ? "inserted" : `replaced ${there}`, value);
    case "delete":
      map.delete(key);
      return there === undefined ? "absent" : `deleted ${there}`;
    case "change":
      if (there === undefined) return "absent";
      return there === value ? set("changed", other) : `differs ${there}`;
    default:
      return there === undefined ? "absent" : `found ${there}`;
  }
}

// The reply that a part must have, where it ended where it says.
function partOf(map, { kind, numbers: [from], answer }) {
  const isDown = kind === "partdown", end = / more (\d+)/.exec(answer);
  const isIn = key => {
    const distance = isDown ? from - key : key - from, most = end && (isDown ? from - BigInt(end[1]) : BigInt(end[1]) - from);
    return distance >= 0n && (most === null || distance < most);
  };
  const rows = [...map].filter(([key]) => isIn(key)).sort(([one], [other]) => (isDown ? compare(other, one) : compare(one, other)));
  return ["rows", ...rows.map(([key, value]) => `${key}=${value}`), end ? `more ${end[1]}` : "end"].join(" ");
}

// Carries one operation out. One that found no room did nothing, and a part without an answer says nothing.
function carryOn(history, process) {
  const { answer } = process, isPart = process.kind.startsWith("part");
  if (answer?.startsWith("noroom") || (isPart && answer === null)) return;
  const reply = isPart ? partOf(history.map, process) : carryOut(history.map, process);
  if (answer !== null && answer !== reply && !answer.startsWith(`${reply} `)) history.wrong.push({ process: process.number, reply });
}

// The operations up to a moment, the map that they give, and those that answered otherwise. It goes on from what an earlier moment gave.
export function historyAt(replay, moment) {
  const count = firstWhere(replay.points.length, i => replay.points[i].moment > moment);
  if (!replay.history || replay.history.count > count) replay.history = { count: 0, map: new Map(), wrong: [] };
  const { history, points, processes } = replay;
  for (; history.count < count; history.count++) carryOn(history, processes[points[history.count].process]);
  return { points: points.slice(0, count), map: history.map, wrong: history.wrong };
}

// Whether the rows of the leaves are the map of the history.
export const agrees = (tree, { map }) => tree.rows.length === map.size && tree.rows.every(([key, value]) => map.get(key) === value);
