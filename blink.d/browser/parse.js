// A script and the events that were printed for it.
import { pageOf } from "./pages.js";

const TURNS = new Set(["turn", "refuse", "run", "settle"]);
const POSTING = new Set(["insertpost", "putpost"]);
const WRITES = new Set(["insert", "put", "delete", "change", ...POSTING]);
const READS = new Set(["find", "findnear", "part", "partdown", "partnear"]);

export const isWrite = process => WRITES.has(process.kind);
export const isOperation = process => WRITES.has(process.kind) || READS.has(process.kind);
export const isPosting = process => POSTING.has(process.kind);

// A process that a line of the script starts. Its numbers stand behind its kind; `own` are the places of its events.
function processFrom(number, text, line) {
  const [kind, ...words] = text.split(" ");
  return { number, kind, numbers: words.map(BigInt), name: text, line, start: 0, own: [], past: [], end: null, answer: null, point: null };
}

// An event. Moment t is the time behind the first t events.
function eventOf(index, [process, act, at]) {
  const where = at === undefined ? null : Number(at);
  return { index, moment: index + 1, process: Number(process), act, page: act === "look" ? null : where, other: act === "look" ? where : null, line: null };
}

// The lines of events: one each, and behind it what it has put and what its process answered.
function readEvents(text, processes) {
  const events = [];
  for (const line of text.split("\n").filter(Boolean)) {
    const words = line.split(" ");
    if (words[1] === "answer") events.at(-1).answer = words.slice(2).join(" ");
    else if (words[1] === "page") events.at(-1).content = pageOf(words.slice(3));
    else {
      events.push(eventOf(events.length, words));
      processes[Number(words[0])].own.push(events.length - 1);
    }
  }
  return events;
}

// Finds which line of the script gave each turn: as many as it says, or until its processes have answered. Says whether all fit.
function align({ commands, events, processes }) {
  const answered = new Set();
  let next = 0, started = 0;
  const turn = (line, number) => {
    const event = events[next];
    if (!event || (number && event.process !== number)) return false;
    event.line = line;
    if (event.answer !== undefined) answered.add(event.process);
    next++;
    return true;
  };
  const turns = (line, number, most, isOver) => {
    for (let i = 0n; i < most && !isOver(); i++) if (!turn(line, number)) return false;
    return true;
  };
  for (const { words, line } of commands) {
    const [kind, first, second] = words, number = Number(first);
    let fits = true;
    if (kind === "run") fits = turns(line, number, BigInt(second), () => answered.has(number));
    else if (kind === "settle") fits = turns(line, 0, BigInt(first), () => answered.size === started);
    else if (TURNS.has(kind)) fits = turn(line, number);
    else processes[++started].start = next;
    if (!fits) return false;
  }
  return next === events.length;
}

export function parse(script, text) {
  const scriptLines = script.replace(/\n$/, "").split("\n");
  const commands = scriptLines.map((line, at) => ({ words: line.split(" "), line: at })).slice(1);
  const processes = [null];
  for (const { words, line } of commands) {
    if (!TURNS.has(words[0])) processes.push(processFrom(processes.length, scriptLines[line], line));
  }
  const replay = { size: Number(scriptLines[0].split(" ")[1]), scriptLines, commands, processes, events: readEvents(text, processes) };
  replay.isAligned = align(replay);
  return replay;
}
