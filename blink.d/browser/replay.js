// Begins: reads the script and the events that stand in this page, and shows where two processes first run at once.
import { follow, ownerAt, stateAt } from "./follow.js";
import { layLanes } from "./lanes.js";
import { listen } from "./keys.js";
import { go } from "./moves.js";
import { parse } from "./parse.js";
import { agrees, findPoints, historyAt } from "./points.js";
import { treeAt } from "./tree.js";
import { element, many } from "./words.js";
import { shown } from "./shown.js";

function read(script, events) {
  const replay = parse(script, events);
  follow(replay);
  findPoints(replay);
  layLanes(replay);
  return replay;
}

// Whether the leaves hold the map of the history at a moment, and each process has answered what it gives.
function isRight(replay, moment) {
  const history = historyAt(replay, moment);
  return !history.wrong.length && agrees(treeAt(replay, moment), history);
}

// Whether a process that holds no page goes where the page that it has read sends it.
function goesOn({ processes, events }, { process: number, index, moment, way }) {
  const process = processes[number], next = process.own.find(i => i > index && events[i].act !== "miss");
  return !way?.page || next === undefined || process.kind === "lower" || stateAt(process, moment).held.length > 0 || events[next].page === way.page;
}

// Whether an event can be: who latches, takes, writes, opens or retires a page finds it open, released, or its own.
function canBe(replay, { act, page, process, index }) {
  const { is, process: holder } = ownerAt(replay, page, index), wanted = { latch: "open", take: "released", put: "held", open: "held", retire: "held" }[act];
  return !wanted || (is === wanted && (is !== "held" || holder === process));
}

// With #check behind its address the page looks at all moments, and says in its title whether each is right.
function check(replay) {
  const wrong = [];
  for (let moment = 0; moment <= replay.events.length; moment++) if (!isRight(replay, moment)) wrong.push(moment);
  wrong.push(...replay.events.filter(event => !goesOn(replay, event) || !canBe(replay, event)).map(({ moment }) => `event ${moment}`));
  if (!replay.isAligned) wrong.push("the script, which is that of other events");
  if (!replay.isTold) wrong.push("a put whose page is not told");
  document.title = wrong.length ? `wrong at ${wrong.slice(0, 9).join(", ")}` : `right at ${replay.events.length + 1} moments`;
}

function putTitles({ events, processes, size }) {
  const { name } = document.documentElement.dataset, told = `${many(events.length, "event")}, ${many(processes.length - 1, "process")}, ${many(size, "page")}`;
  document.title = `blink replay: ${name}`;
  element("title").textContent = `${name} · ${told}`;
  element("slide").max = element("jump").max = events.length;
  element("count").textContent = `of ${events.length}`;
}

const part = id => element(id).textContent.replace(/^\n/, "");
shown.replay = read(part("script"), part("events"));
putTitles(shown.replay);
element("overlap").disabled = shown.replay.overlap === null;
listen();
go(/^#\d+$/.test(location.hash) ? Number(location.hash.slice(1)) : (shown.replay.overlap ?? 0));
if (location.hash === "#check") check(shown.replay);
