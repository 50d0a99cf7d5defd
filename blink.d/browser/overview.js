// The whole run on one line: each event in the lane of its process, points above, and this moment.
import { styled } from "./colours.js";
import { colourOf } from "./lanes.js";
import { element } from "./words.js";
import { processOf, shown } from "./shown.js";

// The events stay as they are, so they are painted once for each size and colouring.
let painted = { key: "", canvas: null };

function sized(canvas, width, height) {
  const ratio = devicePixelRatio || 1;
  canvas.width = width * ratio;
  canvas.height = height * ratio;
  const pen = canvas.getContext("2d");
  pen.scale(ratio, ratio);
  return pen;
}

function paintEvents(pen, width, height) {
  const { events, points, lanes } = shown.replay;
  const step = width / Math.max(1, events.length), lane = Math.min(9, (height - 8) / Math.max(1, lanes));
  for (const { index, act, process } of events) {
    const tall = act === "put" ? lane : lane * 0.7, top = 7 + processOf(process).lane * lane + (lane - tall) / 2;
    pen.fillStyle = colourOf(processOf(process));
    pen.globalAlpha = act === "put" ? 1 : act === "miss" ? 0.9 : 0.55;
    pen.fillRect(index * step, top, Math.max(1, step - (step > 4 ? 1 : 0)), Math.max(1, tall));
  }
  pen.globalAlpha = 1;
  pen.fillStyle = styled("--soft");
  for (const { moment } of points) pen.fillRect((moment - 1) * step, 1, Math.max(1, Math.min(3, step)), 4);
}

export function drawOverview() {
  const canvas = element("overview"), width = canvas.clientWidth, height = canvas.clientHeight;
  const now = styled("--now"), key = [width, height, devicePixelRatio, now].join(" ");
  if (!width) return;
  if (painted.key !== key) {
    painted = { key, canvas: document.createElement("canvas") };
    paintEvents(sized(painted.canvas, width, height), width, height);
  }
  const pen = sized(canvas, width, height), x = (shown.moment * width) / Math.max(1, shown.replay.events.length);
  pen.drawImage(painted.canvas, 0, 0, width, height);
  pen.fillStyle = now;
  pen.globalAlpha = 0.12;
  pen.fillRect(0, 0, x, height);
  pen.globalAlpha = 1;
  pen.fillRect(Math.min(width - 2, Math.max(0, x - 1)), 0, 2, height);
}
