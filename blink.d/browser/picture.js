// The picture: each level is a row of pages over their children. How high a page's colour goes is how full it is.
import { styled } from "./colours.js";
import { firstWhere } from "./order.js";
import { highOf, isLeaf, keyAt, lowOf, MOST, wordAt } from "./image.js";
import { element, many, short, span } from "./words.js";
import { seen } from "./seen.js";

const LABEL = 15, GAP = 6, RIM = 8;
// How wide a page must be to have its number told, where that fits, and what it covers.
const NUMBERED = 32, COVERED = 92;

export const canvas = element("canvas");
// How wide a leaf is.
export const scale = () => (canvas.clientWidth / Math.max(1, seen.image.leaves)) * seen.zoom;

// Where the row of each level is, from the top.
function rows() {
  const height = canvas.clientHeight, { length } = seen.image.levels;
  const inner = Math.max(16, Math.min(54, (height * 0.45) / Math.max(1, length - 1) - GAP - LABEL));
  return Array.from({ length }, (_, i) => {
    const top = RIM + LABEL + i * (inner + GAP + LABEL);
    return { level: length - 1 - i, top, high: i < length - 1 ? inner : Math.max(40, height - top - RIM) };
  });
}

// The pages of a level that are in sight, with their places in it: from which leaf on and how wide.
function* inSight(level) {
  const pages = seen.image.levels[level], begins = seen.image.begins[level], by = scale();
  for (let i = firstWhere(pages.length, at => begins[at + 1] > seen.from); i < pages.length; i++) {
    const left = (begins[i] - seen.from) * by;
    if (left > canvas.clientWidth) return;
    yield { x: pages[i], left, wide: (begins[i + 1] - begins[i]) * by };
  }
}

// The page at a point of the picture, or null.
export function pageAt(left, top) {
  const row = rows().find(row => top >= row.top && top <= row.top + row.high), at = seen.from + left / scale();
  if (!row || at < 0 || at >= seen.image.leaves) return null;
  const begins = seen.image.begins[row.level], pages = seen.image.levels[row.level];
  return pages[firstWhere(pages.length, i => begins[i + 1] > at)] ?? null;
}

// Pages that are narrower than a line of the screen, as one line: how full they are, and whether one is thin.
function drawSum(pen, { column, count, sum, thin }, { top, high }, [ground, full]) {
  const part = (sum / count / MOST) * high;
  pen.fillStyle = ground;
  pen.fillRect(column, top, 1, high);
  pen.fillStyle = full;
  pen.fillRect(column, top + high - part, 1, part);
  pen.fillStyle = styledThin;
  if (thin) pen.fillRect(column, top + high - 5, 1, 5);
}

function drawBox(pen, { x, left, wide }, { top, high }, [ground, full]) {
  const { image } = seen, cell = Math.max(1, wide - (wide > 4 ? 1.5 : 0.5)), share = image.size[x] / MOST;
  pen.fillStyle = ground;
  pen.fillRect(left, top, cell, high);
  pen.fillStyle = image.thin[x] ? styledThin : full;
  pen.globalAlpha = wide < NUMBERED ? 1 : 0.28;
  pen.fillRect(left, top + high * (1 - share), cell, high * share);
  pen.globalAlpha = 1;
  if (wide >= NUMBERED) pen.fillRect(left, top + high - 3, cell * share, 3);
  if (wide > 6 && (image.unposted[x] || !image.chained[x])) {
    pen.strokeStyle = styled("--ink");
    pen.setLineDash([3, 3]);
    pen.strokeRect(left + 0.5, top + 0.5, cell - 1, high - 1);
    pen.setLineDash([]);
  }
  if (wide >= NUMBERED) drawWords(pen, x, Math.max(left, 0), { top, high }, Math.min(cell, left + cell) - 8);
}

// The entries of a page in columns below its number, as far as there is room: of a leaf keys with values, or keys, or nothing.
function drawEntries(pen, x, left, { top, high }, wide) {
  const { image } = seen, isRows = isLeaf(image, x), places = [...Array(image.size[x]).keys()];
  const keys = places.map(i => short(keyAt(image, x, i))), both = places.map(i => `${keys[i]} ${isRows ? "" : "→"} ${short(wordAt(image, x, i))}`);
  const widest = words => Math.max(...words.map(word => pen.measureText(word).width));
  const words = widest(both) <= wide ? both : isRows && widest(keys) <= wide ? keys : [], step = widest(words) + 16;
  const columns = isRows ? 1 : Math.max(1, Math.floor((wide + 16) / step)), most = Math.floor((high - 18) / 14) * columns;
  words.slice(0, most).forEach((word, i) => {
    const isCut = i === most - 1 && words.length > most;
    pen.fillText(isCut ? "…" : word, left + 4 + (i % columns) * step, top + 27 + 14 * Math.floor(i / columns));
  });
}

function drawWords(pen, x, left, row, wide) {
  const { image } = seen, { top } = row;
  pen.save();
  pen.beginPath();
  pen.rect(left, top, wide + 8, row.high);
  pen.clip();
  pen.fillStyle = styled("--ink");
  pen.font = "700 12px system-ui, sans-serif";
  const { width } = pen.measureText(x), after = left + 10 + width;
  if (width <= wide) pen.fillText(x, left + 4, top + 13);
  pen.font = "11px system-ui, sans-serif";
  drawEntries(pen, x, left, row, wide);
  pen.fillStyle = styled("--soft");
  if (wide > COVERED) pen.fillText(span(lowOf(image, x), highOf(image, x)), after, top + 13);
  pen.restore();
}

// The pages of a level; those that are too narrow are summed up.
function drawLevel(pen, row) {
  const { image } = seen, colours = row.level ? [styled("--inner"), styled("--inner-line")] : [styled("--leaf"), styled("--leaf-line")];
  let sum = null;
  const flush = () => {
    if (sum) drawSum(pen, sum, row, colours);
    sum = null;
  };
  for (const page of inSight(row.level)) {
    const column = Math.floor(page.left);
    if (sum && (sum.column !== column || page.wide >= 1.5)) flush();
    if (page.wide >= 1.5) drawBox(pen, page, row, colours);
    else {
      sum ||= { column, count: 0, sum: 0, thin: false };
      sum.count++;
      sum.sum += image.size[page.x];
      sum.thin ||= image.thin[page.x] === 1;
    }
  }
  flush();
}

// Rims of the way of the search, of the page that is chosen, and of the one that breaks a rule.
function drawRims(pen, row) {
  const { chosen, way, fault } = seen, wanted = new Set([chosen, fault?.page, ...way]);
  for (const { x, left, wide } of inSight(row.level)) {
    if (!wanted.has(x)) continue;
    pen.lineWidth = x === chosen ? 3 : 2;
    pen.strokeStyle = styled(x === fault?.page ? "--warn" : x === chosen ? "--ink" : "--accent");
    pen.strokeRect(left - 1, row.top - 1, Math.max(4, wide), row.high + 2);
  }
}

let styledThin = "";
export function draw() {
  const ratio = devicePixelRatio || 1, pen = canvas.getContext("2d");
  canvas.width = canvas.clientWidth * ratio;
  canvas.height = canvas.clientHeight * ratio;
  pen.scale(ratio, ratio);
  styledThin = styled("--thin");
  for (const row of rows()) {
    pen.font = "600 11px system-ui, sans-serif";
    pen.fillStyle = styled("--soft");
    pen.fillText(`level ${row.level}: ${many(seen.image.levels[row.level].length, "page")}`, 6, row.top - 4);
    drawLevel(pen, row);
    drawRims(pen, row);
  }
}
