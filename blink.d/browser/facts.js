// What there is of an image in all: its counts, the checker's verdict, and how full the pages of each level are.
import { countsOf, MOST } from "./image.js";
import { element, escaped, grouped, many } from "./words.js";
import { seen } from "./seen.js";

// The first pages of a list, to be chosen.
function some(pages) {
  const buttons = pages.slice(0, 30).map(x => `<button data-page="${x}">${x}</button>`).join(" ");
  return `${buttons}${pages.length > 30 ? ` and ${many(pages.length - 30, "other")}` : ""}`;
}

function putFacts({ rows, leaves, inners, levels, thin, unposted }, used) {
  const { image } = seen, facts = [
    ["pages", `${grouped(image.all)}, ${grouped(used)} in use`], ["rows", grouped(rows)], ["leaves", grouped(leaves)], ["inner pages", grouped(inners)],
    ["levels", levels], ["thin", grouped(thin)], ["unposted", grouped(unposted)], ["rows a leaf", leaves ? (rows / leaves).toFixed(2) : 0],
  ];
  for (const [name, pages] of [["on no chain", image.loose], ["dead", image.dead], ["not readable", image.unread]]) {
    if (pages.length) facts.push([name, some(pages)]);
  }
  element("facts").innerHTML = facts.map(([name, value]) => `<span class="quiet">${name}</span><b>${value}</b>`).join("");
}

// How many pages of a level have so many entries, as bars.
function bars(pages, level) {
  const counts = new Array(MOST + 1).fill(0), thins = counts.slice(), { image } = seen;
  for (const x of pages) {
    counts[image.size[x]]++;
    thins[image.size[x]] += image.thin[x];
  }
  const most = Math.max(1, ...counts), label = counts.map((count, size) => (count ? `${count} with ${size}` : "")).filter(Boolean).join(", ");
  const bar = (count, size) => {
    const high = count ? Math.max(1.5, (count / most) * 40) : 0;
    return `<rect class="${thins[size] ? "thin" : ""}" x="${size * 20 + 2}" y="${42 - high}" width="16" height="${high}"><title>${many(count, "page")} with ${size}</title></rect>
      <text x="${size * 20 + 10}" y="52" text-anchor="middle">${size}</text>`;
  };
  return `<div class="bars"><small>level ${level}: ${many(pages.length, "page")}</small>
    <svg viewBox="0 0 300 54" role="img" aria-label="${label}">${counts.map(bar).join("")}</svg></div>`;
}

function putVerdict(verdict) {
  const fault = /^fault (C\d) page (\d+)/.exec(verdict);
  if (fault) seen.fault = { rule: fault[1], page: Number(fault[2]) };
  element("verdict").textContent = fault ? `✗ breaks rule ${fault[1]} at page ${fault[2]}` : "✓ sound";
  element("verdict").classList.toggle("bad", !!fault);
}

export function putAll(verdict) {
  const { image } = seen, counts = countsOf(image), used = image.used.reduce((all, one) => all + one, 0), { name } = document.documentElement.dataset;
  putVerdict(verdict);
  putFacts(counts, used);
  element("bars").innerHTML = image.levels.map(bars).reverse().join("");
  document.title = `blink draw: ${name}`;
  element("title").innerHTML = escaped(`${name} · ${many(counts.rows, "row")}, ${many(used, "page")} in use, ${many(counts.levels, "level")}`);
}
