// A page of an image in words.
import { childAt, highOf, isLeaf, isLive, isPlaced, keyAt, kindOf, lowOf, wordAt } from "./image.js";
import { element, escaped, many, span } from "./words.js";
import { seen } from "./seen.js";

function marksOf(image, x) {
  const marks = [];
  if (image.thin[x]) marks.push("thin");
  if (image.unposted[x]) marks.push("unposted: no parent lists it");
  if (isLive(image, x) && !image.chained[x]) marks.push("on no chain");
  if (seen.fault?.page === x) marks.push(`breaks rule ${seen.fault.rule}`);
  return marks.length ? `; ${marks.join("; ")}` : "";
}

export function describe(x) {
  const { image } = seen, kind = kindOf(image, x);
  if (x >= image.count) return `There is no page ${x}.`;
  if (!image.used[x]) return `Page ${x} is not in use.`;
  if (!kind) return `Page ${x} cannot be read: its words are no page's.`;
  if (kind === "anchor") return `Page ${x}, the anchor: ${many(image.size[x], "level")}.`;
  if (kind === "dead") return `Page ${x} is dead${image.right[x] ? `, and names page ${image.right[x]}` : ""}.`;
  const named = kind === "leaf" ? "leaf" : `inner page of level ${image.level[x]}`, covers = span(lowOf(image, x), highOf(image, x), String);
  const entries = many(image.size[x], kind === "leaf" ? "row" : "child"), link = image.right[x] ? `linked to page ${image.right[x]}` : "without link";
  return `Page ${x}: ${named} ${covers}, ${entries}, ${link}${marksOf(image, x)}.`;
}

const button = x => `<button data-page="${x}" aria-label="Show page ${x}">${x}</button>`;

function table(heads, rows) {
  const head = heads.map(word => `<th>${word}</th>`).join("");
  return `<table><tr>${head}</tr>${rows.map(([key, word, classes = ""]) => `<tr class="${classes}"><td>${key}</td><td>${word}</td></tr>`).join("")}</table>`;
}

function neighbours(image, x) {
  const left = image.levels[image.level[x]][image.place[x] - 1], words = [];
  if (image.parent[x] >= 0) words.push(`listed by ${button(image.parent[x])}`);
  if (left !== undefined) words.push(`left ${button(left)}`);
  if (image.right[x]) words.push(`right ${button(image.right[x])}`);
  return `<p>${words.join(" ")}</p>`;
}

function entries(image, x) {
  const isRows = isLeaf(image, x);
  const rows = Array.from({ length: image.size[x] }, (_, i) => {
    const key = keyAt(image, x, i);
    return isRows ? [key, wordAt(image, x, i), key === seen.key ? "hit" : ""] : [key, button(childAt(image, x, i))];
  });
  return table(isRows ? ["key", "value"] : ["least key", "child"], rows);
}

function more(image, x) {
  if (isPlaced(image, x)) return neighbours(image, x) + entries(image, x);
  if (x === 0) return table(["level", "leftmost page"], image.firsts.map((first, level) => [level, button(first)]).reverse());
  return kindOf(image, x) === "dead" && image.right[x] ? `<p>${button(image.right[x])}</p>` : "";
}

export function drawPage() {
  const { image, chosen } = seen;
  element("about").innerHTML = `<h2>Page</h2><p><b>${escaped(describe(chosen))}</b></p>${more(image, chosen)}`;
  element("page").value = chosen;
}
