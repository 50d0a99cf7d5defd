// The tree at a moment: its levels from the top, each with its pages from the left, and what is said of each page.
import { ownerAt, pageAt } from "./follow.js";
import { FEW, isAlone, isLive } from "./pages.js";

// All pages that are not released, by number.
function nodesAt(replay, moment) {
  const nodes = new Map();
  for (const x of replay.owners.keys()) {
    const owner = ownerAt(replay, x, moment);
    if (owner.is !== "released") nodes.set(x, { x, owner, page: pageAt(replay, x, moment), marks: [], isOff: false });
  }
  return nodes;
}

// The pages of a level along their links.
function chainFrom(nodes, first, level, chained) {
  const chain = [];
  for (let x = first; x && !chained.has(x); x = nodes.get(x).page.right) {
    const node = nodes.get(x);
    if (!isLive(node?.page) || node.page.level !== level) break;
    chained.add(x);
    chain.push(node);
  }
  return chain;
}

// Says of the pages on chains which are thin, and which no parent lists.
function markChains(levels, top) {
  const inners = levels.flatMap(({ chain }) => chain).filter(({ page }) => page.kind === "inner");
  const listed = new Set(inners.flatMap(({ page }) => page.pairs.map(pair => Number(pair[1]))));
  for (const { x, page, marks } of levels.flatMap(({ chain }) => chain)) {
    if (page.pairs.length < FEW && !isAlone(page)) marks.push("thin");
    if (x !== top && !listed.has(x)) marks.push("unposted");
  }
}

// What is said of a page that stands on no chain.
function markOff({ page, owner, marks }, levels) {
  if (!page) marks.push("taken");
  else if (page.kind === "dead") marks.push(owner.is === "retired" ? "retired" : "dead");
  else if (owner.isTaken) marks.push("unlinked");
  else marks.push(page.level < levels ? "bypassed" : "off the anchor");
}

// A page that is off has its place by its least key; one that is taken and not written yet beside another that its process holds.
function placeOff(node, levels, nodes, top) {
  const { page, owner } = node;
  const held = page ? null : [...nodes.values()].find(other => !other.isOff && other.x && other.owner.is === "held" && other.owner.process === owner.process);
  const level = page ? page.level : held ? held.page.level : top;
  while (levels.length <= level) levels.push({ level: levels.length, chain: [], pages: [] });
  const { pages } = levels[level];
  const after = page ? pages.findLastIndex(other => !other.page || other.page.low <= page.low) : pages.indexOf(held);
  pages.splice(after < 0 && !page ? pages.length : after + 1, 0, node);
}

// The rows of the leaves. A search ends at the first leaf whose bound is above its key: what one to the right has of lower keys does not count.
function rowsOf(chain) {
  const rows = [];
  let reached = 0n;
  for (const node of chain) {
    node.counts = reached;
    rows.push(...node.page.pairs.filter(pair => pair[0] >= reached));
    if (node.page.high > reached) reached = node.page.high;
  }
  return rows;
}

export function treeAt(replay, moment) {
  const nodes = nodesAt(replay, moment), chained = new Set(), anchor = nodes.get(0), { firsts } = anchor.page;
  const levels = firsts.map((first, level) => {
    const chain = chainFrom(nodes, first, level, chained);
    return { level, chain, pages: chain.slice() };
  });
  markChains(levels, firsts.at(-1));
  const off = [...nodes.values()].filter(({ x }) => x && !chained.has(x));
  for (const node of off) node.isOff = true;
  for (const node of off) {
    markOff(node, firsts.length);
    placeOff(node, levels, nodes, firsts.length);
  }
  return { anchor, nodes, levels: levels.filter(({ pages }) => pages.length).reverse(), rows: rowsOf(levels[0].chain), released: replay.size - nodes.size };
}

// Some of the released pages, by number.
export function releasedOf(replay, { nodes }, most) {
  const released = [];
  for (let x = 1; x < replay.size && released.length < most; x++) if (!nodes.has(x)) released.push(x);
  return released;
}
