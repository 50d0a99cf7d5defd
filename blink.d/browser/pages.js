// What stands in a page, and where it leads.

// A page with fewer entries is thin.
export const FEW = 7;

// A page from the words of its line. Keys and values have 64 bits, so they are BigInts; numbers of pages and levels are not.
export function pageOf([kind, ...words]) {
  if (kind === "anchor") return { kind, level: 0, firsts: words.map(Number), pairs: [] };
  const level = kind === "leaf" ? 0 : Number(words.shift());
  if (kind === "dead") return { kind, level, low: BigInt(words[0]), high: 0n, right: Number(words[1]), pairs: [] };
  const pairs = [];
  for (let i = 3; i + 1 < words.length; i += 2) pairs.push([BigInt(words[i]), BigInt(words[i + 1])]);
  return { kind, level, low: BigInt(words[0]), high: BigInt(words[1]), right: Number(words[2]), pairs };
}

export const isLive = page => !!page && (page.kind === "leaf" || page.kind === "inner");

// The page covers every key, so it has no neighbour to be merged with.
export const isAlone = page => page.low === 0n && page.high === 0n;

// Where a page sends whoever looks for the key on a level: to which page, and why.
export function wayFrom(page, key, level) {
  if (page.kind === "anchor") {
    const top = page.firsts.length - 1;
    return top < level ? { to: "none" } : { to: top === level ? "first" : "down", page: page.firsts[top] };
  }
  if (page.kind === "dead") return page.right ? { to: "right", page: page.right } : { to: "again" };
  if (key < page.low || page.level < level) return { to: "again" };
  if (page.high !== 0n && key >= page.high) return { to: "right", page: page.right };
  if (page.level === level) return { to: "here" };
  const child = page.pairs.findLast(pair => pair[0] <= key) || page.pairs[0];
  return { to: "down", page: Number(child[1]) };
}
