// The pages of an image.
import { compare, firstWhere } from "./order.js";

const HEAD = 32, PAGE = 256, WORDS = 32, FEW = 7;
export const MOST = 14;
const KINDS = ["", "anchor", "leaf", "inner", "dead"], [, ANCHOR, LEAF, INNER, DEAD] = KINDS.keys();
// What the first word of a page of each kind may say: from which level to which, and from how many entries to how many.
const LIMITS = { [ANCHOR]: [0, 0, 1, 12], [LEAF]: [0, 0, 0, MOST], [INNER]: [1, 11, 1, MOST], [DEAD]: [0, 11, 0, 0] };

export const lowOf = (image, x) => image.words[WORDS * x + 1];
export const highOf = (image, x) => image.words[WORDS * x + 2];
// Entry i of a page: its key, and its value or child.
export const keyAt = (image, x, i) => image.words[WORDS * x + 4 + 2 * i];
export const wordAt = (image, x, i) => image.words[WORDS * x + 5 + 2 * i];
export const childAt = (image, x, i) => Number(wordAt(image, x, i));
export const isLeaf = (image, x) => image.kind[x] === LEAF;
export const isInner = (image, x) => image.kind[x] === INNER;
export const isLive = (image, x) => isLeaf(image, x) || isInner(image, x);
export const kindOf = (image, x) => KINDS[image.kind[x]] || "";
// Whether it stands in the picture.
export const isPlaced = (image, x) => image.place[x] >= 0;
export const childrenOf = (image, x) => Array.from({ length: image.size[x] }, (_, i) => childAt(image, x, i));

const isUsed = (words, x) => words.subarray(WORDS * x, WORDS * (x + 1)).some(word => word !== 0n);

// Reads the first word of a page, and its link; false where they are no page's.
function readPage(image, x) {
  const head = image.words[WORDS * x], right = image.words[WORDS * x + 3];
  const kind = Number(head >> 32n), level = Number((head >> 16n) & 0xffffn), size = Number(head & 0xffffn), limits = LIMITS[kind];
  if (!limits || level < limits[0] || level > limits[1] || size < limits[2] || size > limits[3] || right > 0xffffffffn) return false;
  [image.kind[x], image.level[x], image.size[x], image.right[x]] = [kind, level, size, Number(right)];
  return true;
}

// The pages on the chain of each level.
function findChains(image) {
  const { count, level, right, chained, firsts } = image;
  firsts.forEach((first, at) => {
    for (let x = first; x > 0 && x < count && isLive(image, x) && level[x] === at && !chained[x]; x = right[x]) chained[x] = 1;
  });
}

// The live pages of each level by their least keys, which is the order of a sound image's chain; and where each begins, counted in leaves.
function findLevels(image) {
  const levels = [];
  for (let x = 0; x < image.count; x++) if (isLive(image, x)) (levels[image.level[x]] ||= []).push(x);
  image.levels = Array.from(levels, pages => pages || []);
  for (const pages of image.levels) {
    pages.sort((one, other) => compare(lowOf(image, one), lowOf(image, other)) || one - other);
    pages.forEach((x, i) => { image.place[x] = i; });
  }
  const leaves = image.levels[0] || [], lows = leaves.map(x => lowOf(image, x));
  const leafOf = x => firstWhere(lows.length, i => lows[i] >= lowOf(image, x));
  image.leaves = leaves.length;
  image.begins = image.levels.map((pages, level) => Float64Array.from([...pages.map((x, i) => (level ? leafOf(x) : i)), leaves.length]));
}

// The page that lists each page; and which are thin, listed by none, on no chain or dead.
function mark(image) {
  const { count, parent, firsts } = image;
  for (let x = 0; x < count; x++) {
    if (!isInner(image, x)) continue;
    for (const child of childrenOf(image, x)) if (child < count && parent[child] < 0) parent[child] = x;
  }
  for (let x = 0; x < count; x++) {
    if (image.kind[x] === DEAD) image.dead.push(x);
    if (!isLive(image, x)) continue;
    if (image.size[x] < FEW && !(lowOf(image, x) === 0n && highOf(image, x) === 0n)) image.thin[x] = 1;
    if (parent[x] < 0 && firsts.at(-1) !== x) image.unposted[x] = 1;
    if (!image.chained[x]) image.loose.push(x);
  }
}

// How many pages there are: of a large image those behind the last one in use are not stored.
function pagesTold(bytes, stored) {
  if (bytes.length < HEAD) return stored;
  const head = new DataView(bytes.buffer, bytes.byteOffset, HEAD);
  return head.getUint32(8, true) === 2 ? Math.max(stored, head.getUint32(12, true)) : stored;
}

export function readImage(bytes) {
  const count = Math.max(0, Math.floor((bytes.length - HEAD) / PAGE)), flags = () => new Uint8Array(count);
  const words = new BigUint64Array(bytes.buffer, bytes.byteOffset + HEAD, count * WORDS);
  const image = {
    count, all: pagesTold(bytes, count), words, kind: flags(), level: flags(), size: flags(), right: new Uint32Array(count), used: flags(), thin: flags(), unposted: flags(), chained: flags(),
    parent: new Int32Array(count).fill(-1), place: new Int32Array(count).fill(-1), firsts: [], unread: [], loose: [], dead: [],
  };
  for (let x = 0; x < count; x++) {
    image.used[x] = isUsed(words, x) ? 1 : 0;
    if (image.used[x] && !readPage(image, x)) image.unread.push(x);
  }
  if (kindOf(image, 0) === "anchor") image.firsts = Array.from(words.subarray(4, 4 + image.size[0]), Number);
  findChains(image);
  findLevels(image);
  mark(image);
  return image;
}

// How many there are of each thing that `check` counts, in its words.
export function countsOf(image) {
  const sum = list => list.reduce((all, one) => all + one, 0), leaves = image.levels[0] || [];
  return {
    rows: sum(leaves.map(x => image.size[x])), leaves: leaves.length, inners: sum(image.levels.slice(1).map(pages => pages.length)),
    levels: image.firsts.length, unposted: sum(image.unposted), thin: sum(image.thin),
  };
}
