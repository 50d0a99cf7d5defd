// The way of a search through an image.
import { childAt, highOf, isLeaf, keyAt, kindOf, lowOf, wordAt } from "./image.js";

// The last entry of a page whose key is not greater, or -1.
function entryOf(image, x, key) {
  let entry = image.size[x] - 1;
  while (entry >= 0 && keyAt(image, x, entry) > key) entry--;
  return entry;
}

// What a page says to who looks for the key: what it is told, and the page that comes next, or what was found, or why it is over.
function ask(image, x, key) {
  const kind = kindOf(image, x), link = image.right[x], again = "it would begin again at the anchor";
  if (!kind || kind === "anchor") return { says: "it cannot be read", why: `page ${x} cannot be read` };
  if (kind === "dead") return link ? { says: `dead: on to page ${link}`, next: link } : { says: "dead: it would begin again", why: again };
  if (key < lowOf(image, x)) return { says: "its least key is greater: it would begin again", why: again };
  const bound = highOf(image, x);
  if (bound !== 0n && key >= bound) {
    return link ? { says: `not below its bound: along the link to page ${link}`, next: link } : { says: "not below its bound", why: "the link leads nowhere" };
  }
  const entry = entryOf(image, x, key);
  if (!isLeaf(image, x)) {
    const child = childAt(image, x, Math.max(0, entry));
    return { says: `down to page ${child}`, next: child };
  }
  const value = entry >= 0 && keyAt(image, x, entry) === key ? wordAt(image, x, entry) : null;
  return { says: value === null ? "absent" : `found ${value}`, value };
}

// Each page of the way with what it says, and the value of the key, null where it is absent; or why nothing can be found.
export function search(image, key) {
  if (!image.firsts.length) return { steps: [], value: null, why: "there is no anchor" };
  let x = image.firsts.at(-1);
  const steps = [{ x: 0, says: `the top level begins at page ${x}` }];
  while (steps.length <= image.count + 12) {
    const { says, next, value = null, why = null } = ask(image, x, key);
    steps.push({ x, says });
    if (next === undefined) return { steps, value, why };
    x = next;
  }
  return { steps, value: null, why: "the links lead in a circle" };
}
