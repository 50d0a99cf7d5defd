// Begins: unpacks the image that stands in this page, and shows its top level. Keys, buttons and clicks.
import { changeColours, listenToColours } from "./colours.js";
import { childAt, countsOf, isInner, isPlaced, keyAt, readImage, wordAt } from "./image.js";
import { putAll } from "./facts.js";
import { listenToPointer } from "./pointing.js";
import { canvas, draw } from "./picture.js";
import { choose, moveTo, searchFor, showWhole, zoomBy } from "./sight.js";
import { search } from "./search.js";
import { element, toField } from "./words.js";
import { seen } from "./seen.js";

const middle = () => canvas.clientWidth / 2;

// To a neighbour on the level: by so many places, or its first or last page.
function along(to) {
  const { image, chosen } = seen;
  if (!isPlaced(image, chosen)) return;
  const pages = image.levels[image.level[chosen]], x = to(pages, image.place[chosen]);
  if (x !== undefined) choose(x);
}

function down() {
  const { image, chosen } = seen;
  if (chosen === 0 && image.firsts.length) choose(image.firsts.at(-1));
  else if (isInner(image, chosen)) choose(childAt(image, chosen, 0));
}

// To the next page that is thin, or that no parent lists, by its number.
function toMarked() {
  const { image, chosen } = seen;
  for (let by = 1; by <= image.count; by++) {
    const x = (chosen + by) % image.count;
    if (image.thin[x] || image.unposted[x]) return choose(x, true);
  }
}

const KEYS = {
  ArrowLeft: () => along((pages, place) => pages[place - 1]), ArrowRight: () => along((pages, place) => pages[place + 1]),
  Home: () => along(pages => pages[0]), End: () => along(pages => pages.at(-1)),
  ArrowUp: () => choose(Math.max(0, seen.image.parent[seen.chosen])), ArrowDown: down, n: toMarked,
  "+": () => zoomBy(2, middle()), "=": () => zoomBy(2, middle()), "-": () => zoomBy(0.5, middle()), 0: showWhole,
  "/": () => toField("key"), g: () => toField("page"), t: changeColours, "?": () => element("keys").showModal(),
};

function onKey(event) {
  const act = KEYS[event.key];
  if (event.ctrlKey || event.metaKey || event.altKey || element("keys").open) return;
  if (event.target.matches("input")) {
    if (event.key === "Escape") canvas.focus();
    return;
  }
  if (!act) return;
  event.preventDefault();
  act();
}

function listen() {
  const buttons = { nearer: KEYS["+"], farther: KEYS["-"], whole: showWhole, help: KEYS["?"] };
  const forms = { find: () => searchFor(element("key").value.trim()), "go-to": () => choose(Number(element("page").value), true) };
  for (const [id, act] of Object.entries(buttons)) element(id).addEventListener("click", act);
  for (const [id, act] of Object.entries(forms)) {
    element(id).addEventListener("submit", event => {
      event.preventDefault();
      act();
    });
  }
  document.addEventListener("keydown", onKey);
  document.addEventListener("click", ({ target }) => {
    const on = target.closest("[data-page]");
    if (on) choose(Number(on.dataset.page), true);
  });
  addEventListener("resize", () => moveTo(seen.from));
  listenToColours(draw);
  listenToPointer();
}

async function unpack(text) {
  const packed = Uint8Array.from(atob(text.trim()), letter => letter.charCodeAt(0));
  const stream = new Blob([packed]).stream().pipeThrough(new DecompressionStream("gzip"));
  return new Uint8Array(await new Response(stream).arrayBuffer());
}

// With #check behind its address the page counts what the checker has counted and searches for each row, and says in its title whether all is right.
function check({ image }, verdict) {
  const wanted = `ok ${Object.entries(countsOf(image)).map(([name, count]) => `${name} ${count}`).join(" ")}`, wrong = [];
  if (verdict !== wanted) wrong.push("the verdict");
  for (const x of image.levels[0] || []) {
    for (let i = 0; i < image.size[x]; i++) if (search(image, keyAt(image, x, i)).value !== wordAt(image, x, i)) wrong.push(`key ${keyAt(image, x, i)}`);
  }
  document.title = wrong.length ? `wrong: ${wrong.slice(0, 9).join(", ")}` : `right at ${countsOf(image).rows} rows`;
}

const part = id => element(id).textContent.trim();
const verdict = part("said");
const bytes = await unpack(part("image")).catch(error => {
  element("title").textContent = `the image could not be unpacked: ${error.message}`;
  throw error;
});
seen.image = readImage(bytes);
element("image").remove();
putAll(verdict);
listen();
element("page").max = seen.image.count - 1;
choose(seen.fault ? seen.fault.page : (seen.image.firsts.at(-1) ?? 0));
if (location.hash === "#check") check(seen, verdict);
