// Dark and light.
import { element } from "./words.js";

// A colour of the style sheet, as it is now.
const probe = document.createElement("i");
probe.hidden = true;
document.body.append(probe);
export function styled(name) {
  probe.style.color = `var(${name})`;
  return getComputedStyle(probe).color;
}

// As the system has them, dark, light, and so on.
let drawAnew = null;
export function changeColours() {
  const order = ["", "dark", "light"], { dataset } = document.documentElement;
  const next = order[(order.indexOf(dataset.colours || "") + 1) % 3];
  dataset.colours = next;
  element("colours").setAttribute("aria-label", `Colours: ${next || "as the system has them"}`);
  element("colours").textContent = next ? `Colours: ${next}` : "Colours";
  drawAnew();
}

export function listenToColours(draw) {
  drawAnew = draw;
  element("colours").addEventListener("click", changeColours);
  matchMedia("(prefers-color-scheme: dark)").addEventListener("change", draw);
}
