/* Small helpers of the page. Text becomes a part of it only by textContent, so what a script or a guest wrote is
   never anything but text. */

export function make(tag, classes, text) {
  const element = document.createElement(tag);
  if (classes) element.className = classes;
  if (text !== undefined) element.textContent = text;
  return element;
}

export function makeButton(classes, text, act) {
  const button = make("button", classes, text);
  button.type = "button";
  if (act) button.addEventListener("click", act);
  return button;
}

export function makeSvg(tag, attributes = {}) {
  const element = document.createElementNS("http://www.w3.org/2000/svg", tag);
  for (const name in attributes) element.setAttribute(name, attributes[name]);
  return element;
}

/* Colours of the theme, and sizes of boxes, are asked for once: to ask in the midst of a drawing makes the browser
   lay out the page again. */
const colours = new Map(), sizes = new Map();
export function colour(name) {
  if (!colours.has(name)) colours.set(name, getComputedStyle(document.documentElement).getPropertyValue(name).trim());
  return colours.get(name);
}
export function sizeOf(element) {
  let size = sizes.get(element);
  if (!size) sizes.set(element, size = { width: element.clientWidth, height: element.clientHeight });
  return size;
}
export const forgetColours = () => colours.clear();
export const forgetSizes = () => sizes.clear();
export const themeName = () => document.documentElement.dataset.theme;
export const calm = typeof matchMedia === "undefined" ? { matches: true }
  : matchMedia("(prefers-reduced-motion: reduce)");

/* A still picture that a canvas shows a part of. */
export function stillCanvas(width, height) {
  const canvas = document.createElement("canvas");
  canvas.width = width;
  canvas.height = height;
  return canvas;
}

/* Gives a canvas its size, where it has another: to set it clears what is drawn. */
export function fitCanvas(canvas, width, height) {
  if (canvas.width === width && canvas.height === height) return;
  canvas.width = width;
  canvas.height = height;
}

/* What the pointer is over, in words. */
export class Tip {
  constructor(element) { this.element = element; }

  show(text, x, y) {
    const e = this.element;
    e.textContent = text;
    e.hidden = false;
    const width = e.offsetWidth, height = e.offsetHeight;
    e.style.left = Math.max(4, Math.min(innerWidth - width - 4, x - width / 2)) + "px";
    e.style.top = (y + height + 22 > innerHeight ? y - height - 12 : y + 18) + "px";
  }

  hide() { this.element.hidden = true; }

  /* Shows, over an element, what `textOf` answers for the event; nothing where it answers nothing. */
  over(element, textOf) {
    element.addEventListener("pointermove", (event) => {
      const text = event.pointerType === "touch" ? "" : textOf(event);
      if (text) this.show(text, event.clientX, event.clientY); else this.hide();
    });
    element.addEventListener("pointerleave", () => this.hide());
  }
}

/* One Tab stop for a list: arrows go from element to element, Enter and the space bar act on one. */
export function roving(box, selector, act, keys = { ArrowDown: 1, ArrowUp: -1 }) {
  const stop = (event) => { event.preventDefault(); event.stopPropagation(); };
  box.addEventListener("keydown", (event) => {
    const all = [...box.querySelectorAll(selector)], at = all.indexOf(document.activeElement);
    if (at < 0) return;
    if (event.key in keys) {
      const to = all[at + keys[event.key]];
      if (to) { all[at].tabIndex = -1; to.tabIndex = 0; to.focus(); }
      stop(event);
    } else if (act && (event.key === "Enter" || event.key === " ")) { act(all[at], event); stop(event); }
  });
}
export function firstStop(box, selector) {
  if (box.querySelector(selector + '[tabindex="0"]')) return;
  const first = box.querySelector(selector);
  if (first) first.tabIndex = 0;
}

/* Scrolls a box so that a row in it stands away from its edges. */
export function keepInView(box, row, share) {
  const height = box.clientHeight;
  if (!height || box.scrollHeight <= height) return;
  const top = row.offsetTop - box.offsetTop, margin = height * share;
  if (top < box.scrollTop + margin) box.scrollTop = top - margin;
  else if (top + row.offsetHeight > box.scrollTop + height - margin) {
    box.scrollTop = top + row.offsetHeight - height + margin;
  }
}

/* A choice that the browser keeps. It may keep nothing, as for a file. */
export function keep(name, value) {
  try { localStorage.setItem("rosm." + name, value); } catch { /* kept nowhere */ }
}
export function kept(name) {
  try { return localStorage.getItem("rosm." + name); } catch { return null; }
}
