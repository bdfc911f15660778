/* Light or dark: as the address says, as it was kept, or as the reader's system has it. */

import { forgetColours, keep, kept } from "./dom.js";

const isTheme = (name) => name === "light" || name === "dark";

/* Sets the theme, and lets `redraw` know when it changes: by a button with data-act "theme", or by the system. */
export function startTheme(redraw) {
  const dark = matchMedia("(prefers-color-scheme: dark)");
  const wish = new URLSearchParams(location.search).get("theme");
  const root = document.documentElement;
  const set = (name) => { root.dataset.theme = name; forgetColours(); redraw(); };
  const usual = () => dark.matches ? "dark" : "light";
  root.dataset.theme = [wish, kept("theme"), usual()].find(isTheme);
  document.addEventListener("click", (event) => {
    if (!event.target.closest("[data-act=theme]")) return;
    const name = root.dataset.theme === "dark" ? "light" : "dark";
    keep("theme", name);
    set(name);
  });
  dark.addEventListener("change", () => { if (!isTheme(wish) && !isTheme(kept("theme"))) set(usual()); });
  let before = root.dataset.theme;
  addEventListener("beforeprint", () => { before = root.dataset.theme; set("light"); });
  addEventListener("afterprint", () => set(before));
}
