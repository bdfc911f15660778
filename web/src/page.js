/* The page of one trace: reads the data that stand in it, and starts the player. */

import { Player } from "./player.js";
import { Trace } from "./replay.js";
import { startTheme } from "./theme.js";

/* The data as they stand in the page: plain, or packed by gzip and written as base64. */
async function dataOfPage() {
  const element = document.getElementById("trace"), text = element.textContent.trim();
  if (element.dataset.encoding !== "gzip") return text + "\n";
  const packed = Uint8Array.from(atob(text), (c) => c.charCodeAt(0));
  return new Response(new Blob([packed]).stream().pipeThrough(new DecompressionStream("gzip"))).text();
}

async function start() {
  let player = null;
  startTheme(() => { if (player) player.recolour(); });
  if (new URLSearchParams(location.search).has("embed")) document.body.classList.add("embed");
  const times = { begin: performance.now() }, trace = new Trace(await dataOfPage());
  times.read = performance.now();
  player = new Player(document.getElementById("player"), trace);
  document.title = player.title + " · rosm";
  document.getElementById("loading").hidden = true;
  if (!player.goToAddress()) player.go(0, { isFast: true });
  times.drawn = performance.now();
  window.rosm = { player, trace, times };
}

start().catch((error) => {
  document.getElementById("loading").textContent = "This page can't be shown. " + error.message;
});
