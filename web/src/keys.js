/* Keys of the player. Letters can be switched off, for those who speak to their machine. */

import { FORMATS } from "./format.js";
import { KIND } from "./names.js";

const BAD = KIND.FAIL | KIND.REFUSED | KIND.ERROR;

function isTyping(element) {
  return /^(SELECT|TEXTAREA)$/.test(element.tagName) || element.isContentEditable ||
    element.tagName === "INPUT" && element.type !== "range";
}

/* What a key does, or undefined. */
function actOf(player, event) {
  const by = event.shiftKey ? 10 : 1, { key } = event;
  const move = (to) => () => { player.play(false); player.go(to); };
  const always = {
    ArrowRight: move(player.moment + by), ArrowLeft: move(player.moment - by),
    Home: move(0), End: move(player.trace.last),
    PageDown: () => player.goToLine(1), PageUp: () => player.goToLine(-1),
    " ": () => player.play(!player.isPlaying), Escape: () => player.choose(null),
  };
  const letters = {
    "+": () => player.faster(1), "=": () => player.faster(1), "-": () => player.faster(-1),
    h: () => player.goToKind(KIND.HEAP, 1), H: () => player.goToKind(KIND.HEAP, -1),
    s: () => player.goToKind(KIND.SWI, 1), S: () => player.goToKind(KIND.SWI, -1),
    f: () => player.goToKind(BAD, 1), F: () => player.goToKind(BAD, -1),
    x: () => player.setFormat(FORMATS[(FORMATS.indexOf(player.format) + 1) % FORMATS.length]),
    g: () => player.askForStep(), "?": () => player.help.show(),
  };
  if (Object.hasOwn(always, key)) return always[key];
  return player.lettersAreKeys && Object.hasOwn(letters, key) ? letters[key] : undefined;
}

export function listenForKeys(player, signal) {
  document.addEventListener("keydown", (event) => {
    if (event.altKey || event.ctrlKey || event.metaKey || document.querySelector("dialog[open]")) return;
    if (isTyping(event.target)) return;
    const isButton = event.target.tagName === "BUTTON" && event.target.id !== "play";
    if (event.key === " " && isButton) return;
    const act = actOf(player, event);
    if (!act) return;
    event.preventDefault();
    act();
  }, { signal });
}
