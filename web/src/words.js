/* A word of memory as a button: a click chooses it, a double click goes to who wrote it last. */

import { makeButton } from "./dom.js";
import { word } from "./format.js";
import { wordText } from "./describe.js";

const UNKNOWN = { hex: "????????", dec: "?", chr: "????" };

/* Words that the moment reads. */
export const readBy = (record) => new Set((record.reads || []).map(([address]) => address));

export function wordButton(player, address, moment, reads) {
  const { trace, format } = player, history = trace.words.get(address), value = trace.word(address, moment);
  const isKnown = trace.knows(address, moment);
  const button = makeButton("w", isKnown ? word(value, format) : UNKNOWN[format]);
  button.dataset.word = address;
  button.tabIndex = -1;
  if (isKnown && value === 0) button.classList.add("zero");
  if (history && history.writtenAt(moment)) button.classList.add("changed");
  else if (reads.has(address)) button.classList.add("read");
  if (player.isChosen("word", address)) button.classList.add("chosen");
  return button;
}

/* To the moment at which a word was last written. */
export function goToWrite(player, address) {
  const history = player.trace.words.get(address), moment = history ? history.lastWrite(player.moment) : 0;
  if (moment && moment !== player.moment) player.go(moment);
}

const wordAt = (event) => {
  const button = event.target.closest("[data-word]");
  return button ? Number(button.dataset.word) : null;
};

export function listenForWords(player, box) {
  box.addEventListener("click", (event) => {
    const address = wordAt(event);
    if (address !== null) player.choose({ word: address });
  });
  box.addEventListener("dblclick", (event) => {
    const address = wordAt(event);
    if (address === null) return;
    player.chosen = { word: address };
    goToWrite(player, address);
    player.draw();
  });
  player.tip.over(box, (event) => {
    const address = wordAt(event);
    return address === null ? "" : wordText(player.trace, address, player.moment);
  });
}
