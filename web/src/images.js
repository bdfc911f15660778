/* Images: which line of the script an address belongs to, and what it is called. Pure. */

import { RETURN_GATE } from "./names.js";

/* An image as its record has it, with its labels by address and the line of each word. */
export function imageOf(record, line) {
  const labels = Object.entries(record.labels || {}).map(([name, at]) => ({ name, at }));
  labels.sort((a, b) => a.at - b.at);
  const lines = (record.lines || []).map(([number, at, size]) => ({ line: number, at, size }));
  const byOffset = new Map();
  for (const part of lines) for (let k = 0; k < part.size; k += 4) byOffset.set(part.at + k, part);
  return { name: record.name, origin: record.origin, length: record.length, labels, lines, byOffset, block: line };
}

/* The line of the script at whose code an address lies, where images stand at these places: {line, image}. */
export function sourceIn(images, places, address) {
  for (const place of places) {
    const image = images.get(place.name);
    if (!image || address < place.at || address >= place.at + image.length) continue;
    const part = image.byOffset.get(address - place.at);
    if (part) return { line: part.line, image };
  }
  return null;
}

const withOffset = (name, offset) => name + (offset ? "+" + offset : "");

/* "label+4" for an address in an image, "image+8" where no label stands before it, and "" elsewhere. */
export function nameIn(images, places, address) {
  for (const place of places) {
    const image = images.get(place.name);
    if (!image || address < place.at || address >= place.at + image.length) continue;
    const offset = address - place.at;
    let label = null;
    for (const known of image.labels) if (known.at <= offset) label = known;
    return label ? withOffset(label.name, offset - label.at) : withOffset(image.name, offset);
  }
  return address === RETURN_GATE ? "return gate" : "";
}
