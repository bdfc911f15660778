/* Where things stand in pictures, in shares of a width and a height. Pure. */

import { FLEX_HEADER } from "./heap_history.js";
import { lastAtMost } from "./histories.js";

/* A heap's descriptor. */
export const DESCRIPTOR_BYTES = 16;
/* Room that is never used is drawn whole where it is at most this share of what is used; else it has this
   share of the width, and a torn edge. */
const WHOLE_REST = 0.35;
const TORN_REST = 0.14;

/* Offsets at which an item ever began or ended, from 0 to `used`, in order. */
function cutsOf(heap, used) {
  const cuts = new Set([0, used]);
  if (!heap.flex) cuts.add(DESCRIPTOR_BYTES);
  for (const stay of heap.stays) {
    const at = stay.at - heap.address;
    cuts.add(at).add(at + stay.size);
    if (heap.flex) cuts.add(at + FLEX_HEADER);
  }
  return [...cuts].filter((cut) => cut >= 0 && cut <= used).sort((a, b) => a - b);
}

/* The scale of a heap: offsets to 0..1, the same at all moments. Between two cuts lies a piece; it has its true
   share of the width, but a small one is enlarged, so that it can be seen. */
export function heapScale(heap) {
  const end = heap.largest, used = Math.min(end, Math.max(heap.extent, DESCRIPTOR_BYTES));
  const cuts = cutsOf(heap, used), pieces = Math.max(1, cuts.length - 1);
  const least = Math.min(0.03, 0.35 / pieces), rest = end - used, whole = rest <= used * WHOLE_REST;
  const share = whole ? (end ? used / end : 1) : 1 - TORN_REST, widths = [];
  let sum = 0, enlarged = false;
  for (let i = 0; i < pieces; i++) {
    const natural = used ? ((i + 1 < cuts.length ? cuts[i + 1] : used) - cuts[i]) / used : 1;
    if (natural < least) enlarged = true;
    widths.push(Math.max(natural, least));
    sum += widths[i];
  }
  const left = [0];
  for (let i = 0; i < pieces; i++) left.push(left[i] + widths[i] / sum * share);
  const pieceOf = (list, v) => Math.max(0, Math.min(pieces - 1, lastAtMost(list, v)));
  return {
    whole, used, end, enlarged,
    at(offset) {
      if (offset >= used) return share + (rest ? (offset - used) / rest : 0) * (1 - share);
      const i = pieceOf(cuts, offset);
      return left[i] + (offset - cuts[i]) / (cuts[i + 1] - cuts[i] || 1) * (left[i + 1] - left[i]);
    },
    /* The offset that stands at a place. */
    offset(x) {
      if (x >= share) return Math.floor(used + (x - share) / (1 - share || 1) * rest);
      const i = pieceOf(left, x);
      return Math.floor(cuts[i] + (x - left[i]) / (left[i + 1] - left[i] || 1) * (cuts[i + 1] - cuts[i]));
    },
  };
}

/* Offsets of round addresses for a ruler: about n of them. */
export function rulerStops(start, used, n) {
  let step = 16;
  while (step < used / n) step *= 2;
  const stops = [];
  for (let at = Math.ceil(start / step) * step; at < start + used; at += step) stops.push(at - start);
  return stops;
}

/* Labels near the places that they belong to, side by side in as few rows as need be: each {x, width} gets
   {left, row}. All in pixels. Answers how many rows there are. */
export function placeLabels(labels, width, gap) {
  const ends = [];
  for (const label of [...labels].sort((a, b) => a.x - b.x)) {
    let left = Math.max(0, Math.min(width - label.width, label.x - label.width / 2));
    let row = ends.findIndex((end) => end + gap <= left);
    if (row < 0) {
      row = ends.findIndex((end) => end + gap <= label.x && end + gap + label.width <= width);
      if (row >= 0) left = ends[row] + gap; else row = ends.length;
    }
    label.left = left;
    label.row = row;
    ends[row] = left + label.width;
  }
  return ends.length;
}

/* For each pixel of a slider the kinds of the moments that fall on it. */
export function bins(kinds, width) {
  const n = Math.max(1, Math.floor(width)), found = new Uint16Array(n), last = Math.max(1, kinds.length - 1);
  for (let i = 0; i < kinds.length; i++) found[Math.min(n - 1, Math.round(i / last * (n - 1)))] |= kinds[i];
  return found;
}

/* Rows of four words of which one was touched: {at, gap}, where a gap is before a row that doesn't follow on. */
export function memoryRows(touched) {
  const starts = [...new Set([...touched].map((address) => address - address % 16))].sort((a, b) => a - b);
  return starts.map((at, i) => ({ at, gap: i > 0 && at !== starts[i - 1] + 16 }));
}
