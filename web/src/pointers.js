/* Where a value leads that may be a pointer into a heap. Pure. */

/* The innermost heap that has an address after a moment; null where none has. */
export function heapAround(trace, address, moment) {
  let best = null;
  for (const heap of trace.heapList()) {
    const limits = heap.limitsAt(moment);
    const inside = limits.there && address >= heap.address && address < heap.address + limits.end;
    if (inside && (!best || heap.address > best.address)) best = heap;
  }
  return best;
}

/* Where a value leads at a moment, or null where it leads into no heap: {heap, to, ..}, with `to`
     start   the heap's own address
     block   into a block: its stay, and how many bytes in
     stale   to the place of a block that another has taken: the stay there now, and the block that was
     dead    to a block that is gone: the block that was
     free    to memory of the heap that no block has
   `since` is the moment at which the cell got the value: a pointer is judged by what stood there then. */
export function pointer(trace, value, moment, since) {
  const heap = heapAround(trace, value, moment);
  if (!heap) return null;
  if (value === heap.address) return { heap, to: "start" };
  const stay = heap.stayAt(value, moment);
  const before = since === undefined ? null : heap.stayAt(value, since);
  const wasHere = before !== null && heap.payload(before) === value;
  if (stay && wasHere && stay.block.born > since && before.block !== stay.block) {
    return { heap, to: "stale", stay, was: before.block };
  }
  if (stay) return { heap, to: "block", stay, offset: value - heap.payload(stay) };
  return wasHere ? { heap, to: "dead", was: before.block } : { heap, to: "free" };
}

/* Whether a pointer leads to a block that is gone, or that another has taken the place of. */
export const isLost = (found) => found !== null && (found.to === "stale" || found.to === "dead");
