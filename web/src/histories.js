/* Values over time. A *moment* is a number from 0; what is so at a moment is one binary search. Pure. */

/* The index of the last number of a sorted list that is at most n; -1 where there is none. */
export function lastAtMost(list, n) {
  let low = 0, high = list.length;
  while (low < high) {
    const middle = (low + high) >>> 1;
    if (list[middle] <= n) low = middle + 1; else high = middle;
  }
  return low - 1;
}

/* The moments at which one cell (a register, a word) was written, and what was written. */
export class History {
  constructor(first) { this.at = [0]; this.value = [first >>> 0]; }

  put(moment, value) { this.at.push(moment); this.value.push(value >>> 0); }

  newest() { return this.value[this.value.length - 1]; }

  find(moment) { return lastAtMost(this.at, moment); }

  valueAt(moment) { return this.value[this.find(moment)]; }

  /* The last moment at or before this one at which it was written; 0 where it never was. */
  lastWrite(moment) { return this.at[this.find(moment)]; }

  /* The first moment after this one at which it is written; -1 where there is none. */
  nextWrite(moment) {
    const next = this.find(moment) + 1;
    return next < this.at.length ? this.at[next] : -1;
  }

  writtenAt(moment) { return moment > 0 && this.lastWrite(moment) === moment; }

  /* The value before a moment. */
  before(moment) { return this.value[Math.max(0, lastAtMost(this.at, moment - 1))]; }

  changedAt(moment) { return this.writtenAt(moment) && this.valueAt(moment) !== this.before(moment); }
}

/* A whole value (a list, an object) that is another from some moments on. */
export class Timeline {
  constructor(first) { this.at = [0]; this.value = [first]; }

  put(moment, value) {
    const newest = this.at.length - 1;
    if (this.at[newest] === moment) this.value[newest] = value;
    else { this.at.push(moment); this.value.push(value); }
  }

  newest() { return this.value[this.value.length - 1]; }

  valueAt(moment) { return this.value[lastAtMost(this.at, moment)]; }

  changes() { return this.at.length - 1; }
}
