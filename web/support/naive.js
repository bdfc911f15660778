/* A replay that is nothing but assignments, record by record, to compare with. It shares no code with the viewer. */

function changeHeaps(list, state) {
  for (const change of list || []) {
    if (change.gone) { state.heaps.delete(change.heap); continue; }
    if (!state.heaps.has(change.heap)) state.heaps.set(change.heap, { base: 0, end: 0, items: new Map() });
    const heap = state.heaps.get(change.heap);
    if (change.base !== undefined) heap.base = change.base;
    if (change.end !== undefined) heap.end = change.end;
    for (const item of change.items || []) if (item[0] !== "+") heap.items.delete(item[2]);
    for (const item of change.items || []) {
      if (item[0] === "+") heap.items.set(item[2], [item[1], item[3]]);
      if (item[0] === "=") heap.items.set(item[4], [item[1], item[5]]);
    }
  }
}

function changeFlex(list, state) {
  for (const change of list || []) {
    if (change[0] === "-") state.flex.delete(change[1]); else state.flex.set(change[1], [change[2], change[3]]);
  }
}

function fresh(record, output) {
  const state = { regs: { ...record.regs }, flags: { ...record.flags }, mode: record.mode, pc: record.pc, output,
    mem: new Map(record.mem.map(([at, , word]) => [at, word])), heaps: new Map(), flex: new Map(), frames: [],
    areas: record.areas, pool: record.pool, modules: record.modules, wrong: null };
  changeHeaps(record.heaps, state);
  return state;
}

function change(record, state) {
  Object.assign(state.regs, record.regs);
  Object.assign(state.flags, record.flags);
  if (record.mode) state.mode = record.mode;
  for (const [at, old, word] of record.mem || []) {
    if ((state.mem.get(at) || 0) !== old) state.wrong = `[${at.toString(16)}] is said to have been ${old}`;
    state.mem.set(at, word);
  }
  changeHeaps(record.heaps, state);
  changeFlex(record.flex, state);
  for (const name of ["areas", "pool", "modules"]) if (record[name] !== undefined) state[name] = record[name];
  if (record.leaves !== undefined) state.frames.length = record.leaves - 1;
  if (record.enters) state.frames.push(record.enters.frame);
  if (record.out) state.output += record.out;
}

/* The state after each moment. */
export function* statesOf(records) {
  let state = null;
  for (const record of records) {
    if ("start" in record) { state = fresh(record, ""); yield state; continue; }
    if ("line" in record || "end" in record || record.remark) continue;
    if (record.reset) state = fresh(record.reset, state.output);
    change(record, state);
    if ("step" in record) {
      const goesOn = record.call === undefined && record.skip === undefined && !record.stop;
      if (record.next !== undefined) state.pc = record.next; else if (goesOn) state.pc = record.pc + 4;
    } else if (record.pc !== undefined) state.pc = record.pc;
    if ("step" in record || !record.steps) yield state;
  }
}
