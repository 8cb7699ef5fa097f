// The run that stands in the page, and the table's words at the present moment.
//
// The run has: `steps`, for each line of the figure the registers that hold there (`holds`) and what it does on the
// left and on the right (`said`); `lines`, each with what was printed; `cut`, what is not shown; and `moments`. A moment
// has `line`, the number of its line, and `kind`: start (with the whole `table`), begin, tick, idle, lane, refused or
// unread. `wrote` has places of the table, each with the word there afterwards. A tick has `task`, `step`, `hint`,
// `answer`, what it `looked` at (a place, and the words wanted there), the slot that it `took`, and whether it `lost`
// its swap. `put` and `taken` are what an answer does to the row.
const run = JSON.parse(document.getElementById("run").textContent);
const moments = [{ line: -1, kind: "before" }, ...run.moments];
// The present moment, and the words: none before the first start.
let at = 0, words = [];

// ---- Where each word stands.
const NONE = 65535, HEADER = 16, SLOT = 4, RECORD = 13, HATS = 6;
const SIDES = ["left", "right"], REGISTERS = ["A", "B", "C", "D"];
const OPERATIONS = ["idle", "push", "pop", "add", "remove"];
const HEADER_WORDS = ["slots", "tasks", "growth", "lanes", "tick count", "last dispatched"];
const SLOT_WORDS = ["L", "R", "V", "digit"];
const RECORD_WORDS = ["operation", "step", "side", "argument", "argument's digit", "counted", "value read",
  "value's digit", ...REGISTERS, "lane"];
const MARKS = ["LN", "LX", "LY", "RN", "RX", "RY"], FIRST_MARK = 1000000001;

const slotCount = () => words[0] || 0;
const taskCount = () => words[1] || 0;
const laneCount = () => words[3] || 0;
const numbers = (count) => Array.from({ length: count }, (_, number) => number);
const slotAt = (slot) => HEADER + SLOT * slot;
const recordAt = (task) => slotAt(slotCount()) + RECORD * task;
const hatAt = (lane, side) => HATS + 2 * lane + side;

const hat = (lane, side) => words[hatAt(lane, side)];
const link = (slot, side) => words[slotAt(slot) + side];
const valueOf = (slot) => valueText(words[slotAt(slot) + 2], words[slotAt(slot) + 3]);
const isBag = (value) => value.length === 10;

const tagText = (digit, low) => digit + String(low).padStart(9, "0");
function valueText(value, digit) {
  if (value === 0 && digit === 0) return "unused";
  return digit === 0 && MARKS[value - FIRST_MARK] || tagText(digit, value);
}
// A single word as a person reads it.
function wordText(word) {
  if (word === NONE) return "none";
  const mark = MARKS[word - FIRST_MARK];
  return mark ? `${mark} (${word})` : String(word);
}

function task(number) {
  const record = words.slice(recordAt(number), recordAt(number) + RECORD);
  const [operation, step, side, low, digit, counted, value, valueDigit, a, b, c, d, lane] = record;
  const argument = ["", tagText(digit, low), "", low, low][operation];
  const held = operation ? run.steps[step].holds : "";
  return {
    number, operation, step, side, counted, lane,
    call: operation ? `${OPERATIONS[operation]} ${SIDES[side]} ${argument}`.trim() : "idle",
    inLane: laneCount() > 1 ? `, lane ${lane}` : "",
    goal: [0, words[2], 0, low, low][operation],
    value: valueText(value, valueDigit),
    registers: [a, b, c, d].map((slot, i) => ({ name: REGISTERS[i], slot, holds: held.includes(REGISTERS[i]) })),
  };
}
const tasks = () => numbers(taskCount()).map(task);

// What a place is called, and the slot or the hat that it belongs to.
function place(at) {
  if (at < HATS) return { name: HEADER_WORDS[at] };
  if (at < HEADER) {
    const lane = (at - HATS) >> 1;
    return { name: `${SIDES[at % 2]} hat${laneCount() > 1 ? `, lane ${lane}` : ""}`, key: `hat ${at}` };
  }
  if (at < recordAt(0)) {
    const slot = Math.floor((at - HEADER) / SLOT), word = (at - HEADER) % SLOT;
    return { name: `slot ${slot}, ${SLOT_WORDS[word]}`, key: `slot ${slot}`, isValue: word === 2 };
  }
  const number = Math.floor((at - recordAt(0)) / RECORD), word = (at - recordAt(0)) % RECORD;
  return { name: `task ${number}, ${RECORD_WORDS[word]}` };
}

// ---- Moving on and back. Each moment remembers what it wrote over.
function on() {
  const moment = moments[++at];
  moment.undo = [];
  if (moment.table) {
    moment.before = words;
    words = moment.table.slice();
  }
  for (let i = 0; moment.wrote && i < moment.wrote.length; i += 2) {
    const [place, word] = moment.wrote.slice(i, i + 2);
    moment.undo.push([place, words[place]]);
    words[place] = word;
  }
}
function back() {
  const moment = moments[at--];
  for (const [place, word] of moment.undo) words[place] = word;
  if (moment.before) words = moment.before;
}

// What is not in the words, by moment: the ticks so far, the rows of the lanes, and the task of a tick or a begin as it
// was called then.
const tickOf = [0], rowsOf = [[]], callOf = [];
function rowsAfter(moment, rows) {
  if (moment.table) return numbers(laneCount()).map(() => []);
  const change = (lane, changed) => rows.map((row, k) => k === lane ? changed(row) : row);
  if (moment.put) {
    const [lane, side, tag] = moment.put;
    return change(lane, (row) => side ? [...row, tag] : [tag, ...row]);
  }
  if (moment.taken) {
    const [lane, side] = moment.taken;
    return change(lane, (row) => side ? row.slice(0, -1) : row.slice(1));
  }
  return rows;
}
while (at < moments.length - 1) {
  const next = moments[at + 1];
  if (next.kind === "tick") callOf[at + 1] = task(next.task);
  on();
  if (next.kind === "begin") callOf[at] = task(next.task);
  tickOf[at] = tickOf[at - 1] + (next.kind === "tick");
  rowsOf[at] = rowsAfter(next, rowsOf[at - 1]);
}
while (at > 0) back();

// The words that a tick looked at as they were before it, with what was wanted there.
function looked(moment) {
  const old = new Map(moment.undo), before = (at) => old.has(at) ? old.get(at) : words[at];
  return (moment.looked || []).map(([at, ...wanted]) => {
    const { name, key, isValue } = place(at), text = isValue ? valueText : wordText;
    const was = text(before(at), before(at + 1));
    if (!wanted.length) return { name, key, was };
    return { name, key, was, wanted: text(...wanted), same: was === text(...wanted) };
  });
}

// ---- Which slots stand where: read off the links, the hats and the registers.
function places() {
  const placed = new Set(), busy = tasks().filter(({ operation }) => operation);
  const lanes = numbers(laneCount()).map((lane) => ({ list: listOf(lane, placed), chains: [], beside: [] }));
  for (const one of busy) {
    const slots = chainOf(one, placed);
    if (slots.length) lanes[one.lane].chains.push({ slots, task: one });
  }
  // What else a hat or a register that holds leads to: spurs, and what was cut off but cannot be taken yet.
  const beside = (root, lane, side, why) => {
    const slots = linkedTo(root, placed);
    if (!slots.length) return;
    const holders = busy.filter(({ registers }) => registers.some(({ slot, holds }) => holds && slots.includes(slot)));
    const held = holders.length ? `, still held by ${holders.map(({ number }) => `task ${number}`).join(", ")}` : "";
    lanes[lane].beside.push({ slots: outward(slots, side), side, why: why || `Cut off from the lane${held}` });
  };
  const spur = (side) => `Spur: the ${SIDES[side]} hat stands beside the lane`;
  lanes.forEach((_, lane) => {
    for (const side of [0, 1]) beside(hat(lane, side), lane, side, spur(side));
  });
  for (const { lane, side, registers } of busy) {
    for (const { slot, holds } of registers) if (holds) beside(slot, lane, side);
  }
  lanes.forEach(({ list }, lane) => {
    for (const slot of list) for (const side of [0, 1]) beside(link(slot, side), lane, side);
  });
  return { lanes, free: numbers(slotCount()).filter((slot) => !placed.has(slot)) };
}
// A lane from end to end: from the left hat, or where its spur leads back to, to the left end; then to the right end.
function listOf(lane, placed) {
  const list = [];
  let slot = hat(lane, 0);
  if (valueOf(slot) === "LY" && link(slot, 1) !== NONE) slot = link(slot, 1);
  for (let n = 0; n < slotCount() && valueOf(slot) !== "LX" && link(slot, 0) !== NONE; n++) slot = link(slot, 0);
  while (slot !== NONE && !placed.has(slot)) {
    placed.add(slot);
    list.push(slot);
    slot = valueOf(slot) === "RX" ? NONE : link(slot, 1);
  }
  return list;
}
// The slots that a task has taken and not yet put into its lane: from D outward.
function chainOf({ side, registers }, placed) {
  const slots = [], { slot: first, holds } = registers[3];
  for (let slot = first; holds && slot !== NONE && !placed.has(slot); slot = link(slot, side)) {
    placed.add(slot);
    slots.push(slot);
  }
  return side ? slots : slots.reverse();
}
// What links lead to from a slot, but for slots that have their place.
function linkedTo(root, placed) {
  const slots = [], queue = [root];
  while (queue.length) {
    const slot = queue.pop();
    if (slot === NONE || placed.has(slot)) continue;
    placed.add(slot);
    slots.push(slot);
    queue.push(link(slot, 0), link(slot, 1));
  }
  return slots;
}
// Such slots in the order of their links toward the lane, which outlast the others.
function outward(slots, side) {
  const depths = new Map();
  const depth = (slot) => {
    if (!slots.includes(slot)) return 0;
    if (!depths.has(slot)) {
      depths.set(slot, 1);
      depths.set(slot, 1 + depth(link(slot, 1 - side)));
    }
    return depths.get(slot);
  };
  return slots.sort((x, y) => (depth(x) - depth(y)) * (side ? 1 : -1) || x - y);
}
