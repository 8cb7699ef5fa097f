// Draws the lanes, and says the same in words.
const escaped = (text) => String(text).replace(/[&<>"]/g, (c) => `&#${c.charCodeAt(0)};`);

// Sizes. Longer lists leave out their middle, more labels than these are counted.
const HEIGHT = 50, FREE_HEIGHT = 26, FREE_WIDTH = 46, MARGIN = 12, LABEL = 15, MOST_LABELS = 4, MOST_SHOWN = 72;
const HAT = "M-13 0h26v-3h-5v-11h-16v11h-5z";
const text = (x, y, words, kind, anchor = "start") =>
  `<text class="${kind}" x="${x}" y="${y}" text-anchor="${anchor}">${escaped(words)}</text>`;
const rect = (kind, x, y, width, height, round) =>
  `<rect class="${kind}" x="${x}" y="${y}" width="${width}" height="${height}" rx="${round}"/>`;
const arrow = (from, y, to) => `<path class="link" d="M${from} ${y}H${to}"/>`;
const badge = (x, y, sign) =>
  `<g class="badge"><circle cx="${x}" cy="${y}" r="8"/>${text(x, y + 4, sign, "sign", "middle")}</g>`;
const ring = (x, y, width, height) => rect("ring", x - 4, y - 4, width + 8, height + 8, 6);
const head = (name, colour) =>
  `<marker id="${name}" viewBox="0 0 8 8" refX="6.5" refY="4" markerWidth="6" markerHeight="6"
    markerUnits="userSpaceOnUse" orient="auto"><path d="M0 0L8 4L0 8z" fill="${colour}"/></marker>`;
const DEFINITIONS = `<defs>${head("head", "#17212b")}${head("softhead", "#51606f")}
  <pattern id="hatch" width="7" height="7" patternUnits="userSpaceOnUse" patternTransform="rotate(45)">
    <rect width="7" height="7" fill="#fff"/><path d="M0 0V7" stroke="#9aa6b2" stroke-width="2"/>
  </pattern></defs>`;

// What the present moment and the tasks have to say about slots and hats: what was written, how compares came out, the
// registers that lead to a slot, and the hats on it.
function notes() {
  const moment = moments[at], wrote = new Set(), signs = new Map(), registers = new Map(), hats = new Map();
  if (!moment.table) for (const [at] of moment.undo || []) wrote.add(place(at).key);
  for (const { key, wanted, same } of looked(moment)) {
    if (wanted !== undefined) signs.set(key, same && signs.get(key) !== "≠" ? "=" : "≠");
  }
  const add = (map, slot, more) => map.set(slot, [...(map.get(slot) || []), more]);
  for (const one of tasks()) {
    for (const { name, slot, holds } of one.registers) {
      if (slot !== NONE) add(registers, slot, { label: `t${one.number}.${name}`, holds });
    }
  }
  for (const lane of numbers(laneCount())) {
    for (const side of [0, 1]) add(hats, hat(lane, side), { side, key: `hat ${hatAt(lane, side)}` });
  }
  return { wrote, signs, registers, hats };
}

// The registers under a slot: those that hold at the left, those that do not at the right.
const columnsOf = (registers = []) => [true, false].map((is) => registers.filter(({ holds }) => holds === is));
function registerMarks(registers, x, y, width) {
  return columnsOf(registers).map((column, i) => {
    if (!column.length) return "";
    const names = column.map(({ label }) => label), middle = x + width * (i ? 0.75 : 0.25), few = MOST_LABELS - 1;
    const shown = names.length > MOST_LABELS ? [...names.slice(0, few), `+${names.length - few}`] : names;
    const labels = shown.map((name, line) => {
      const top = y + 15 + line * LABEL;
      return rect("plate", middle - 19, top, 38, 13, 2) + text(middle, top + 10, name, "", "middle");
    });
    return `<g class="register ${i ? "loose" : "holds"}"><title>${names.join(" ")}</title>`
      + `<path d="M${middle} ${y + 15}V${y + 4}"/>${labels.join("")}</g>`;
  }).join("");
}
function registersHeight(registers) {
  const most = Math.max(...columnsOf(registers).map((column) => Math.min(MOST_LABELS, column.length)));
  return most ? 17 + most * LABEL : 0;
}

function hatMarks(hats, said, x, y, width) {
  return hats.map(({ side, key }) => {
    const middle = side ? x + width - 16 : x + 16, inward = side ? -1 : 1, sign = said.signs.get(key);
    const label = text(middle + inward * (sign ? 38 : 18), y - 5, `${SIDES[side]} hat`, "", side ? "end" : "start");
    const letter = text(middle, y - 6, "LR"[side], "letter", "middle");
    return `<g class="hat ${said.wrote.has(key) ? "wrote" : ""}">`
      + `<path transform="translate(${middle} ${y - 2})" d="${HAT}"/>${letter}`
      + `${hats.length > 1 ? "" : label}${sign ? badge(middle + inward * 25, y - 9, sign) : ""}</g>`;
  }).join("");
}

// The links of a slot: to its neighbours as arrows; to other slots as arrows to their numbers, or in the box.
function linkMarks({ slot, left, right, first, last, room }, x, y, { box, gap, width }) {
  const toLeft = link(slot, 0), toRight = link(slot, 1), end = x + box;
  let marks = "";
  if (toLeft !== NONE && toLeft === left) marks += arrow(x - 5, y + 33, first ? x - 11 : x - gap + 6);
  else if (toLeft !== NONE && first && room) {
    marks += arrow(x - 5, y + 33, x - 22) + text(x - 26, y + 37, `slot ${toLeft}`, "stray", "end");
  } else if (toLeft !== NONE) marks += text(x + 6, y + 44, `L→${toLeft}`, "stray");
  if (toRight !== NONE && toRight === right) {
    marks += arrow(end + 5, y + 19, end + (last ? Math.min(gap, width - end + 4) : gap) - 6);
  } else if (toRight !== NONE && last && width - end > gap + 40) {
    marks += arrow(end + 5, y + 19, end + 22) + text(end + 26, y + 23, `slot ${toRight}`, "stray");
  } else if (toRight !== NONE) marks += text(end - 6, y + 44, `R→${toRight}`, "stray", "end");
  return marks;
}

function slotMarks(cell, x, y, options) {
  const { where, said, box } = options, { slot } = cell, value = valueOf(slot), key = `slot ${slot}`;
  const kind = isBag(value) ? "bag" : { N: "spare", X: "end", Y: "cut" }[value[1]] || "spare";
  const shown = rect("slot", x, y, box, HEIGHT, 3) + text(x + 6, y + 13, slot, "place")
    + text(x + box / 2, y + 30, value, "value", "middle");
  let marks = `<g class="${kind} ${where}" data-slot="${slot}" data-value="${value}">${shown}</g>`;
  marks += linkMarks(cell, x, y, options);
  if (said.wrote.has(key)) marks += ring(x, y, box, HEIGHT);
  if (said.signs.has(key)) marks += badge(x + box - 4, y + 2, said.signs.get(key));
  if (said.hats.has(slot)) marks += hatMarks(said.hats.get(slot), said, x, y - 3, box);
  return marks;
}

// Slots in as many lines as they need, from a column on: the marks, and where they end.
function strip(slots, options, top) {
  const { where, label, said, box, gap, perLine, width, column = 0 } = options;
  let cells = slots.map((slot, i) =>
    ({ slot, left: slots[i - 1], right: slots[i + 1], registers: said.registers.get(slot) }));
  if (cells.length > MOST_SHOWN) {
    const half = MOST_SHOWN / 2, hidden = cells.slice(half, -half);
    const more = { more: hidden.length, registers: hidden.flatMap(({ registers }) => registers || []) };
    cells = [...cells.slice(0, half), more, ...cells.slice(-half)];
  }
  const start = Math.max(0, Math.min(column, perLine - cells.length)), left = MARGIN + start * (box + gap);
  // A short list keeps room for hats and registers at every slot, so that it stands still while they move.
  const roomy = where === "list" && cells.length <= 3 * perLine;
  let y = top, marks = "";
  if (label) {
    const fits = left + 6.4 * label.length < width;
    marks += text(fits ? left : width - MARGIN, y + 13, label, "label", fits ? "start" : "end");
    y += 20;
  }
  for (let from = 0; from < cells.length; from += perLine) {
    const line = cells.slice(from, from + perLine);
    y += roomy || line.some(({ slot }) => said.hats.has(slot)) ? 30 : 10;
    line.forEach((cell, i) => {
      const x = left + i * (box + gap), ends = { first: i === 0, last: i === line.length - 1, room: start > 0 };
      marks += registerMarks(cell.registers, x, y + HEIGHT, box);
      if (!cell.more) marks += slotMarks({ ...cell, ...ends }, x, y, options);
      else {
        marks += `<g class="free">${rect("slot", x, y, box, HEIGHT, 3)}`
          + `${text(x + box / 2, y + 30, `${cell.more} more`, "value", "middle")}</g>`;
      }
    });
    const below = line.map(({ registers }) => registersHeight(registers));
    y += HEIGHT + Math.max(roomy ? 17 + LABEL : 0, ...below) + 8;
  }
  return [marks, y];
}

// The column for slots above or below a list: next to the slot that they lead to, or past the end of the list.
function columnOf(slots, list, side, perLine) {
  if (list.length > MOST_SHOWN) return 0;
  const to = list.indexOf(link(side ? slots[0] : slots[slots.length - 1], 1 - side));
  const column = side ? (to < 0 ? list.length : to + 1) : Math.max(0, to) - slots.length;
  const line = Math.floor(Math.max(0, side ? column - 1 : column) / perLine);
  return Math.max(0, column - line * perLine);
}

// The free slots, small; of many only those that a register leads to or that were written.
function freeStrip(free, { width, said }) {
  const step = FREE_WIDTH + 8, perLine = Math.max(1, Math.floor((width - 8) / step));
  const notable = (slot) => said.registers.has(slot) || said.wrote.has(`slot ${slot}`);
  const shown = free.length <= MOST_SHOWN ? free : free.filter(notable);
  let y = 6, marks = "";
  for (let from = 0; from < shown.length; from += perLine) {
    const line = shown.slice(from, from + perLine);
    line.forEach((slot, i) => {
      const x = 4 + i * step;
      marks += `<g class="free" data-slot="${slot}">${rect("slot", x, y, FREE_WIDTH, FREE_HEIGHT, 3)}`
        + `${text(x + FREE_WIDTH / 2, y + 17, slot, "value", "middle")}</g>`
        + registerMarks(said.registers.get(slot), x - FREE_WIDTH / 4, y + FREE_HEIGHT, FREE_WIDTH);
      if (said.wrote.has(`slot ${slot}`)) marks += ring(x, y, FREE_WIDTH, FREE_HEIGHT);
    });
    y += FREE_HEIGHT + Math.max(...line.map((slot) => registersHeight(said.registers.get(slot)))) + 10;
  }
  return [marks, y];
}

// What has been taller keeps its height, so that the page does not jump.
const tallest = new Map();
function keptHeight(name, height) {
  tallest.set(name, Math.max(height, tallest.get(name) || 0));
  return tallest.get(name);
}
function drawing(name, marks, width, height) {
  const tall = keptHeight(name, height);
  return `<svg viewBox="0 0 ${width} ${tall}" width="${width}" height="${tall}" role="img"
    aria-label="${name}; below it is said in words">${marks}</svg>`;
}

function laneDrawing({ list, chains, beside }, lane, name, options) {
  let marks = lane === 0 ? DEFINITIONS : "", y = 0;
  const draw = (slots, where, label, side) => {
    const column = where === "list" ? 0 : columnOf(slots, list, side, options.perLine);
    const [more, end] = strip(slots, { ...options, where, label, column }, y);
    marks += `<g data-strip="${where}">${more}</g>`;
    y = end;
  };
  for (const { slots, task } of chains) draw(slots, "chain", `Task ${task.number}'s chain: ${task.call}`, task.side);
  y = keptHeight(`above ${name}`, y);
  draw(list, "list");
  for (const { slots, side, why } of beside) draw(slots, "beside", why, side);
  return drawing(name, marks, options.width, y);
}

function tagList(row) {
  const half = MOST_SHOWN / 2;
  if (row.length <= MOST_SHOWN) return row.join(" ");
  return `${row.slice(0, half).join(" ")} … ${row.length - MOST_SHOWN} more … ${row.slice(-half).join(" ")}`;
}
// Numbers in order, as "2, 5 to 7".
function ranges(numbers) {
  const found = [];
  for (const number of numbers) {
    const last = found[found.length - 1];
    if (last && last[1] === number - 1) last[1] = number;
    else found.push([number, number]);
  }
  return found.map(([from, to]) => from === to ? from : `${from}${to - from > 1 ? " to " : ", "}${to}`).join(", ");
}

// The lanes and the free slots, so wide; and the same in words.
function picture(width) {
  if (!words.length) return { html: '<p class="quiet">No lane has been started yet.</p>', said: ["No lane yet."] };
  const narrow = width < 480, box = narrow ? 80 : 92, gap = narrow ? 20 : 30;
  const said = notes(), { lanes, free } = places();
  const perLine = Math.max(1, Math.floor((width - 2 * MARGIN + gap) / (box + gap)));
  const options = { width, box, gap, perLine, said };
  const name = (lane) => lanes.length > 1 ? `Lane ${lane}` : "The lane";
  const drawn = lanes.map((lane, k) => {
    const row = rowsOf[at][k], tags = row.length ? `<span class="tags">${tagList(row)}</span>` : "no bag";
    return `<div data-lane="${k}"><h3>${name(k)}</h3>${laneDrawing(lane, k, name(k), options)}`
      + `<p class="row">Row: ${tags}</p></div>`;
  });
  const [marks, height] = freeStrip(free, options), listed = free.length > MOST_SHOWN ? ` (${ranges(free)})` : "";
  drawn.push(`<div data-free="${free.join(" ")}"><h3>Free slots: ${free.length}${listed}</h3>`
    + `${drawing("Free slots", marks, width, height)}</div>`);

  const slotSaid = (slot) => {
    const value = valueOf(slot), hats = (said.hats.get(slot) || []).map(({ side }) => `, ${SIDES[side]} hat`);
    return `slot ${slot} ${isBag(value) ? "bag " : ""}${value}${hats.join("")}`;
  };
  const listSaid = (slots) => slots.map(slotSaid).join("; ");
  const inWords = lanes.flatMap(({ list, chains, beside }, k) => [
    `${name(k)}, from the left: ${listSaid(list)}.`,
    ...chains.map(({ slots, task }) => `Task ${task.number}'s chain: ${listSaid(slots)}.`),
    ...beside.map(({ slots, why }) => `${why}: ${listSaid(slots)}.`),
    `Its row: ${rowsOf[at][k].join(" ") || "no bag"}.`,
  ]);
  inWords.push(free.length ? `Free slots: ${ranges(free)}.` : "No slot is free.");
  return { html: drawn.join(""), said: inWords };
}
