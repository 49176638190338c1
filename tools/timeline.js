"use strict";
// Draws the executions of the block of data on a canvas, and describes the one that is pointed at. Texts of the record get into the
// page by `textContent` and `fillText` alone, so that none is ever markup.

// The endings in the order of the legend. Where bars are narrower than the screen can show, one of more weight stands before others.
const WEIGHTS = { succeeded: 0, failed: 4, aborted: 2, skipped: 1, unfinished: 3 };
const ENDINGS = Object.keys(WEIGHTS);
const WEIGHT_OF_FOUND = 10;
const LETTERS = { s: "succeeded", f: "failed", a: "aborted", k: "skipped", u: "unfinished" };
const TYPES = { C: "container", T: "test", B: "container and test" };
const UNITS = [[1e9, "s"], [1e6, "ms"], [1e3, "\u00b5s"], [1, "ns"]];

// Sizes in pixels of the screen.
const ROW = 20;
const AXIS = 26;
const MARGIN = 8;
const LANE_GAP = 10;
const LEAST_WIDTH = 2;
const LEAST_FRAME = 6;
const TICK = 120;
const NEAR = 3;
const SAMPLE = "abcdefghijklmnopqrstuvwxyz (1)";
const LEAST_DRAG = 4;

const MOST_BESIDE = 20;
const MOST_IN_TIP = 600;
const MOST_IN_DETAILS = 100000;
const ZOOM = 1.5;
const LEAST_SPAN = 1e-3;

const element = (id) => document.getElementById(id);
const data = JSON.parse(element("data").textContent);
const LABELS = data.lanes.some((lane) => lane.thread) ? 250 : 84;
const canvas = element("canvas");
const context = canvas.getContext("2d");
const chart = element("chart");

// What each number of a column is, which has the differences.
function sums(column) {
  let sum = 0;
  return Float64Array.from(column, (difference) => { sum += difference; return sum; });
}

// The executions are numbers, in the order of their begins; what belongs to each stands in columns.
const columns = data.executions;
const count = columns.ending.length;
const descriptors = sums(columns.descriptor);
const firsts = sums(columns.first);
const starts = sums(columns.begin);
const begins = starts.map((it, number) => it + (columns.parts[number] || [0, 0])[0]);
const ends = starts.map((it, number) => it + columns.length[number] + (columns.parts[number] || [0, 0])[1]);
const rowNumbers = sums(columns.row);
const endings = Array.from(columns.ending, (letter) => LETTERS[letter]);
const heights = new Float64Array(count).fill(1);
for (const [number, height] of Object.entries(columns.height)) heights[number] = height;
const isFound = new Uint8Array(count).fill(1);
const numbers = Array.from(endings, (_, number) => number);
const rows = [];
const state = {
  left: 0, right: data.end, width: 0, height: 0,
  selected: null, sharers: [], pointed: null, gap: null, ending: "", text: "", isAsked: false, colors: {},
};

// Of a descriptor.
const segmentOf = (descriptor) => data.descriptors.segment[descriptor];
const locksOf = (descriptor) => data.descriptors.locks[descriptor] || [];

function idOf(descriptor) {
  const back = data.descriptors.above[descriptor];
  return back ? `${idOf(descriptor - back)}/${segmentOf(descriptor)}` : segmentOf(descriptor);
}

function nameOf(descriptor) {
  const segment = segmentOf(descriptor);
  return data.descriptors.name[descriptor] === 0 ? segment.slice(segment.lastIndexOf(":") + 1, -1) : data.descriptors.name[descriptor];
}

// Of an execution.
const typeOf = (it) => data.descriptors.type[descriptors[it]];
const labelOf = (it) => nameOf(descriptors[it]) || idOf(descriptors[it]);
const rowOf = (it) => rows[rowNumbers[it]];

// Rows: each with its place, and its executions, none of which begins before the one before it ends.
function fillRows() {
  data.lanes.forEach((lane, number) => {
    for (let row = lane.row; row < lane.row + lane.rows; row += 1) {
      rows.push({ top: AXIS + number * LANE_GAP + row * ROW, lane, items: [], highest: 1 });
    }
  });
  for (const it of numbers) {
    rowOf(it).items.push(it);
    rowOf(it).highest = Math.max(rowOf(it).highest, heights[it]);
  }
}

const isFrame = (it) => typeOf(it) === "C" || heights[it] > 1;
const scale = () => (state.width - LABELS - MARGIN) / (state.right - state.left);
const xOf = (place) => LABELS + (place - state.left) * scale();
const placeOf = (x) => state.left + (x - LABELS) / scale();
const wholeHeight = () => (rows.length ? rows[rows.length - 1].top + ROW : AXIS) + LANE_GAP;

// The number of the first execution of a row that ends at this place or later.
function firstFrom(items, place) {
  let low = 0;
  let high = items.length;
  while (low < high) {
    const middle = (low + high) >> 1;
    if (ends[items[middle]] < place) low = middle + 1;
    else high = middle;
  }
  return low;
}

// Where an execution is drawn: its left edge and its width, in whole pixels.
function edges(it) {
  const left = Math.round(Math.max(xOf(begins[it]), LABELS - 20));
  const right = Math.round(Math.min(xOf(ends[it]), state.width + 20));
  return [left, Math.max(right - left, LEAST_WIDTH)];
}

// Texts: letters that can't be seen, or that would turn the direction of others, are shown by their numbers.

function visible(text) {
  return text.replace(/[\u0000-\u0008\u000b-\u001f\u007f-\u009f\u200e\u200f\u2028-\u202e\u2066-\u2069\ufeff]/g, (letter) => {
    const code = letter.charCodeAt(0);
    return code < 0x20 ? String.fromCharCode(0x2400 + code) : `[U+${code.toString(16).toUpperCase().padStart(4, "0")}]`;
  });
}

function cut(text, most) {
  return text.length > most ? `${text.slice(0, most)}\u2026 (${text.length.toLocaleString("en")} letters)` : text;
}

function counted(number, noun) {
  return `${number.toLocaleString("en")} ${noun}${String(number) === "1" ? "" : "s"}`;
}

function lengthText(length) {
  if (!data.times) return counted(length, "position");
  if (!data.unit) return counted(length, "stamp");
  const nanoseconds = Number(length) * data.unit;
  const [size, unit] = UNITS.find(([least]) => nanoseconds >= least) || UNITS[UNITS.length - 1];
  return `${(nanoseconds / size).toLocaleString("en", { maximumFractionDigits: 3 })} ${unit}`;
}

// Stamps less the least one.
const startOf = (it) => BigInt(columns.start ? columns.start[it] : starts[it]);
const stopOf = (it) => BigInt(columns.stop ? columns.stop[it] : starts[it] + columns.length[it]);
const stampText = (stamp) => String(BigInt(data.origin) + stamp);

function durationText(it) {
  if (endings[it] === "unfinished") return "it never finished";
  return lengthText(data.times ? stopOf(it) - startOf(it) : columns.events[it]);
}

function workerText(it) {
  const { lane } = rowOf(it);
  const other = columns.worker_of_end[it];
  const workers = other === undefined ? String(lane.worker) : `${lane.worker}, and ${other} finished it`;
  return data.records.length > 1 ? `${workers}, of ${data.records[lane.record]}` : workers;
}

const laneText = (lane) => `${data.records.length > 1 ? `${lane.record + 1}: ` : ""}worker ${lane.worker}${lane.thread && `, ${lane.thread}`}`;

// The class and the method of a test, as its id has them; the last segment of another id.
function sourceText(id) {
  const segments = id.split("/").map((it) => it.slice(1, -1).split(":"));
  const classes = segments.filter(([tag]) => tag === "class" || tag === "nested-class").map(([, value]) => value.split(".").pop());
  const method = segments.find(([tag]) => ["method", "test-template", "test-factory"].includes(tag));
  if (!classes.length) return segments[segments.length - 1].join(":");
  const inner = segments[segments.length - 1][1].startsWith("#") ? ` ${segments[segments.length - 1][1]}` : "";
  return classes.join(".") + (method ? `.${method[1].split("(")[0]}${inner}` : "");
}

const isTest = (it) => typeOf(it) !== "C" && endings[it] !== "skipped";

// The tests that ran at some time of a test, each with its worker.
function besideText(it) {
  const found = numbers.filter((other) => other !== it && begins[other] < ends[it] && begins[it] < ends[other] && isTest(other));
  const lines = found.slice(0, MOST_BESIDE).map((other) => `${laneText(rowOf(other).lane)}: ${labelOf(other)}`);
  if (found.length > MOST_BESIDE) lines.push(`and ${counted(found.length - MOST_BESIDE, "other")}`);
  return lines.join("\n") || "none";
}

// Of a lock, as `W db`, its name.
const lockName = (lock) => lock.slice(2);

// The others that hold a lock of an execution.
function sharersOf(it) {
  const names = new Set(locksOf(descriptors[it]).map(lockName));
  return numbers.filter((other) => other !== it && locksOf(descriptors[other]).some((lock) => names.has(lockName(lock))));
}

// What is said of an execution that was chosen, and not of each that is pointed at.
function furtherTexts(it) {
  const found = isTest(it) ? [["beside it", besideText(it)]] : [];
  const entries = (columns.entries[it] || []).map((pairs) => pairs.map((text, at) => (at % 2 ? `= ${text}` : text)).join(" "));
  if (entries.length) found.push(["entries", entries.join("\n")]);
  return found;
}

// Terms and texts that describe an execution.
function description(it) {
  const [descriptor, ending, message, first] = [descriptors[it], endings[it], columns.message[it], firsts[it]];
  const isFinished = ending !== "unfinished";
  const locks = locksOf(descriptor);
  const rowsOfIt = [["name", nameOf(descriptor)], ["id", idOf(descriptor)], ["ending", ending]];
  if (message !== undefined) rowsOfIt.push([ending === "skipped" ? "reason" : "message", message]);
  rowsOfIt.push(["duration", durationText(it)]);
  rowsOfIt.push(["worker", workerText(it)]);
  const start = stampText(startOf(it));
  rowsOfIt.push(["stamps", isFinished ? `${start} to ${stampText(stopOf(it))}` : `from ${start}`]);
  rowsOfIt.push(["events", isFinished ? `${first} to ${first + columns.events[it]}` : `from ${first}`]);
  rowsOfIt.push(["type", TYPES[typeOf(it)] + (data.descriptors.dynamic.includes(descriptor) ? ", registered during the run" : "")]);
  if (locks.length) rowsOfIt.push(["locks", locks.map((lock) => `${lockName(lock)} (${lock[0] === "R" ? "read" : "write"})`).join("\n")]);
  return rowsOfIt;
}

function describe(place, it, most, more = []) {
  const list = document.createElement("dl");
  for (const [term, text] of [...description(it), ...more]) {
    list.append(Object.assign(document.createElement("dt"), { textContent: term }));
    list.append(Object.assign(document.createElement("dd"), { textContent: visible(cut(text, most)) }));
  }
  place.replaceChildren(list);
}

// Drawing.

function ask() {
  if (!state.isAsked) requestAnimationFrame(draw);
  state.isAsked = true;
}

function readColors() {
  const style = getComputedStyle(document.documentElement);
  for (const name of [...ENDINGS, "ground", "lane", "line", "text", "faint", "accent", "on-bar"]) {
    state.colors[name] = style.getPropertyValue(`--${name}`).trim();
  }
  state.font = `12px ${getComputedStyle(document.body).fontFamily}`;
  context.font = state.font;
  state.letter = context.measureText(SAMPLE).width / SAMPLE.length;
}

function draw() {
  state.isAsked = false;
  const ratio = window.devicePixelRatio || 1;
  context.setTransform(ratio, 0, 0, ratio, 0, 0);
  context.fillStyle = state.colors.ground;
  context.fillRect(0, 0, state.width, state.height);
  context.font = state.font;
  context.textBaseline = "middle";
  drawLanes();
  drawAxis();
  context.save();
  context.beginPath();
  context.rect(LABELS, AXIS, state.width - LABELS, state.height - AXIS);
  context.clip();
  const top = chart.scrollTop;
  drawGap(top);
  for (const row of rows) {
    if (row.top - top < state.height && row.top - top + row.highest * ROW > AXIS) drawRow(row, row.top - top);
  }
  for (const it of state.sharers) outline(it, state.colors.accent, 1);
  if (state.pointed !== null) outline(state.pointed, state.colors.text, 1);
  if (state.selected !== null) outline(state.selected, state.colors.accent, 2);
  context.restore();
  document.body.dataset.drawn = "yes";
}

function drawLanes() {
  for (const lane of data.lanes) {
    const top = rows[lane.row].top - chart.scrollTop;
    const bottom = top + lane.rows * ROW;
    context.fillStyle = state.colors.lane;
    context.fillRect(0, top - LANE_GAP / 2, state.width, bottom - top + LANE_GAP);
    context.fillStyle = state.colors.line;
    context.fillRect(0, bottom + LANE_GAP / 2 - 1, state.width, 1);
    context.fillStyle = state.colors.text;
    context.textAlign = "left";
    context.fillText(laneText(lane), 14, Math.min(Math.max(top, AXIS) + ROW / 2, bottom - ROW / 2), LABELS - 20);
  }
}

// The least of 1, 2 and 5 times a power of ten that is not below this.
function roundStep(least) {
  const power = 10 ** Math.floor(Math.log10(least));
  return power * [1, 2, 5, 10].find((factor) => factor * power >= least * 0.999999);
}

function tickText(place, step) {
  if (!data.times || !data.unit) {
    return place.toLocaleString("en", { maximumFractionDigits: Math.max(0, Math.ceil(-Math.log10(step))) });
  }
  const [size, unit] = UNITS.find(([least]) => state.right * data.unit >= least) || UNITS[UNITS.length - 1];
  const digits = Math.min(20, Math.max(0, Math.ceil(-Math.log10((step * data.unit) / size) - 1e-9)));
  return `${((place * data.unit) / size).toLocaleString("en", { minimumFractionDigits: digits, maximumFractionDigits: digits })} ${unit}`;
}

function drawAxis() {
  context.fillStyle = state.colors.ground;
  context.fillRect(0, 0, state.width, AXIS);
  const step = roundStep((state.right - state.left) / Math.max(1, (state.width - LABELS) / TICK));
  context.textAlign = "left";
  for (let number = Math.ceil(state.left / step); number * step <= state.right; number += 1) {
    const x = Math.round(xOf(number * step));
    context.fillStyle = state.colors.line;
    context.fillRect(x, 0, 1, state.height);
    context.fillStyle = state.colors.faint;
    context.fillText(tickText(number * step, step), x + 4, AXIS / 2);
  }
  context.fillStyle = state.colors.line;
  context.fillRect(0, AXIS - 1, state.width, 1);
}

const weightOf = (it) => WEIGHTS[endings[it]] + (isFound[it] ? WEIGHT_OF_FOUND : 0);

// Draws a row: last its narrow bars, of which the one of most weight at each place is drawn, so that wide bars beside them hide none.
function drawRow(row, top) {
  const narrow = [];
  let edge = null;
  const last = placeOf(state.width);
  for (let place = firstFrom(row.items, placeOf(LABELS - 20)); place < row.items.length; place += 1) {
    const it = row.items[place];
    if (begins[it] > last) break;
    const [left, width] = edges(it);
    if (width <= LEAST_WIDTH) {
      if (left !== edge) narrow.push(it);
      else if (weightOf(it) > weightOf(narrow[narrow.length - 1])) narrow[narrow.length - 1] = it;
      edge = left;
    } else if (isFrame(it) && width >= LEAST_FRAME) {
      drawFrame(it, top, left, width);
    } else {
      drawBar(it, top);
    }
  }
  for (const it of narrow.sort((one, other) => weightOf(one) - weightOf(other))) drawBar(it, top);
}

function drawBar(it, top) {
  const [left, width] = edges(it);
  context.globalAlpha = isFound[it] ? 1 : 0.2;
  context.fillStyle = state.colors[endings[it]];
  context.fillRect(left, top + 1, width - (width > 4 ? 1 : 0), ROW - 4);
  if (endings[it] === "failed" && width > 4) {
    context.fillStyle = state.colors["on-bar"];
    context.fillRect(left, top + ROW - 5, width - 1, 2);
  }
  if (endings[it] === "unfinished" && width > 4) drawDashes(left, top, width);
  label(it, left, top - 1, width, state.colors["on-bar"]);
  context.globalAlpha = 1;
}

// A bar whose end no event says has dashes along its foot.
function drawDashes(left, top, width) {
  context.fillStyle = state.colors["on-bar"];
  for (let x = left + 2; x < left + width - 5; x += 8) context.fillRect(x, top + ROW - 5, 4, 2);
}

function drawFrame(it, top, left, width) {
  const height = heights[it] * ROW;
  context.fillStyle = state.colors[endings[it]];
  context.globalAlpha = isFound[it] ? 0.16 : 0.04;
  context.fillRect(left, top + 1, width - 1, height - 2);
  context.globalAlpha = isFound[it] ? 1 : 0.2;
  context.fillRect(left, top + 1, width - 1, 3);
  context.strokeStyle = state.colors[endings[it]];
  context.lineWidth = 1;
  context.strokeRect(left + 0.5, top + 1.5, width - 2, height - 3);
  if (endings[it] === "unfinished") drawDashes(left, top, width);
  label(it, left, top + 1, width, state.colors.text);
  context.globalAlpha = 1;
}

// Writes as many letters of a name as have room.
function label(it, left, top, width, color) {
  const from = Math.max(left, LABELS) + 4;
  const pixels = left + width - from - 4;
  const room = Math.floor(pixels / state.letter);
  if (room < 4) return;
  const name = nameOf(descriptors[it]);
  const letters = Array.from(visible(name.slice(0, 2 * room)));
  const isCut = letters.length > room || name.length > 2 * room;
  context.fillStyle = color;
  context.textAlign = "left";
  context.fillText(isCut ? `${letters.slice(0, room - 1).join("")}\u2026` : letters.join(""), from, top + ROW / 2, pixels);
}

function outline(it, color, width) {
  const [left, wide] = edges(it);
  const top = rowOf(it).top - chart.scrollTop;
  context.strokeStyle = color;
  context.lineWidth = width;
  context.strokeRect(left - 0.5, top + 0.5, wide + 1, (isFrame(it) ? heights[it] : 1) * ROW - 1);
}

// Marks the gap before an execution that was chosen in the list.
function drawGap(top) {
  if (!state.gap) return;
  const { it, length } = state.gap;
  const { lane } = rowOf(it);
  const left = Math.max(xOf(begins[it] - Number(length)), LABELS);
  context.globalAlpha = 0.25;
  context.fillStyle = state.colors.accent;
  context.fillRect(left, rows[lane.row].top - top, Math.max(xOf(begins[it]) - left, 1), lane.rows * ROW);
  context.globalAlpha = 1;
}

// What is pointed at: the bar at this place of the canvas, or else the innermost frame.

// How far in front a bar is drawn: wide ones stand behind all narrow ones, and these in the order of their weights.
const layerOf = (it, width) => (width <= LEAST_WIDTH ? 1 + weightOf(it) : 0);

// The nearest bar of a row, and where several are as near the one in front.
function barAt(row, x) {
  const last = placeOf(x + NEAR);
  let best = null;
  for (let place = firstFrom(row.items, placeOf(x - NEAR)); place < row.items.length; place += 1) {
    const it = row.items[place];
    if (begins[it] > last) break;
    const [left, width] = edges(it);
    const distance = Math.max(left - x, x - left - width, 0);
    const layer = layerOf(it, width);
    if (distance > NEAR) continue;
    if (!best || distance < best.distance || (distance === best.distance && layer > best.layer)) best = { it, distance, layer };
  }
  return best ? best.it : null;
}

function executionAt(x, y) {
  const height = y + chart.scrollTop;
  if (x < LABELS || y < AXIS) return null;
  const number = rows.findIndex((row) => row.top <= height && height < row.top + ROW);
  if (number < 0) return null;
  const bar = barAt(rows[number], x);
  if (bar !== null) return bar;
  for (let row = number - 1; row >= rows[number].lane.row; row -= 1) {
    const frame = barAt(rows[row], x);
    if (frame !== null && row + heights[frame] > number) return frame;
  }
  return null;
}

// Moving.

function show(left, right) {
  const span = Math.min(Math.max(right - left, LEAST_SPAN), data.end);
  state.left = Math.min(Math.max(left + (right - left - span) / 2, 0), data.end - span);
  state.right = state.left + span;
  ask();
}

function zoom(factor, x = (state.width + LABELS) / 2) {
  const place = placeOf(x);
  show(place - (place - state.left) / factor, place + (state.right - place) / factor);
}

function pan(pixels) {
  const by = pixels / scale();
  const left = Math.min(Math.max(state.left + by, 0), data.end - (state.right - state.left));
  show(left, left + state.right - state.left);
}

function point(it, x, y) {
  if (it !== state.pointed) ask();
  state.pointed = it;
  const tip = element("tip");
  tip.hidden = it === null;
  if (it === null) return;
  describe(tip, it, MOST_IN_TIP);
  const box = tip.getBoundingClientRect();
  tip.style.left = `${Math.max(4, Math.min(x + 14, window.innerWidth - box.width - 4))}px`;
  tip.style.top = `${Math.max(4, y + 18 + box.height > window.innerHeight ? y - box.height - 10 : y + 18)}px`;
}

function select(it) {
  state.selected = it;
  state.sharers = it === null ? [] : sharersOf(it);
  state.gap = null;
  if (it !== null) describe(element("details"), it, MOST_IN_DETAILS, furtherTexts(it));
  else element("details").replaceChildren(help);
  ask();
}

// Selects an execution and brings it into view, closer where it would be too narrow to see.
function goTo(it) {
  select(it);
  const [begin, end] = [begins[it], ends[it]];
  const length = end - begin;
  const middle = (begin + end) / 2;
  let span = state.right - state.left;
  if (length * scale() < 2 * LEAST_WIDTH) span = Math.max(length * 20, span / 50);
  if (length > span) span = length * 1.1;
  if (span !== state.right - state.left || begin < state.left || end > state.right) show(middle - span / 2, middle + span / 2);
  const { top } = rowOf(it);
  if (top < chart.scrollTop + AXIS || top + ROW > chart.scrollTop + state.height) chart.scrollTop = top - state.height / 2;
}

// Searching.

function find() {
  const text = state.text.toLowerCase();
  const isFoundDescriptor = data.descriptors.segment.map(
    (_, it) => [idOf(it), nameOf(it), ...locksOf(it).map(lockName)].some((part) => part.toLowerCase().includes(text)),
  );
  for (const it of numbers) isFound[it] = isFoundDescriptor[descriptors[it]] && (!state.ending || endings[it] === state.ending);
  const found = isFound.reduce((sum, it) => sum + it, 0);
  element("found").textContent = state.text || state.ending ? `${found.toLocaleString("en")} found` : "";
  ask();
}

// Goes to the next or the previous of those that were found, in the order of their begins.
function step(by, isWanted = () => true) {
  const among = numbers.filter((it) => isFound[it] && isWanted(it));
  if (!among.length) return;
  const at = among.indexOf(state.selected);
  goTo(among[at < 0 ? (by > 0 ? 0 : among.length - 1) : (at + by + among.length) % among.length]);
}

// Goes to the execution of the next or previous row that is nearest.
function stepRow(by) {
  const it = state.selected;
  if (it === null) {
    step(1);
    return;
  }
  for (let row = rowNumbers[it] + by; row >= 0 && row < rows.length; row += by) {
    const items = rows[row].items;
    if (items.length) {
      goTo(items[Math.min(firstFrom(items, begins[it]), items.length - 1)]);
      return;
    }
  }
}

// What stands round the picture.

function button(parent, act, ...parts) {
  const made = Object.assign(document.createElement("button"), { type: "button" });
  made.append(...parts.map(([name, text]) => Object.assign(document.createElement("span"), { className: name, textContent: text })));
  made.addEventListener("click", act);
  parent.append(made);
  return made;
}

function fillLegend() {
  for (const ending of ENDINGS) {
    const found = endings.filter((it) => it === ending).length;
    const made = button(element("legend"), () => {
      state.ending = state.ending === ending ? "" : ending;
      for (const it of element("legend").children) it.setAttribute("aria-pressed", String(it.dataset.ending === state.ending));
      find();
    }, [`swatch ${ending}`, ""], ["", `${ending} ${found.toLocaleString("en")}`]);
    made.dataset.ending = ending;
    made.setAttribute("aria-pressed", "false");
  }
}

function fillList(list, listed, act) {
  list.replaceChildren();
  for (const [it, length] of listed) {
    const [name, id] = [nameOf(descriptors[it]), idOf(descriptors[it])];
    const made = document.createElement("li");
    const parts = [["length", lengthText(BigInt(length))], [`swatch ${endings[it]}`, ""], ["name", visible(cut(name, MOST_IN_TIP))]];
    parts.push(["source", visible(cut(sourceText(id), MOST_IN_TIP))]);
    button(made, () => act(it, length), ...parts).title = visible(cut(id, MOST_IN_TIP));
    list.append(made);
  }
  if (!listed.length) list.append(Object.assign(document.createElement("li"), { textContent: "none" }));
}

function fillLists() {
  fillList(element("slowest"), data.slowest, goTo);
  fillList(element("gaps"), data.gaps, (it, length) => {
    goTo(it);
    const gap = Number(length);
    if (begins[it] - gap < state.left) show(begins[it] - gap * 1.2, Math.max(ends[it], begins[it] + gap * 0.5));
    state.gap = { it, length };
  });
}

function fillHeader() {
  const tests = numbers.filter((it) => typeOf(it) !== "C");
  const parts = [counted(count, "execution"), counted(data.lanes.length, "worker"), counted(data.events, "event")];
  const results = `${counted(tests.length, "test")}, ${tests.filter((it) => endings[it] === "failed").length.toLocaleString("en")} failed`;
  const records = data.records.length > 1 ? `; ${data.records.map((name, number) => `${number + 1}: ${name}`).join(", ")}` : "";
  element("summary").textContent =
    `${results}; ${parts.join(", ")}; ${counted(data.not_run, "descriptor")} without an execution${visible(cut(records, MOST_IN_TIP))}`;
  const cuts = data.cuts.map((cut, number) => cut && `${data.records[number] || "The record"} is ${cut}`).filter((it) => it);
  element("cut").hidden = !cuts.length;
  element("cut").textContent = visible(`${cuts.join("; ")}: what stands before that is drawn.`);
  element("note").hidden = data.times;
  element("note").textContent =
    "Positions in the record stand for stamps: the stamps are no times, since all are equal, or one is below an earlier one of its worker "
    + "or of its execution. A length is a number of positions.";
}

// Events of the browser.

function resize() {
  const ratio = window.devicePixelRatio || 1;
  state.width = chart.clientWidth;
  state.height = chart.clientHeight;
  canvas.width = Math.round(state.width * ratio);
  canvas.height = Math.round(state.height * ratio);
  canvas.style.width = `${state.width}px`;
  canvas.style.height = `${state.height}px`;
  element("spacer").style.height = `${Math.max(0, wholeHeight() - state.height)}px`;
  draw();
}

function turnWheel(event) {
  const isSideways = event.shiftKey || Math.abs(event.deltaX) > Math.abs(event.deltaY);
  if (event.ctrlKey || event.metaKey || (!isSideways && wholeHeight() <= state.height)) {
    zoom(1.002 ** -event.deltaY, event.clientX - canvas.getBoundingClientRect().left);
  } else if (isSideways) {
    pan(event.deltaX || event.deltaY);
  } else {
    return;
  }
  point(null);
  event.preventDefault();
}

let drag = null;

function movePointer(event) {
  const box = canvas.getBoundingClientRect();
  if (drag) {
    pan(drag.x - event.clientX);
    chart.scrollTop += drag.y - event.clientY;
    drag = { x: event.clientX, y: event.clientY, moved: drag.moved + Math.abs(drag.x - event.clientX) + Math.abs(drag.y - event.clientY) };
  } else {
    point(executionAt(event.clientX - box.left, event.clientY - box.top), event.clientX, event.clientY);
  }
}

function liftPointer(event) {
  const box = canvas.getBoundingClientRect();
  if (drag && drag.moved < LEAST_DRAG) select(executionAt(event.clientX - box.left, event.clientY - box.top));
  drag = null;
}

const KEYS = {
  ArrowRight: () => step(1, inLane),
  ArrowLeft: () => step(-1, inLane),
  ArrowDown: () => stepRow(1),
  ArrowUp: () => stepRow(-1),
  "+": () => zoom(ZOOM),
  "=": () => zoom(ZOOM),
  "-": () => zoom(1 / ZOOM),
  0: () => show(0, data.end),
  Home: () => show(0, state.right - state.left),
  End: () => show(data.end - state.right + state.left, data.end),
  Escape: () => select(null),
};

const inLane = (it) => state.selected === null || rowOf(it).lane === rowOf(state.selected).lane;

function pressKey(event) {
  const act = KEYS[event.key];
  if (!act || event.ctrlKey || event.metaKey || event.altKey) return;
  point(null);
  act();
  event.preventDefault();
}

function listen() {
  new ResizeObserver(resize).observe(chart);
  window.matchMedia("(prefers-color-scheme: dark)").addEventListener("change", () => { readColors(); ask(); });
  chart.addEventListener("scroll", () => { point(null); ask(); });
  chart.addEventListener("wheel", turnWheel, { passive: false });
  canvas.addEventListener("pointerdown", (event) => {
    canvas.setPointerCapture(event.pointerId);
    drag = { x: event.clientX, y: event.clientY, moved: 0 };
  });
  canvas.addEventListener("pointermove", movePointer);
  canvas.addEventListener("pointerup", liftPointer);
  canvas.addEventListener("pointercancel", () => { drag = null; });
  canvas.addEventListener("pointerleave", () => point(null));
  canvas.addEventListener("keydown", pressKey);
  element("search").addEventListener("input", (event) => { state.text = event.target.value; find(); });
  element("search").addEventListener("keydown", (event) => { if (event.key === "Enter") step(event.shiftKey ? -1 : 1); });
  element("previous").addEventListener("click", () => step(-1));
  element("next").addEventListener("click", () => step(1));
  element("closer").addEventListener("click", () => zoom(ZOOM));
  element("farther").addEventListener("click", () => zoom(1 / ZOOM));
  element("whole").addEventListener("click", () => show(0, data.end));
}

const help = element("help");
fillRows();
readColors();
fillHeader();
fillLegend();
fillLists();
listen();
resize();
