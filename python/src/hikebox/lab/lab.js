"use strict";

// What is on the page: the story, what was changed of its numbers, the log whose requests are played, if any, and the two
// sides with a policy and a limit each.
const state = { story: "quota", storm: {}, log: null, sides: [{ text: "", limit: "", limited: false }, { text: "", limit: "", limited: false }], along: "rate" };
const page = crypto.randomUUID();
let turns = 0;  // (how many storms and sweeps were asked for: an earlier one may be handled later)
let known = { stories: {}, ranges: {}, cookbook: [], along: {} };

// Name, label, and the least and the most of the slider; a time is in milliseconds. `part` is one of an outage, a
// brown-out, a surge or the clients beside, whose second part is their policy.
const CONTROLS = [
  { name: "rate", label: "Requests per second", least: 1, most: 20000 },
  { name: "capacity", label: "Capacity of the peer, calls per second", least: 1, most: 20000 },
  { name: "outage", part: 0, label: "Outage from, ms", step: 500, most: 120000 },
  { name: "outage", part: 1, label: "Outage to, ms", step: 500, most: 120000 },
  { name: "slow", part: 0, label: "Brown-out from, ms", step: 500, most: 120000 },
  { name: "slow", part: 1, label: "Brown-out to, ms", step: 500, most: 120000 },
  { name: "slow", part: 2, label: "Capacity in the brown-out, %", least: 1, step: 1, most: 100, range: [1, 100] },
  { name: "rates", part: 0, label: "Surge from, ms", step: 500, most: 120000 },
  { name: "rates", part: 1, label: "Surge to, ms", step: 500, most: 120000 },
  { name: "rates", part: 2, label: "Requests per second in the surge", least: 0, most: 20000, range: [0, 1000000] },
  { name: "patience", label: "Patience of the clients, ms", least: 1, most: 60000 },
  { name: "queue", label: "Queue of the peer, calls", least: 0, most: 100000 },
  { name: "replicas", label: "Replicas of the peer, each with this capacity and queue", least: 1, step: 1, most: 4 },
  { name: "down", label: "Replicas down in the outage", least: 1, step: 1, most: 4 },
  { name: "together", label: "Requests at one moment", least: 1, most: 20000 },
  { name: "seconds", label: "Requests come for, s", least: 1, most: 600 },
  { name: "window", label: "Window of the picture, ms", least: 1, most: 60000 },
  { name: "until", label: "End of the storm, ms", least: 0, step: 1000, most: 600000 },
  { name: "calls", label: "Cut after this many calls", least: 1, most: 16777216 },
  { name: "words", label: "Seed of the random words", least: 0, step: 1, most: 100 },
  { name: "beside", part: 0, label: "Share of the requests that are theirs, %", least: 0, step: 1, most: 99, range: [0, 99] },
];
const PARTS = { outage: 2, slow: 3, rates: 3, beside: 2 };
const HOUR = 3600000;
// What there is of a brown-out or a surge where there is none.
const NONE = { slow: [0, 0, 100], rates: [0, 0, 2400] };
// How requests come by rates; the requests of a log come in spans, and one at a time.
const BY_RATES = ["rate", "rates", "together"];
// The spans of a link.
const SPANS = /^\d{1,7}-\d{1,7}-\d{1,7}(_\d{1,7}-\d{1,7}-\d{1,7})+$/;
const SIDES = ["a", "b"];
const KINDS = { command: "command line", python: "Python", rust: "Rust", json: "JSON of the policy" };
// From this width on a picture has its loads, and not its verdicts alone.
const WIDE = 600;

const byId = (id) => document.getElementById(id);
const idOf = (control) => control.name + (control.part === undefined ? "" : control.part);
const say = (place, said) => { if (place.textContent !== said) place.textContent = said; };

async function ask(name, asked, signal) {
  const isFile = asked instanceof Blob, type = isFile ? "application/octet-stream" : "application/json";
  const answer = await fetch(name, {
    method: "POST", headers: { "Content-Type": type }, body: isFile ? asked : JSON.stringify(asked), signal,
  }).catch((error) => { throw error.name === "AbortError" ? error : new Error("hikebox lab does not answer. Is it still running?"); });
  if (!answer.ok) throw new Error(answer.status === 403 ? "this page is of another run of hikebox lab" : await answer.text());
  return answer.json();
}

function later(milliseconds, run) {
  let timer;
  return () => { clearTimeout(timer); timer = setTimeout(run, milliseconds); };
}

// ---- Parameters of the storm

const story = () => known.stories[state.story];

function whole(name) {
  if (name in state.storm) return state.storm[name];
  if (name === "until") return whole("seconds") * 1000 + 60000;
  const told = story().storm[name];
  return name === "down" && told === null ? whole("replicas") : told;
}

function valueOf(control) {
  const value = whole(control.name);
  return control.part === undefined ? value : (isSpans(value) ? NONE.rates : value || NONE[control.name])[control.part];
}

// Whether this is a list of spans, and no span of the sliders.
const isSpans = (value) => Array.isArray(value) && Array.isArray(value[0]);
// Whether the requests come by a log, or by its spans, and not by the rates of the sliders.
const isPaced = () => state.log !== null || isSpans(whole("rates"));

function setValue(control, value) {
  if (control.part === undefined) {
    state.storm[control.name] = value;
  } else {
    const parts = [...(whole(control.name) || NONE[control.name])];
    parts[control.part] = value;
    state.storm[control.name] = parts;
  }
}

function rangeOf(control) {
  if (control.range) return control.range;
  const [least, most] = known.ranges[control.name] || [0, HOUR];
  return [least, Math.min(most, Number.MAX_SAFE_INTEGER)];
}

// Sliders go by steps, or from the least to the most by ratios, with two digits that count.
function fromSlider(control, position) {
  if (control.step) return position;
  const least = Math.max(1, control.least);
  if (control.least === 0 && position === 0) return 0;
  const value = least * Math.pow(control.most / least, position / 200);
  const grain = Math.pow(10, Math.max(0, Math.floor(Math.log10(value)) - 1));
  return Math.round(value / grain) * grain;
}

function toSlider(control, value) {
  if (control.step) return value;
  const least = Math.max(1, control.least);
  if (value < least) return 0;
  return Math.round(200 * Math.log(value / least) / Math.log(control.most / least));
}

// From where to where each number is played beside the others, by the latest answer.
let bounds = {};

// The slider of a number goes no further than the storm is played.
function boundSlider(control) {
  const slider = byId(idOf(control) + "-slider"), [least, most] = bounds[idOf(control)] || rangeOf(control);
  const step = control.step || 1, first = control.step ? control.least || 0 : 0, last = control.step ? control.most : 200;
  let from = first, to = last;
  while (from < last && fromSlider(control, from) < least) from += step;
  while (to > from && fromSlider(control, to) > most) to -= step;
  Object.assign(slider, { min: from, max: to });
}

function makeControl(control) {
  const id = idOf(control);
  const box = document.createElement("div");
  box.className = "control";
  const label = document.createElement("label");
  Object.assign(label, { htmlFor: id, id: id + "-label", textContent: control.label });
  const slider = document.createElement("input");
  Object.assign(slider, { type: "range", id: id + "-slider", step: control.step || 1 });
  slider.setAttribute("aria-labelledby", label.id);
  const number = document.createElement("input");
  Object.assign(number, { type: "text", id, inputMode: "numeric", autocomplete: "off" });
  const fault = document.createElement("span");
  Object.assign(fault, { className: "fault", id: id + "-fault" });
  fault.setAttribute("role", "status");
  number.setAttribute("aria-describedby", fault.id);
  slider.addEventListener("input", () => { take(control, String(fromSlider(control, Number(slider.value)))); showControls(number); });
  number.addEventListener("input", () => { take(control, number.value); showControls(number); });
  box.append(label, slider, number, fault);
  return box;
}

// Takes what stands in a box: a number that is right is played, and of another one the fault is told beside it.
function take(control, text) {
  const [least, most] = rangeOf(control), spelt = text.trim(), number = byId(idOf(control));
  const isRight = /^\d{1,16}$/.test(spelt) && Number(spelt) >= least && Number(spelt) <= most;
  if (number.value !== text) number.value = text;
  const range = `from ${least.toLocaleString("en")} to ${most.toLocaleString("en")}`;
  tell(number, byId(number.id + "-fault"), isRight ? "" : `expected a whole number ${range}, got ${spelt ? `'${spelt.slice(0, 40)}'` : "nothing"}`);
  if (isRight) setValue(control, Number(spelt));
  if (isRight && state.log && control.name === "seconds") partLater();
  else if (isRight) stormChanged();
  else showStale();
}

// Tells the fault of an input beside it.
function tell(input, place, fault) {
  input.setAttribute("aria-invalid", String(Boolean(fault)));
  say(place, fault);
}

function showControl(control, typed) {
  const id = idOf(control), value = valueOf(control), slider = byId(id + "-slider"), number = byId(id);
  boundSlider(control);
  if (document.activeElement !== slider || typed !== number) slider.value = toSlider(control, value);
  if (typed !== number && number.getAttribute("aria-invalid") !== "true") number.value = value;
  slider.setAttribute("aria-valuetext", value.toLocaleString("en"));
}

function showControls(typed) {
  for (const control of CONTROLS.filter(({ name }) => BY_RATES.includes(name))) {
    const number = byId(idOf(control));
    number.parentElement.hidden = isPaced();
    if (isPaced()) tell(number, byId(number.id + "-fault"), "");
  }
  for (const radio of document.querySelectorAll("[name=story]")) radio.checked = radio.value === state.story;
  CONTROLS.forEach((control) => showControl(control, typed));
}

function clearFaults() {
  for (const control of CONTROLS) tell(byId(idOf(control)), byId(idOf(control) + "-fault"), "");
  say(byId("storm-fault"), "");
}

function stormAsked() {
  const storm = {};
  for (const name of new Set(CONTROLS.map((control) => control.name))) storm[name] = whole(name);
  for (const name of Object.keys(NONE)) if (storm[name] && storm[name][0] === storm[name][1]) storm[name] = null;
  if (!("until" in state.storm)) storm.until = null;
  if (!("down" in state.storm)) storm.down = story().storm.down;
  if (state.log) Object.assign(storm, { together: 1 });
  return storm;
}

const sidesAsked = () => state.sides.map((side) => side.text.trim() ? side : { text: "", limit: "" });

// ---- The clients beside

function makeBeside() {
  const policy = byId("beside-policy");
  for (const [title, spelt] of known.cookbook) policy.append(new Option(title, spelt));
  policy.addEventListener("change", () => { state.storm.beside = [whole("beside")[0], policy.value]; stormChanged(); });
  SIDES.forEach((name, index) => {
    const label = document.createElement("label"), box = document.createElement("input");
    Object.assign(box, { type: "checkbox", id: name + "-limited" });
    box.setAttribute("aria-label", "They draw on the limit of " + name.toUpperCase());
    box.addEventListener("change", () => { state.sides[index].limited = box.checked; stormChanged(); });
    label.append(box, " " + name.toUpperCase());
    byId("beside-limited").append(label);
  });
}

// Shows their policy, also one that is not of the cookbook, and whose limits they draw on.
function showBeside() {
  const policy = byId("beside-policy"), text = whole("beside")[1];
  if (![...policy.options].some((option) => option.value === text)) policy.append(new Option(text, text));
  policy.value = text;
  SIDES.forEach((name, index) => { byId(name + "-limited").checked = Boolean(state.sides[index].limited); });
}

// ---- The sides

function makeSide(name, index) {
  const part = byId("side").content.cloneNode(true).querySelector(".side");
  part.id = "side-" + name;
  const find = (selector, id) => Object.assign(part.querySelector(selector), { id: `${name}-${id}` });
  const head = find("h2", "head"), text = find("textarea", "text"), limit = find(".limit", "limit"), cookbook = find(".cookbook", "cookbook");
  head.textContent = "Policy " + name.toUpperCase();
  part.setAttribute("aria-labelledby", head.id);
  part.querySelector(".text-label").htmlFor = text.id;
  text.setAttribute("aria-describedby", find(".text-fault", "fault").id);
  limit.setAttribute("aria-describedby", find(".limit-fault", "limit-fault").id);
  for (const [title, spelt] of known.cookbook) cookbook.append(new Option(title, spelt));
  cookbook.addEventListener("change", () => {
    if (cookbook.value) { text.value = cookbook.value; text.dispatchEvent(new Event("input")); }
  });
  text.addEventListener("input", () => {
    state.sides[index].text = text.value;
    mark(part, null);
    showChosen(part);
    sideChanged(index);
  });
  text.addEventListener("scroll", () => { part.querySelector(".editor pre").scrollTop = text.scrollTop; });
  limit.addEventListener("input", () => { state.sides[index].limit = limit.value; sideChanged(index); });
  part.querySelector("details").addEventListener("toggle", () => planLater[index]());
  byId("sides").append(part);
}

function partOf(index) { return byId("side-" + SIDES[index]); }

// Names the policy of the cookbook that is typed, if it is one.
function showChosen(part) {
  const typed = part.querySelector("textarea").value;
  part.querySelector(".cookbook").value = known.cookbook.some(([, spelt]) => spelt === typed) ? typed : "";
}

function showSides() {
  showBeside();
  state.sides.forEach((side, index) => {
    const part = partOf(index);
    part.querySelector("textarea").value = side.text;
    part.querySelector(".limit").value = side.limit;
    showChosen(part);
    sideChanged(index);
  });
}

// Puts the text below the one that is typed, with its fault marked.
function mark(part, fault) {
  const text = part.querySelector("textarea"), below = part.querySelector(".editor pre");
  below.replaceChildren();
  text.setAttribute("aria-invalid", String(fault !== null));
  if (fault === null) return;
  const signs = Array.from(text.value);
  const marked = document.createElement("mark");
  marked.textContent = signs.slice(fault.begins, fault.ends).join("");
  below.append(signs.slice(0, fault.begins).join(""), marked, signs.slice(fault.ends).join("") + "\n");
  below.scrollTop = text.scrollTop;
}

function draw(figure, picture) {
  if (!picture) { figure.replaceChildren(); return; }
  const drawn = new DOMParser().parseFromString(picture, "image/svg+xml").documentElement;
  figure.replaceChildren(document.importNode(drawn, true));
}

function widthOf(figure) { return Math.max(280, Math.min(2000, Math.floor(figure.clientWidth) || 340)); }

const planTurns = [0, 0];

async function plan(index) {
  const part = partOf(index), side = state.sides[index], turn = ++planTurns[index];
  const limit = part.querySelector(".limit"), figure = part.querySelector(".plan");
  let answer = { limit_fault: "", picture: "" };
  if (side.text.trim()) {
    try {
      answer = await ask("plan", { ...side, width: widthOf(figure) });
    } catch (error) {
      if (turn === planTurns[index]) say(part.querySelector(".text-fault"), error.message);
      return;
    }
  }
  if (turn !== planTurns[index]) return;
  tell(limit, part.querySelector(".limit-fault"), answer.limit_fault || "");
  mark(part, answer.fault || null);
  say(part.querySelector(".text-fault"), answer.fault ? `${answer.fault.said}: ${answer.fault.hint}` : "");
  figure.classList.toggle("stale", Boolean(answer.fault));
  if (!answer.fault && part.querySelector("details").open) draw(figure, answer.picture);
  showStale();
}

const planLater = SIDES.map((_, index) => later(120, () => plan(index)));

function sideChanged(index) {
  ++planTurns[index];  // (a plan that was asked for before is of another text)
  planLater[index]();
  stormChanged();
}

// ---- Playing

let playing = null;

function stormChanged() {
  if (playing) playing.abort();
  playLater();
}

const playLater = later(180, play);

async function play() {
  keepLink();
  if (playing) playing.abort();
  const mine = playing = new AbortController();
  const slow = setTimeout(() => { busy("Playing the storm; what you type or move breaks it off."); showDone(mine, () => playing === mine); }, 1000);
  try {
    const width = widthOf(byId("played"));
    const answer = await ask("storm", { page, turn: ++turns, sides: sidesAsked(), storm: stormAsked(), width, is_brief: width < WIDE }, mine.signal);
    if (playing === mine) { showPlayed(answer); sweepLater(); }
  } catch (error) {
    if (playing === mine && error.name !== "AbortError") showStale(error.message);
  } finally {
    clearTimeout(slow);
    if (playing === mine) { playing = null; busy(""); }
  }
}

// Shows the share of the storms that is played, or of the log that is read, where the lab can tell it.
async function showDone(mine, isOn) {
  const bar = byId("busy").querySelector("progress");
  bar.removeAttribute("value");
  while (isOn()) {
    const { done } = await ask("done", { page }, mine.signal).catch(() => ({ done: null }));
    if (isOn() && done !== null) bar.value = done;
    byId("done").textContent = isOn() && done !== null ? `about ${Math.floor(done * 100)} % done.` : "";
    await new Promise((next) => { setTimeout(next, 300); });
  }
}

function busy(said) {
  byId("busy").hidden = !said;
  say(byId("busy-said"), said);
  byId("played").setAttribute("aria-busy", String(Boolean(said)));
}

function showPlayed(answer) {
  const fault = answer.fault;
  if (answer.bounds) { bounds = answer.bounds; CONTROLS.forEach(boundSlider); }
  const named = CONTROLS.filter((control) => fault && control.name === fault.name && !byId(idOf(control)).parentElement.hidden);
  say(byId("storm-fault"), fault && !named.length ? fault.said : "");
  // (a box that was changed since has a fault of its own)
  for (const control of named.filter(isShown)) tell(byId(idOf(control)), byId(idOf(control) + "-fault"), fault.said);
  const isWhole = !fault && answer.sides.every((side, index) => side || !state.sides[index].text.trim());
  if (isWhole) clearPlayedFaults();
  // (a side that is faulty as it is typed keeps the picture that it had)
  if (isWhole || (!fault && !byId("played").firstChild)) {
    draw(byId("played"), answer.picture);
    answer.sides.forEach(showSide);
    showTotals(answer.totals);
    scenario = answer.scenario;
  }
  showStale();
}

// Whether a box has the number that is played, and nothing that is none.
function isShown(control) {
  const spelt = byId(idOf(control)).value.trim();
  return /^\d+$/.test(spelt) && Number(spelt) === valueOf(control);
}

// Numbers that were wrong together are right again.
function clearPlayedFaults() {
  for (const control of CONTROLS.filter(isShown)) tell(byId(idOf(control)), byId(idOf(control) + "-fault"), "");
}

let scenario = "";
const programs = [null, null];

function showSide(side, index) {
  const name = SIDES[index], letter = name.toUpperCase();
  programs[index] = side;
  say(byId(name + "-brief"), side ? `${letter}: ${unbroken(side.brief)}` : "");
}

// The text, in which no line ends between a number and its unit.
const unbroken = (text) => text.replace(/(\d) (ms|s|%)(?!\w)/g, "$1\u00a0$2");

function cell(name, text, given = {}) {
  return Object.assign(document.createElement(name), { textContent: text, ...given });
}

// Each group of totals has a head, but the first one.
function showTotals(groups) {
  const bodies = groups.map(({ head, rows }) => {
    const body = document.createElement("tbody");
    const row = (...cells) => { const line = document.createElement("tr"); line.append(...cells); body.append(line); };
    if (head) row(cell("th", unbroken(head), { scope: "rowgroup", colSpan: SIDES.length + 1 }));
    for (const [name, ...texts] of rows) {
      row(cell("th", unbroken(name), { scope: "row" }), ...texts.map((text) => cell("td", unbroken(text ?? "–"))));
    }
    return body;
  });
  byId("totals").querySelectorAll("tbody").forEach((body) => body.remove());
  byId("totals").append(...bodies);
}

// What is wrong in the boxes, each with the name of the first box that it is told at.
function faults() {
  const told = new Map();
  for (const box of document.querySelectorAll(".controls [aria-invalid=true]")) {
    const said = byId(box.getAttribute("aria-describedby")).textContent, side = box.closest(".side:not(.beside)");
    const names = [side && side.querySelector("h2").textContent, !box.matches("textarea") && box.labels[0].firstChild.textContent.trim()];
    if (!told.has(said)) told.set(said, names.filter(Boolean).join(": "));
  }
  const storm = byId("storm-fault").textContent;
  const sentences = [...told].map(([said, name]) => `${name}: ${said}`);
  return [...sentences, ...(storm ? [storm] : [])].map((said) => said.endsWith("?") ? said : `${said}.`);
}

// Says that the picture is not of what stands in the boxes, where one of these is faulty or for this reason.
function showStale(why = "") {
  const isDrawn = byId("played").firstChild !== null, said = why || faults().join(" ");
  say(byId("stale"), said && isDrawn ? `This picture shows the last valid input. ${said}` : said);
  for (const name of ["played", "swept"]) byId(name).classList.toggle("stale", Boolean(said));
}

// ---- The requests of a log

let reading = null;
// (a file that is read meanwhile is not broken off)
const partLater = later(180, () => { if (state.log && !(reading && reading.file)) readLog(null); });

function stopReading() {
  if (!reading) return;
  reading.abort();
  reading = null;
  busy("");
}

// Has the lab read a file, or play another part of the one that it has read.
async function readLog(file) {
  stopReading();
  const mine = reading = Object.assign(new AbortController(), { file }), name = file ? file.name : state.log.name;
  const asked = { page, turn: ++turns, width: widthOf(byId("played")), replicas: whole("replicas") };
  const slow = setTimeout(() => { busy(`Reading ${name}; another log breaks it off.`); showDone(mine, () => reading === mine); }, 1000);
  say(byId("log-said"), "");
  try {
    const answer = file ? await sendLog(file, asked, mine.signal) : await ask("part", { ...asked, seconds: whole("seconds") }, mine.signal);
    if (reading !== mine) return;
    if (answer.fault) throw new Error(answer.fault.said);
    takeLog(name, answer, Boolean(file));
  } catch (error) {
    if (reading === mine) say(byId("log-said"), `${name}: ${error.message}.`.replace(/([.?])\.$/, "$1"));
  } finally {
    clearTimeout(slow);
    if (reading === mine) { reading = null; busy(""); }
  }
}

async function sendLog(file, asked, signal) {
  const read = () => file.slice(0, 1).arrayBuffer().catch(() => { throw new Error("the browser can't read it, or it changes meanwhile: choose a file that stays as it is"); });
  await read();
  if (file.size > known.most_log) {
    const [most, size] = [known.most_log, file.size].map((bytes) => bytes.toLocaleString("en"));
    throw new Error(`expected at most ${most} bytes, got ${size}: hikebox storm --log takes larger ones`);
  }
  return ask(`log?${new URLSearchParams(asked)}`, file, signal).catch(async (error) => {
    if (error.name !== "AbortError") await read();
    throw error;
  });
}

// Plays the requests of a log; of a new one also with the patience and the capacity that it tells.
function takeLog(name, { storm, lines, picture }, isNew) {
  const { rate, rates, seconds, ...assumed } = storm;
  const before = state.log ? state.log.before : { ...state.storm };
  state.log = { name, lines, picture, before };
  Object.assign(state.storm, { rate, seconds, together: 1, rates: rates.length > 1 ? rates : rates[0] || null }, isNew ? assumed : {});
  if (isNew) {
    for (const control of CONTROLS.filter((control) => control.name in storm)) tell(byId(idOf(control)), byId(idOf(control) + "-fault"), "");
    say(byId("log-told"), `The requests are those of ${name}.`);
  }
  showLog();
  showControls();
  stormChanged();
}

function showLog() {
  const spans = isSpans(whole("rates")) ? [`${whole("rates").length} spans of requests come at a rate of their own.`] : [];
  const { lines, picture } = state.log || { lines: spans, picture: "" };
  draw(byId("logged"), picture);
  byId("log-lines").replaceChildren(...lines.map((line) => cell("li", unbroken(line))));
  byId("log-back").hidden = !isPaced();
}

// Has the requests come by the rates that they had before the log, or by those of the story.
function leaveLog() {
  stopReading();
  const before = state.log ? state.log.before : {};
  for (const name of [...BY_RATES, "seconds", ...(state.log ? ["capacity", "patience"] : [])]) {
    if (name in before && !isSpans(before[name])) state.storm[name] = before[name]; else delete state.storm[name];
  }
  dropLog();
  say(byId("log-told"), "The requests come by rates.");
  showControls();
  stormChanged();
  byId("log-file").focus();
}

// Forgets the log.
function dropLog() {
  stopReading();
  state.log = null;
  byId("log-file").value = "";
  say(byId("log-said"), "");
  showLog();
}

function takeFiles(files) {
  if (files.length === 1) readLog(files[0]);
  else if (files.length) say(byId("log-said"), `Expected one access log, got ${files.length} files.`);
}

function makeLog() {
  const input = byId("log-file"), hasFiles = (event) => event.dataTransfer !== null && event.dataTransfer.types.includes("Files");
  // (a file may be chosen again after it has changed)
  input.addEventListener("click", () => { input.value = ""; });
  input.addEventListener("change", () => takeFiles(input.files));
  byId("log-back").addEventListener("click", leaveLog);
  const drags = (is) => document.body.classList.toggle("dropping", is);
  addEventListener("dragover", (event) => {
    if (!hasFiles(event)) return;
    event.preventDefault();
    event.dataTransfer.dropEffect = "copy";
    drags(true);
  });
  addEventListener("dragleave", (event) => { if (event.relatedTarget === null) drags(false); });
  addEventListener("drop", (event) => {
    if (!hasFiles(event)) return;
    event.preventDefault();
    drags(false);
    const { files } = event.dataTransfer;
    if (files.length === 1) input.files = files;
    takeFiles(files);
  });
}

// ---- Along a parameter

let sweeping = null;
const sweepLater = later(600, sweep);

async function sweep() {
  if (sweeping) sweeping.abort();
  const mine = sweeping = new AbortController();
  byId("swept").setAttribute("aria-busy", "true");
  try {
    const asked = { page, turn: ++turns, along: state.along, sides: sidesAsked(), storm: stormAsked(), width: Math.min(640, widthOf(byId("swept"))) };
    const answer = await ask("sweep", asked, mine.signal);
    if (sweeping !== mine) return;
    draw(byId("swept"), answer.picture);
    say(byId("swept-said"), answer.fault ? `${answer.fault.name}: ${answer.fault.said}` : answer.said);
  } catch (error) {
    if (sweeping === mine && error.name !== "AbortError") say(byId("swept-said"), error.message);
  } finally {
    if (sweeping === mine) byId("swept").setAttribute("aria-busy", "false");
  }
}

// ---- Links and copies

function keepLink() {
  const told = new URLSearchParams();
  told.set("story", state.story);
  for (const [name, value] of Object.entries(state.storm)) {
    const spelt = isSpans(value) ? value.map((span) => span.join("-")).join("_") : Array.isArray(value) ? value.join("-") : value;
    // (no surge is one of no length)
    if (String(value) !== String(story().storm[name])) told.set(name, spelt ?? "0-0-0");
  }
  state.sides.forEach((side, index) => {
    told.set(SIDES[index], side.text);
    if (side.limit) told.set(SIDES[index] + "-limit", side.limit);
    if (side.limited) told.set(SIDES[index] + "-limited", "1");
  });
  if (state.along !== "rate") told.set("along", state.along);
  history.replaceState(null, "", "#" + told);
}

function beginWith(name) {
  state.story = name;
  state.storm = {};
  dropLog();
  state.sides = story().sides.map((side) => ({ ...side }));
  clearFaults();
}

// The parts of a value, of which the last one has what is too much.
function partsOf(value, count) {
  const parts = value.split("-");
  return parts.length <= count ? parts : [...parts.slice(0, count - 1), parts.slice(count - 1).join("-")];
}

// Takes what the part of a link after the # carries. What is wrong in it is told at its box, or above the page.
function readLink(carried) {
  const told = new URLSearchParams(carried.slice(1)), unknown = [];
  const named = told.get("story"), along = told.get("along");
  beginWith(Object.hasOwn(known.stories, named) ? named : "quota");
  if (named !== null && named !== state.story) unknown.push(`story=${named}`);
  const hasSides = SIDES.some((name) => told.has(name));
  state.sides = SIDES.map((name, index) => {
    const side = hasSides ? { text: "", limit: "", limited: false } : state.sides[index], limited = told.get(name + "-limited");
    return {
      text: told.get(name) ?? side.text, limit: told.get(name + "-limit") ?? side.limit,
      limited: limited === null ? side.limited : limited === "1",
    };
  });
  state.along = Object.hasOwn(known.along, along) ? along : "rate";
  if (along !== null && along !== state.along) unknown.push(`along=${along}`);
  showControls();
  for (const [name, value] of told) {
    if (name === "rates" && SPANS.test(value)) {
      state.storm.rates = value.split("_").map((span) => span.split("-").map(Number));
      continue;
    }
    const controls = CONTROLS.filter((control) => control.name === name);
    const texts = controls.length && controls[0].part !== undefined ? partsOf(value, PARTS[name]) : [value];
    if (name === "beside") state.storm.beside = [whole("beside")[0], texts[1] || ""];
    controls.forEach((control, index) => take(control, index < texts.length ? texts[index] : ""));
    if (/^[ab]-limited$/.test(name) && value !== "1") unknown.push(`${name}=${value}`);
    if (!controls.length && !["story", "along", ...SIDES.flatMap((side) => [side, side + "-limit", side + "-limited"])].includes(name)) unknown.push(name);
  }
  say(byId("said"), unknown.length ? `The link has what this page does not know: ${unknown.join(", ").slice(0, 80)}.` : "");
  byId("along").value = state.along;
  showLog();
  showControls();
  showSides();
}

function makeCopies() {
  const group = (title, buttons) => {
    const row = document.createElement("div");
    row.className = "copy";
    row.append(title, ...buttons.map(([what, label, text]) => {
      const button = document.createElement("button");
      Object.assign(button, { type: "button", textContent: what });
      button.setAttribute("aria-label", label);
      button.addEventListener("click", () => copy(text(), label));
      return button;
    }));
    byId("copies").append(row);
  };
  SIDES.forEach((name, index) => {
    const letter = name.toUpperCase();
    group(`${letter}:`, Object.entries(KINDS).map(([kind, title]) =>
      [title, `The ${title} of ${letter}`, () => programs[index] ? programs[index][kind] : ""]));
  });
  group("Both:", [["JSON of the scenario", "The JSON of the scenario", () => scenario]]);
}

async function copy(text, what) {
  byId("copied").hidden = !text;
  say(byId("copied"), text);
  if (!text) { say(byId("said"), "There is nothing to copy: no such storm is played."); return; }
  try {
    await navigator.clipboard.writeText(text);
    say(byId("said"), `${what} is copied.`);
  } catch {
    say(byId("said"), "The browser does not let this page copy. The text is below “Copy as”.");
  }
}

function makeStories() {
  for (const [name, { title }] of Object.entries(known.stories)) {
    const label = document.createElement("label"), radio = document.createElement("input");
    Object.assign(radio, { type: "radio", name: "story", value: name });
    radio.addEventListener("change", () => { beginWith(name); showControls(); showSides(); });
    label.append(radio, " " + title);
    byId("stories").append(label);
  }
}

async function start() {
  try {
    known = await ask("start", {});
  } catch (error) {
    say(byId("said"), error.message);
    return;
  }
  makeStories();
  byId("numbers").append(...CONTROLS.filter((control) => control.name !== "beside").map(makeControl));
  byId("beside-share").append(makeControl(CONTROLS.find((control) => control.name === "beside")));
  makeBeside();
  SIDES.forEach(makeSide);
  makeLog();
  makeCopies();
  for (const [name, title] of Object.entries(known.along)) byId("along").append(new Option(title, name));
  byId("along").addEventListener("change", () => { state.along = byId("along").value; keepLink(); sweep(); });
  byId("copy-link").addEventListener("click", () => { keepLink(); copy(location.href, "The link"); });
  // (the page may have kept its own link since that one was opened)
  addEventListener("hashchange", (event) => readLink(new URL(event.newURL).hash));
  let wide = innerWidth;
  addEventListener("resize", later(300, () => {
    if (innerWidth !== wide) { wide = innerWidth; SIDES.forEach((_, index) => sideChanged(index)); if (state.log) partLater(); }
  }));
  readLink(location.hash);
}

start();
