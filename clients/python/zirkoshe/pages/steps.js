"use strict";
// The page keeps blocks of rows around those that it shows. A row's place counts the
// rows that the filter shows, from 0, from the oldest on, so that a place stays.
const BLOCK = 100;
const MOST_BLOCKS = 12;
const AROUND = 6; // rows that are ready above and below
const SAY_PAUSE = 10000; // between two sentences about news, in milliseconds
const DRAW_PAUSE = 300; // between two pictures of the newest step
const STEP_PAUSE = 120; // after a step is chosen, if another one was chosen just before
const MARKS = {denied: "✕", fault: "⚠"};

const by = id => document.getElementById(id);
const list = by("rows");
const space = by("space");
const page = String(Math.random()).slice(2);

let news = first; // what the watch sent last
let rows = first.rows; // how many of the journal's rows are shown
let filter = {client: "", call: "", refused: ""};
let turn = 0; // which filter and journal it is, so that late answers are dropped
let total = 0; // how many rows the filter shows
let blocks = new Map();
let loading = new Set();
let isPaused = false;
let chosen = null; // the place that is stepped to; otherwise the newest step is shown
let detailed = null; // the step whose details are shown
let height = 30; // of a row

function ask(path, more, signal) {
  const fields = {generation: news.generation, rows, ...filter, ...more};
  return fetch(path + "?" + new URLSearchParams(fields), {cache: "no-store", signal})
    .then(answer => answer.ok ? answer.json() : Promise.reject(answer.status));
}

// asks for what is shown; an answer that is late is dropped, and so is none
async function askNow(path, more) {
  const asked = turn;
  try {
    const answer = await ask(path, more);
    return asked === turn ? answer : null;
  } catch {
    return null;
  }
}

function counted(count, one, many) {
  return count.toLocaleString("en") + " " + (count === 1 ? one : many || one + "s");
}

// what a screen reader says

let saidAt = 0;
let saidRefused = first.refused;
let sayTimer = 0;

function say(text) {
  by("said").textContent = text;
}

function sayNews() {
  clearTimeout(sayTimer);
  const wait = saidAt + SAY_PAUSE - Date.now();
  const more = news.refused - saidRefused;
  if (more <= 0) { return; }
  if (wait > 0) {
    sayTimer = setTimeout(sayNews, wait);
    return;
  }
  saidAt = Date.now();
  saidRefused = news.refused;
  say(counted(more, "more denial or fault", "more denials or faults") + ", "
    + counted(news.steps, "step") + " in all");
}

function showState() {
  const parts = [
    news.has_ended ? "the watch has ended" : isPaused ? "paused"
      : news.is_live ? "live" : news.own ? "the server has ended" : "reads " + news.path,
    counted(news.steps, "step"),
    counted(news.refused, "denial or fault", "denials or faults"),
  ];
  if (isPaused && news.rows > rows) { parts.push((news.rows - rows) + " new"); }
  if (news.unread) { parts.push(counted(news.unread, "line was", "lines were") + " not read"); }
  if (news.is_cut) { parts.push("the file is too long to be read whole"); }
  by("state").textContent = parts.join(", ");
}

// the rows

function stepAt(place) {
  return (blocks.get(Math.floor(place / BLOCK)) || [])[place % BLOCK];
}

async function load(number) {
  const start = number * BLOCK;
  if (loading.has(number)) { return; }
  loading.add(number);
  const answer = await askNow("rows", {start, count: BLOCK});
  loading.delete(number);
  if (!answer) { return; }
  blocks.delete(number); // the last one that was loaded is the last one to go
  blocks.set(number, answer.steps);
  if (blocks.size > MOST_BLOCKS) { blocks.delete(blocks.keys().next().value); }
  paint();
}

function callerOf(step) {
  return step.client === 0 ? "no client"
    : step.client === news.own ? "this page" : "client " + step.client;
}

function numberOf(step) {
  return step.outcome === "fault" ? "–" : String(step.number);
}

function cell(kind, text) {
  const made = document.createElement("span");
  made.className = kind;
  made.textContent = text;
  return made;
}

function fill(row, step) {
  const answer = cell("answer", step.answer || "no answer");
  if (MARKS[step.outcome]) {
    const mark = cell("mark", MARKS[step.outcome]);
    mark.setAttribute("aria-hidden", "true");
    answer.prepend(mark);
  }
  row.className = "row " + step.outcome;
  row.title = step.request + " → " + step.answer;
  const cells = [cell("number", numberOf(step)), cell("caller", callerOf(step)),
    cell("asked", step.request), answer];
  // a name is read with pauses
  row.replaceChildren(...cells.flatMap(made => [made, " "]));
}

function made(place) {
  const row = document.createElement("div");
  row.id = "row" + place;
  row.className = "row";
  row.setAttribute("role", "option");
  return row;
}

function paint() {
  const top = Math.max(0, Math.floor(list.scrollTop / height) - AROUND);
  const end = Math.min(total, top + Math.ceil(list.clientHeight / height) + 2 * AROUND);
  const old = new Map([...space.children].map(row => [row.id, row]));
  const needed = new Set();
  let next = space.firstElementChild;
  for (let at = top; at < end; at++) {
    const place = total - 1 - at, step = stepAt(place), id = "row" + place;
    const row = old.get(id) || made(place);
    old.delete(id);
    if (!step) { needed.add(Math.floor(place / BLOCK)); }
    if (step && !row.firstChild) { fill(row, step); }
    row.style.top = at * height + "px";
    row.setAttribute("aria-posinset", at + 1);
    row.setAttribute("aria-setsize", total);
    row.setAttribute("aria-selected", String(place === chosen));
    if (row === next) { next = next.nextElementSibling; } else { space.insertBefore(row, next); }
  }
  old.forEach(row => row.remove());
  needed.forEach(load);
  if (chosen !== null && by("row" + chosen)) {
    list.setAttribute("aria-activedescendant", "row" + chosen);
  } else {
    list.removeAttribute("aria-activedescendant");
  }
  showDetails();
}

function measure() {
  const row = made("");
  row.style.visibility = "hidden";
  space.append(row);
  const before = height;
  height = row.getBoundingClientRect().height || height;
  row.remove();
  space.style.height = total * height + "px";
  if (before !== height) { list.scrollTop *= height / before; }
  if (chosen !== null) { reveal(); }
  paint();
}

// shows so many rows; what is looked at stays where it is
function setTotal(next) {
  const more = next - total;
  total = next;
  space.style.height = total * height + "px";
  if (more > 0 && (list.scrollTop > 0 || chosen !== null)) { list.scrollTop += more * height; }
  by("none").hidden = total > 0;
  by("none").textContent = rows ? "No step is one of these." : "No step yet.";
  paint();
}

// takes the rows that were added, unless the page is paused
async function advance() {
  if (isPaused) { return; }
  rows = news.rows;
  const isAll = !filter.client && !filter.call && !filter.refused;
  const answer = isAll ? {total: rows} : await askNow("rows", {start: 0, count: 0});
  if (answer) { setTotal(answer.total); }
  if (chosen === null) { draw(); }
}

// the step that is chosen

function reveal() {
  const top = (total - 1 - chosen) * height;
  if (top < list.scrollTop) {
    list.scrollTop = top;
  } else if (top + height > list.scrollTop + list.clientHeight) {
    list.scrollTop = top + height - list.clientHeight;
  }
}

function choose(place) {
  if (!total) { return; }
  const next = Math.max(0, Math.min(total - 1, place));
  if (next === chosen) {
    say(next === 0 ? "This is the oldest step." : next === total - 1 ? "This is the newest step." : "");
  }
  chosen = next;
  reveal();
  paint();
}

function showNewest() {
  chosen = null;
  list.scrollTop = 0;
  paint();
  draw();
  say("The newest step is shown.");
}

function showDetails() {
  const step = chosen === null ? null : stepAt(chosen);
  if (step === undefined || step === detailed) { return; }
  detailed = step;
  by("details").hidden = !step;
  by("text").hidden = true;
  by("changed").hidden = true;
  if (!step) { return; }
  by("stephead").textContent = (step.outcome === "fault" ? "Fault after step " : "Step ")
    + step.number + " (line " + step.line + "), " + callerOf(step)
    + (step.label ? ", label " + step.label : "");
  by("request").textContent = step.request;
  by("answer").textContent = (MARKS[step.outcome] ? MARKS[step.outcome] + " " : "→ ")
    + (step.answer || "no answer");
  by("answer").className = step.outcome;
  draw();
}

async function explain() {
  if (chosen === null) { choose(total - 1); }
  const step = detailed;
  if (!step) { return; }
  by("text").hidden = false;
  by("text").textContent = "…";
  const answer = await askNow("explanation", {rows: step.row + 1});
  if (step !== detailed) { return; }
  by("text").textContent = answer ? answer.text : "No explanation: the watch does not answer.";
  say(by("text").textContent);
}

// the picture

let drawing = null; // what stops the picture that is asked for
let drawn = ""; // which one is shown
let drawTimer = 0;
let chosenAt = 0; // when a step was chosen last
let drawAt = 0; // when the next picture of the newest step may be asked for

function draw() {
  const step = chosen === null ? null : stepAt(chosen);
  if (step === undefined) { return; }
  const isNewest = step === null;
  const wanted = isNewest ? rows : step.row + 1;
  const now = Date.now();
  const wait = isNewest ? (drawing ? Math.max(50, drawAt - now) : drawAt - now)
    : chosenAt + STEP_PAUSE - now;
  clearTimeout(drawTimer);
  chosenAt = isNewest ? 0 : now;
  if (wait > 0) {
    drawTimer = setTimeout(() => { chosenAt = 0; draw(); }, wait);
    return;
  }
  const name = news.generation + " " + wanted + " " + isNewest;
  if (name === drawn) { return; }
  drawn = name;
  if (drawing) { drawing.abort(); }
  drawing = new AbortController();
  drawFor(wanted, step, drawing);
}

async function drawFor(wanted, step, own) {
  const begun = Date.now();
  try {
    const answer = await ask("picture", {rows: wanted, page}, own.signal);
    showPicture(answer, step);
    if (step && step.outcome === "done") {
      const found = await ask("changes", {rows: wanted, page}, own.signal);
      if (step === detailed) { showChanges(found.changes); }
    }
  } catch {
    if (own === drawing) { drawn = ""; }
  }
  if (own === drawing) {
    drawing = null;
    drawAt = Date.now() + Math.max(DRAW_PAUSE, 2 * (Date.now() - begun));
  }
}

function showPicture(answer, step) {
  const number = step ? step.number : answer.step;
  by("pichead").textContent = "Picture after step " + number + (step ? "" : ", the newest");
  by("problem").hidden = !answer.problem;
  by("problem").textContent = answer.problem || "";
  by("picture").innerHTML = answer.svg || "";
  by("words").hidden = !answer.columns;
  const columns = answer.columns || [];
  const image = by("picture").querySelector("svg");
  if (image) {
    image.setAttribute("role", "img");
    image.setAttribute("aria-label", columns.map(it => it.head + ": " + it.count).join(", "));
  }
  by("columns").replaceChildren(...columns.flatMap(columnAsText));
}

function item(text) {
  const made = document.createElement("li");
  made.textContent = text;
  return made;
}

function columnAsText(column) {
  const head = document.createElement("h3"), boxes = document.createElement("ul");
  head.textContent = column.head + " (" + column.count + ")";
  boxes.append(...column.boxes.map(box => item([box.title + ": " + box.lines.join(", "),
    ...box.ends.map(end => "→ " + end)].join("; "))));
  if (column.boxes.length < column.count) { boxes.append(item("and further ones")); }
  return [head, boxes];
}

function showChanges(changes) {
  by("changed").hidden = !changes.length;
  by("changes").replaceChildren(...changes.map(item));
}

// what is chosen of the rows

function option(value, label) {
  const made = document.createElement("option");
  made.value = value;
  made.textContent = label;
  return made;
}

let offered = "";

function offer() {
  const now = JSON.stringify([news.calls, news.clients]);
  if (now === offered) { return; }
  offered = now;
  const call = by("call").value;
  by("call").replaceChildren(option("", "all"), ...news.calls.map(word => option(word, word)));
  by("call").value = news.calls.includes(call) ? call : "";
  by("clients").replaceChildren(...news.clients.map(([client, label]) =>
    option(client, "client " + client + (label ? ", " + label : ""))));
}

async function setFilter() {
  const kept = detailed;
  const client = by("client").value.trim();
  const isRight = /^([a-z]|\d{1,12}|)$/.test(client);
  by("client").setAttribute("aria-invalid", String(!isRight));
  if (!isRight) {
    say("A client is a number or a label.");
    return;
  }
  filter = {client, call: by("call").value, refused: by("refused").checked ? "1" : ""};
  forget();
  const asked = turn;
  const answer = await askNow("rows", {start: 0, count: 0});
  const found = kept && await askNow("place", {row: kept.row});
  if (!answer || asked !== turn) { return; }
  setTotal(answer.total);
  if (found && found.place >= 0) { choose(found.place); } else { draw(); }
  say(counted(total, "step") + " shown");
}

function forget() {
  turn++;
  blocks = new Map();
  loading = new Set();
  chosen = null;
  total = 0;
  list.scrollTop = 0;
  space.replaceChildren();
  paint();
}

async function go() {
  const number = by("step").value.trim();
  if (!/^\d{1,9}$/.test(number)) {
    say("A step is a number.");
    return;
  }
  const answer = await askNow("place", {step: number});
  if (!answer || answer.place < 0) { return; }
  choose(answer.place);
  list.focus();
}

function setPause() {
  isPaused = !isPaused;
  by("pause").textContent = isPaused ? "Continue" : "Pause";
  showState();
  say(isPaused ? "Paused" : "The page continues.");
  advance();
}

// news

function take(next) {
  if (next.session !== news.session) {
    location.reload();
    return;
  }
  const isOther = next.generation !== news.generation;
  news = next;
  if (isOther) {
    saidRefused = 0;
    isPaused = false;
    by("pause").textContent = "Pause";
    rows = news.rows;
    forget();
    say("The journal was replaced.");
  }
  offer();
  showState();
  sayNews();
  advance();
}

const steps = () => Math.max(1, Math.floor((list.clientHeight + 1) / height) - 1);
const here = () => chosen === null ? total : chosen;
const KEYS = {
  ArrowDown: () => choose(here() - 1),
  ArrowUp: () => choose(here() + 1),
  PageDown: () => choose(here() - steps()),
  PageUp: () => choose(here() + steps()),
  Home: () => choose(total - 1),
  End: () => choose(0),
  Enter: explain,
  e: explain,
  p: setPause,
  " ": setPause,
  Escape: showNewest,
};

list.addEventListener("keydown", event => {
  const key = event.key.length === 1 ? event.key.toLowerCase() : event.key;
  if (event.ctrlKey || event.altKey || event.metaKey || !Object.hasOwn(KEYS, key)) { return; }
  event.preventDefault();
  KEYS[key]();
});
list.addEventListener("click", event => {
  const y = event.clientY - list.getBoundingClientRect().top - list.clientTop + list.scrollTop;
  const place = total - 1 - Math.floor(y / height);
  if (place >= 0) { choose(place); }
});
list.addEventListener("scroll", paint, {passive: true});
by("pause").addEventListener("click", setPause);
by("newest").addEventListener("click", showNewest);
by("newer").addEventListener("click", KEYS.ArrowUp);
by("older").addEventListener("click", KEYS.ArrowDown);
by("explain").addEventListener("click", explain);
by("go").addEventListener("submit", event => { event.preventDefault(); go(); });
for (const id of ["client", "call", "refused"]) { by(id).addEventListener("change", setFilter); }
by("fit").addEventListener("change", () => by("picture").classList.toggle("fits", by("fit").checked));
new ResizeObserver(measure).observe(list);

const live = new EventSource("live");
live.onmessage = event => {
  const next = JSON.parse(event.data);
  if (next.is_new) { take(next); }
  if (next.has_ended) { live.close(); }
};
live.onerror = () => { by("state").textContent = "the watch has ended"; };

offer();
showState();
measure();
advance();
