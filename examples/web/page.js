// The two views of the page. What departs, when and in which order tells the server; here it is laid out.

const POLL = 20_000; // milliseconds from an answer to the next question,
const AGAIN = 5_000; // and from one that failed
const TRIPS = 10; // the trips of a block of a timetable, as many as fit beside each other on paper

const place = (id) => document.getElementById(id);

/** An element with its properties and what stands in it. Texts become text nodes: nothing of a feed is read as HTML. */
function element(name, properties, ...children) {
  const made = Object.assign(document.createElement(name), properties);
  made.append(...children);
  return made;
}

/** Writes a text where it differs, so that nothing flickers and nothing is read aloud again. */
function write(where, text) {
  if (where.textContent !== text) where.textContent = text;
}

// ---- questions and messages

class Refused extends Error {
  constructor({ error, problems = [] }) {
    super(error);
    this.problems = problems;
  }
}

async function ask(question, fields) {
  const answer = await fetch(`${question}?${new URLSearchParams(fields)}`, { signal: AbortSignal.timeout(90_000) });
  const told = await answer.json();
  if (!answer.ok) throw new Refused(told);
  return { ...told, asked: performance.now() };
}

function say(text, lines = []) {
  write(place("words"), text);
  write(place("lines"), lines.join("\n"));
}

function sayFault(fault, more = "") {
  if (fault instanceof Refused) say(`${fault.message} ${more}`.trim(), fault.problems);
  else say(`The server does not answer. ${more}`.trim());
}

// ---- names

const names = { stops: new Map(), routes: new Map(), labels: new Map(), read: null };

const nameOfStop = ({ stop_id, name, platform }) => (name || stop_id) + (platform ? `, platform ${platform}` : "");
const nameOf = (stop) => nameOfStop(names.stops.get(stop) ?? { stop_id: stop });
const nameOfRoute = ({ route_id, short_name, long_name }) => [short_name, long_name].filter(Boolean).join(" ") || route_id;

/** The ids of some things by their labels, which are their names. Behind a name that several share stands the id. */
function labelled(things, nameOfThing) {
  const named = [...things].map(([id, thing]) => [id, nameOfThing(thing)]);
  const counts = new Map();
  for (const [, name] of named) counts.set(name, (counts.get(name) ?? 0) + 1);
  return new Map(named.map(([id, name]) => [counts.get(name) > 1 ? `${name} (${id})` : name, id]));
}

/** Loads the names of the feed that the server has read. Rows with other names are made anew. */
async function loadNames() {
  const told = await ask("names");
  names.read = told.read;
  rows = new Map();
  names.stops = new Map(told.stops.map((stop) => [stop.stop_id, stop]));
  names.routes = new Map(told.routes.map((route) => [route.route_id, route]));
  const served = new Map([...names.stops].filter(([, stop]) => ["", "0", "1"].includes(stop.location_type)));
  names.labels = labelled(served, nameOfStop);
  place("stops").replaceChildren(...[...names.labels.keys()].map((value) => element("option", { value })));
  const options = [...labelled(names.routes, nameOfRoute)].map(([label, value]) => element("option", { value }, label));
  place("route").replaceChildren(...options);
  place("day").value ||= told.now.slice(0, 10);
}

/** The ids that a text may mean, by the labels of stops: of the label or the id that is the same, or else of all labels with it. */
function fitting(labels, text) {
  const exact = text.trim();
  const wanted = exact.toLowerCase();
  const stops = [...labels].map(([label, id]) => ({ label: label.toLowerCase(), id }));
  const same =
    stops.find((stop) => stop.label === wanted) ??
    stops.find((stop) => stop.id === exact) ??
    stops.find((stop) => stop.id.toLowerCase() === wanted);
  const found = same ? [same] : stops.filter((stop) => stop.label.includes(wanted));
  return found.map((stop) => stop.id);
}

/** The id of the only stop that fits a text. Otherwise it is said how many do. */
function stopOf(text) {
  const found = fitting(names.labels, text);
  if (found.length === 1) return found[0];
  say(found.length ? `${found.length} stops fit “${text}”. Choose one of the list.` : `No stop has the name or the id “${text}”.`);
  return undefined;
}

function badge(text, { color, text_color } = {}) {
  const made = element("span", { className: "route" }, text);
  made.style.backgroundColor = `#${color || "FFFFFF"}`;
  made.style.color = `#${text_color || "000000"}`;
  return made;
}

/** A day, which is written as 2024-04-02, in words. */
function inWords(day) {
  const how = { weekday: "long", day: "numeric", month: "long", year: "numeric", timeZone: "UTC" };
  return new Date(day).toLocaleDateString("en-GB", how);
}

// ---- departures

let board = null; // the last answer,
let rows = new Map(); // and its rows, by all that they show

/** Milliseconds now: what the answer said, and what has passed since. */
const now = () => Date.parse(board.now) + (board.fixed ? 0 : performance.now() - board.asked);

/** The clock of the feed's zone. */
function clock() {
  const offset = Date.parse(`${board.now.slice(0, 19)}Z`) - Date.parse(board.now);
  return new Date(now() + offset).toISOString().slice(11, 16);
}

function timeTo(departure) {
  const minutes = Math.floor((Date.parse(departure.time) - now()) / 60_000);
  if (minutes < 1) return "now";
  return minutes < 60 ? `${minutes}\u00a0min` : `${Math.floor(minutes / 60)}\u00a0h ${minutes % 60}\u00a0min`;
}

function rowOf(departure) {
  const about = departure.exact && !departure.filled ? [] : [element("span", { className: "about" }, "about"), " "];
  return element(
    "tr",
    {},
    element("td", { className: "time" }, ...about, element("time", { dateTime: departure.time }, departure.time.slice(11, 16))),
    element("td", {}, badge(departure.route, names.routes.get(departure.route_id))),
    element("th", { scope: "row" }, departure.headsign),
    element("td", { className: "platform" }, names.stops.get(departure.stop_id)?.platform ?? ""),
    element("td", { className: "wait" }),
  );
}

/** A body for the rows of a day, with its name unless it is today. */
function bodyOf(day) {
  const heading = element("tr", { className: "day" }, element("th", { scope: "rowgroup", colSpan: 5 }, inWords(day)));
  return element("tbody", {}, ...(day === board.now.slice(0, 10) ? [] : [heading]));
}

/** Lays the rows out by their days. Those that were there stay the same. */
function layOut(departures) {
  rows = new Map([...departures].map(([shown, departure]) => [shown, rows.get(shown) ?? rowOf(departure)]));
  const bodies = new Map();
  for (const [shown, { time }] of departures) {
    const day = time.slice(0, 10);
    if (!bodies.has(day)) bodies.set(day, bodyOf(day));
    bodies.get(day).append(rows.get(shown));
  }
  const table = place("departures");
  for (const body of [...table.tBodies]) body.remove();
  table.append(...bodies.values());
  table.classList.toggle("without-platforms", [...rows.values()].every((row) => !row.querySelector(".platform").textContent));
}

/** Draws what has changed: with each answer, and each second. */
function drawBoard() {
  if (!board) return;
  const left = board.departures.filter(({ time }) => Date.parse(time) >= now());
  const departures = new Map(left.map((departure) => [JSON.stringify(departure), departure]));
  if ([...departures.keys()].join() !== [...rows.keys()].join()) layOut(departures);
  for (const [shown, departure] of departures) write(rows.get(shown).querySelector(".wait"), timeTo(departure));
  write(place("clock"), clock());
  place("departures").hidden = !left.length;
}

async function showBoard(stop, isShown) {
  board = null;
  place("stop").value = [...names.labels].find(([, id]) => id === stop)?.[0] ?? stop;
  document.title = `${nameOf(stop)} – Departures`;
  while (isShown()) {
    const pause = await pollBoard(stop, isShown);
    await new Promise((resume) => setTimeout(resume, pause));
  }
}

/** Asks for a board once, and gives the milliseconds until the next time. After a fault the last board stays. */
async function pollBoard(stop, isShown) {
  try {
    const told = await ask("board", { stop });
    if (told.read !== names.read) await loadNames();
    if (!isShown()) return 0;
    board = told;
    write(place("board-title"), nameOf(stop));
    place("board").hidden = false;
    say(told.departures.length ? "" : "Nothing departs here within a week. The feed may have ended.");
    drawBoard();
    return POLL;
  } catch (fault) {
    if (isShown()) sayFault(fault, board ? `The departures below were told at ${board.now.slice(11, 16)}.` : "");
    return AGAIN;
  }
}

// ---- timetables

/** A time of a service day from its seconds. Past midnight it has 24 hours and more. */
function timeOf(seconds) {
  const minutes = Math.floor(seconds / 60);
  return [Math.floor(minutes / 60), minutes % 60].map((part) => String(part).padStart(2, "0")).join(":");
}

const unseen = (text) => element("span", { className: "unseen" }, text);

/** A table of some trips of a sheet, from the one with this number on. */
function tableOf(sheet, from, caption) {
  const headings = ["Stop", ...sheet.trips.slice(from, from + TRIPS).map((trip) => `trip ${trip}`)];
  const head = element("tr", {}, ...headings.map((heading) => element("th", { scope: "col" }, unseen(heading))));
  const rows = sheet.stops.map((stop, row) => {
    const times = sheet.times[row].slice(from, from + TRIPS);
    const cells = times.map((time) => element("td", {}, time === null ? "–" : timeOf(time)));
    return element("tr", {}, element("th", { scope: "row" }, nameOf(stop)), ...cells);
  });
  const title = element("caption", {}, element("span", {}, caption));
  return element("table", {}, title, element("thead", {}, head), element("tbody", {}, ...rows));
}

/** The same in a frame that can be scrolled, also by keyboard. */
function blockOf(sheet, from, part) {
  const caption = `${nameOf(sheet.stops[0])} to ${nameOf(sheet.stops.at(-1))}${part}`;
  const block = element("div", { className: "block", tabIndex: 0 }, tableOf(sheet, from, caption));
  block.setAttribute("role", "region");
  block.setAttribute("aria-label", caption);
  return block;
}

/** The blocks of a sheet, each of a few trips, between which a page may end. */
function blocksOf(sheet) {
  const count = Math.ceil(sheet.trips.length / TRIPS);
  return Array.from({ length: count }, (_, index) => blockOf(sheet, index * TRIPS, count > 1 ? ` (${index + 1} of ${count})` : ""));
}

function notesOf(sheets) {
  const times = sheets.flatMap((sheet) => sheet.times).flat();
  return [
    times.some((time) => time >= 86_400) && "Times from 24:00 on are after midnight, on the next day.",
    times.includes(null) && "– The timetable gives no time for this stop.",
  ].filter(Boolean);
}

async function showTimetable(route, day, isShown) {
  place("route").value = route;
  place("day").value = day;
  try {
    const { sheets, read } = await ask("timetable", { route, day });
    if (read !== names.read) await loadNames();
    if (!isShown()) return;
    const named = names.routes.get(route) ?? { short_name: route, long_name: "" };
    const { short_name, long_name } = named;
    place("timetable-title").replaceChildren(badge(short_name || long_name, named), " ", short_name && long_name);
    place("timetable-day").dateTime = day;
    write(place("timetable-day"), inWords(day));
    place("sheets").replaceChildren(...sheets.flatMap(blocksOf));
    place("notes").replaceChildren(...notesOf(sheets).map((note) => element("p", {}, note)));
    place("timetable").hidden = false;
    say(sheets.length ? "" : "Nothing runs on this day.");
    document.title = `${nameOfRoute(named)} – ${inWords(day)}`;
  } catch (fault) {
    if (isShown()) sayFault(fault);
  }
}

// ---- the view that the address names: #stop=ID, or #route=ID&day=YYYY-MM-DD

let turn = 0;

/** Shows what the address names. What was asked for another address is shown no more. */
function show() {
  const mine = ++turn;
  const isShown = () => turn === mine;
  const fields = Object.fromEntries(new URLSearchParams(location.hash.slice(1)));
  const isTimetable = "route" in fields || "timetable" in fields;
  for (const id of ["board", "timetable"]) place(id).hidden = true;
  place("choose-stop").hidden = isTimetable;
  place("choose-route").hidden = !isTimetable;
  for (const [id, isHere] of [["to-board", !isTimetable], ["to-timetable", isTimetable]]) {
    place(id).setAttribute("aria-current", isHere ? "page" : "false");
    if (isHere && location.hash) place(id).href = location.hash;
  }
  document.title = isTimetable ? "Timetable" : "Departures";
  say("");
  if ("stop" in fields) showBoard(fields.stop, isShown);
  else if ("route" in fields) showTimetable(fields.route, fields.day ?? "", isShown);
  else say(isTimetable ? "Choose a route and a day." : "Choose a stop.");
}

function go(event, fields) {
  event.preventDefault();
  if (Object.values(fields).every((value) => value !== undefined)) location.hash = new URLSearchParams(fields);
}

async function start() {
  try {
    await loadNames();
    show();
  } catch (fault) {
    sayFault(fault);
    setTimeout(start, AGAIN);
  }
}

place("choose-stop").addEventListener("submit", (event) => go(event, { stop: stopOf(place("stop").value) }));
place("choose-route").addEventListener("submit", (event) => go(event, { route: place("route").value, day: place("day").value }));
place("print").addEventListener("click", () => print());
addEventListener("hashchange", show);
setInterval(drawBoard, 1000);
start();
