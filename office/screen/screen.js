// The moving parts of a docker's page: the clock, the trains that are past, and the docker itself,
// which is renewed every ten seconds if it has changed.
"use strict";
const page = document.documentElement;
const london = new Intl.DateTimeFormat("sv-SE", {timeZone: "Europe/London", dateStyle: "short", timeStyle: "medium"});
// Whether the page always shows today: its address is /TIPLOC, without a date.
const isOfToday = location.pathname.split("/").length === 2;
// The number of milliseconds after which a server that doesn't answer counts as hung.
const PATIENCE = 7000;
let isUnfolded = false;
let isAsking = false;
let lastAnswer = null;

// The date and the time in Great Britain, such as 2024-06-12 and 09:02:30.
function now() {
  return london.format(Date.now() + Number(page.dataset.ahead)).split(" ");
}

// The half minutes from midnight to the start of this minute.
function halfMinutes(time) {
  const [hours, minutes] = time.split(":").map(Number);
  return hours * 120 + minutes * 2;
}

// The number of days from one date to another.
function daysBetween(from, to) {
  return Math.round((Date.parse(to) - Date.parse(from)) / 86400000);
}

// Folds away the trains before this minute, or before the time that the reader chose. On a page of
// another day it folds none. The page of today continues with tomorrow's trains, even if no new
// page comes.
function fold() {
  const [date, time] = now();
  const table = document.getElementById("docker");
  // A list of changes is shown whole.
  if (!table || "whole" in table.dataset) return;
  const days = daysBetween(page.dataset.date, date);
  const isNow = days === 0 || isOfToday && days > 0;
  const start = "at" in page.dataset ? Number(page.dataset.at) : isNow ? halfMinutes(time) + 2880 * days : 0;
  const rows = table.querySelectorAll("tr[data-at]");
  let past = 0;
  for (const row of rows) {
    const isPast = Number(row.dataset.at) < start;
    row.classList.toggle("past", isPast);
    if (isPast) past += 1;
  }
  const button = document.getElementById("fold");
  button.hidden = past === 0;
  button.textContent = `${isUnfolded ? "▾ hide" : "▸ show"} ${past} ${"at" in page.dataset ? "earlier" : "past"}`;
  button.setAttribute("aria-expanded", isUnfolded);
  table.classList.toggle("folded", !isUnfolded);
  document.getElementById("no-more").hidden = isUnfolded || past < rows.length;
}

// The age of what is known. If it is more than a day and a half, a line across the page says so.
function age() {
  if (!page.dataset.newest) return;
  const days = (Date.parse(now().join("T")) - Date.parse(page.dataset.newest)) / 86400000;
  document.getElementById("age").textContent = `${Math.floor(days)} ${days < 2 ? "day" : "days"} old`;
  document.getElementById("old").hidden = days <= 1.5;
}

// Moves the line that marks the time on the platforms.
function mark() {
  const svg = document.querySelector(".across > svg");
  if (!svg) return;
  const [date, time] = now();
  svg.querySelector(".now")?.remove();
  if (date !== page.dataset.date) return;
  const line = document.createElementNS("http://www.w3.org/2000/svg", "path");
  line.setAttribute("class", "now");
  line.setAttribute("d", `M${70 + halfMinutes(time) * 2} 18V${svg.height.baseVal.value}`);
  svg.append(line);
}

// The names of the platforms by themselves, which stay in place while the graph is moved across.
function names(graph) {
  const svg = graph.cloneNode(false);
  svg.setAttribute("viewBox", `0 0 60 ${graph.getAttribute("height")}`);
  svg.setAttribute("width", 60);
  svg.append(...[...graph.querySelectorAll(":scope > title, :scope > text[x='8']")].map((it) => it.cloneNode(true)));
  const box = document.createElement("div");
  box.className = "names";
  box.append(svg);
  return box;
}

// Fetches the platforms of the day when the reader opens them, and shows them from then on.
async function draw(across) {
  if (across.dataset.of && !across.firstElementChild) {
    try {
      const answer = await fetch(across.dataset.of, {signal: AbortSignal.timeout(PATIENCE)});
      if (!answer.ok) throw new Error(answer.status);
      const graph = document.importNode(new DOMParser().parseFromString(await answer.text(), "image/svg+xml").documentElement, true);
      across.replaceChildren(names(graph), graph);
    } catch {
      across.textContent = "The server gives no answer";
      return;
    }
    mark();
  }
  const first = document.querySelector("#docker tr[data-at]");
  across.scrollLeft = (now()[0] === page.dataset.date ? halfMinutes(now()[1]) : Number(first.dataset.at)) * 2 - 200;
}

function tick() {
  const clock = document.getElementById("clock");
  if (clock) clock.textContent = now()[1].slice(0, 5);
  fold();
  age();
  mark();
}

// Runs every few seconds. At midnight it asks for a new page at once.
function step() {
  tick();
  if (now()[0] !== page.dataset.today) renew();
}

// Says whether the page is being renewed. A screen reader reads this text aloud.
function say(text, isBad) {
  const status = document.getElementById("status");
  if (status.textContent !== text) status.textContent = text;
  status.classList.toggle("bad", isBad);
}

// Shows the content of another answer of the server, all at once.
function show(text) {
  const other = new DOMParser().parseFromString(text, "text/html");
  if (other.documentElement.dataset.version !== page.dataset.version) return location.reload();
  for (const name of ["tag", "date", "today", "newest", "at"]) {
    if (name in other.documentElement.dataset) page.dataset[name] = other.documentElement.dataset[name];
    else delete page.dataset[name];
  }
  page.className = other.documentElement.className;
  const isOpen = document.getElementById("platforms")?.open;
  document.title = other.title;
  // What the reader is typing or choosing stays.
  const tools = document.getElementById("tools");
  if (!tools.contains(document.activeElement) && !tools.querySelector("details[open]")) tools.replaceWith(other.getElementById("tools"));
  for (const part of ["header", "main"]) document.querySelector(part).replaceWith(other.querySelector(part));
  // The margins of a sheet of paper say what the page says.
  const sheet = document.getElementById("paper").sheet;
  sheet.deleteRule(0);
  sheet.insertRule(other.getElementById("paper").textContent);
  const platforms = document.getElementById("platforms");
  if (platforms && isOpen) platforms.open = true;
}

// Asks whether there is a new docker. The old one stays if there is no answer within seconds.
async function renew() {
  if (isAsking) return;
  isAsking = true;
  let trouble = "", isNew = false;
  try {
    const answer = await fetch(location.href, {headers: {"If-None-Match": `"${page.dataset.tag}"`}, cache: "no-store", signal: AbortSignal.timeout(PATIENCE)});
    isNew = answer.ok;
    if (answer.ok) show(await answer.text());
    else if (answer.status !== 304) trouble = `answer ${answer.status}`;
  } catch {
    trouble = "no answer";
  }
  isAsking = false;
  if (!trouble) lastAnswer = now()[1].slice(0, 5);
  tick();
  if (trouble) say(`Not renewed since ${lastAnswer}: ${trouble}`, true);
  else if (isNew) say(`Another docker came at ${lastAnswer}`, false);
  else if (document.getElementById("status").classList.contains("bad")) say(`Renewed at ${lastAnswer}`, false);
}

document.addEventListener("click", (event) => {
  if (event.target.id !== "fold") return;
  isUnfolded = !isUnfolded;
  fold();
});
document.addEventListener("toggle", (event) => {
  if (event.target.id === "platforms" && event.target.open) draw(event.target.querySelector(".across"));
}, true);
lastAnswer = now()[1].slice(0, 5);
tick();
setInterval(step, 5000);
setInterval(renew, Number(new URLSearchParams(location.hash.slice(1)).get("renew") || 10) * 1000);
