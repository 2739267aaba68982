// Finds places and trains while the reader types. The arrow keys move among them, and Enter opens
// the first.
"use strict";
const box = document.getElementById("text");
// The number of milliseconds after which the answer of a server is no longer awaited.
const PATIENCE = 7000;
// The request that is under way, and the text whose places are shown.
let asking = null;
let shown = box.defaultValue;

// Shows the places on another page.
function show(other) {
  document.getElementById("found").replaceWith(other.getElementById("found"));
  document.getElementById("naming-choice")?.replaceWith(other.getElementById("naming-choice"));
  // A screen reader reads aloud how many there are.
  document.getElementById("number").textContent = other.getElementById("number").textContent;
  document.title = other.title;
}

// Asks for the places that match the typed text. An answer to an earlier text is dropped.
async function find() {
  const text = box.value;
  if (text === shown && !asking) return;
  asking?.abort();
  const own = asking = new AbortController();
  const address = new URL(location.href);
  if (text) address.searchParams.set("q", text);
  else address.searchParams.delete("q");
  try {
    setTimeout(() => own.abort(), PATIENCE);
    const answer = await fetch(address, {cache: "no-store", signal: own.signal});
    if (!answer.ok) throw new Error(answer.status);
    const other = new DOMParser().parseFromString(await answer.text(), "text/html");
    if (asking !== own) return;
    show(other);
    shown = text;
    history.replaceState(null, "", address);
  } catch {
    if (asking === own) document.getElementById("number").textContent = "The server gives no answer";
  }
  if (asking === own) asking = null;
}

// Moves among the places found. The box is above the first one.
function move(event) {
  const links = [...document.querySelectorAll("#found a")];
  const at = links.indexOf(document.activeElement);
  if (at < 0 && document.activeElement !== box || event.ctrlKey || event.altKey || event.metaKey) return;
  const next = {ArrowDown: Math.min(at + 1, links.length - 1), ArrowUp: at - 1, Escape: -1}[event.key];
  if (next === undefined || at < 0 && event.key !== "ArrowDown") return;
  event.preventDefault();
  (links[next] ?? box).focus();
}

document.getElementById("keys").hidden = false;
document.addEventListener("keydown", move);
box.addEventListener("input", find);
document.getElementById("find").addEventListener("submit", async (event) => {
  event.preventDefault();
  await find();
  if (box.value.trim() && box.value === shown) document.querySelector(".found a")?.click();
});
box.setSelectionRange(box.value.length, box.value.length);
// Searches for text that was typed before the script ran, or that the browser restored.
find();
addEventListener("pageshow", find);
