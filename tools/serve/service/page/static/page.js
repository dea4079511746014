"use strict";
// What a page does beyond reading: times become local, plots are read at a place, and what changes comes without a reload.

function localTimes(root) {
  const format = new Intl.DateTimeFormat(undefined, { dateStyle: "medium", timeStyle: "medium" });
  for (const time of root.querySelectorAll("time.moment")) {
    const when = new Date(time.dateTime);
    if (!time.title && !Number.isNaN(when.getTime())) {
      time.title = time.textContent;
      time.textContent = format.format(when);
    }
  }
}

function cellOf(row, name) {
  return Array.from(row.cells).find((cell) => cell.dataset.name === name);
}

function readPlots(plots) {
  const details = document.getElementById(plots.dataset.reads);
  const rows = details ? Array.from(details.querySelectorAll("tbody tr")) : [];
  if (rows.length < 2) { return; }
  const reader = document.createElement("div");
  reader.className = "reader";
  const label = document.createElement("label");
  const said = document.createElement("span");
  const range = document.createElement("input");
  Object.assign(range, { type: "range", min: "0", max: String(rows.length - 1), value: String(rows.length - 1), id: "read-" + plots.dataset.reads });
  label.append("Read the plot at: ");
  label.htmlFor = range.id;
  reader.append(label, said, range);
  plots.append(reader);
  const figures = Array.from(plots.querySelectorAll("figure"));
  const show = (isAsked) => {
    const row = rows[Number(range.value)];
    const text = "block " + cellOf(row, "block").textContent + ", " + cellOf(row, "time").textContent;
    said.textContent = text;
    range.setAttribute("aria-valuetext", text + ", " + figures.map((figure) => showFigure(figure, row, Number(range.value), isAsked)).join(", "));
  };
  range.addEventListener("input", () => show(true));
  for (const figure of figures) {
    figure.querySelector("svg").addEventListener("pointermove", (event) => {
      range.value = String(nearest(figure, event));
      show(true);
    });
  }
  show(false);
}

function showFigure(figure, row, place, isAsked) {
  const at = figure.dataset.places.split(" ")[place];
  const marker = figure.querySelector(".marker");
  marker.setAttribute("x1", at);
  marker.setAttribute("x2", at);
  marker.setAttribute("visibility", isAsked ? "visible" : "hidden");
  return Array.from(figure.querySelectorAll("[data-line]")).map((value) => {
    value.textContent = cellOf(row, value.dataset.line).textContent;
    return value.dataset.line + " " + value.textContent;
  }).join(", ");
}

function nearest(figure, event) {
  const svg = figure.querySelector("svg");
  const box = svg.getBoundingClientRect();
  const x = (event.clientX - box.left) / box.width * svg.viewBox.baseVal.width;
  const places = figure.dataset.places.split(" ").map(Number);
  let best = 0;
  places.forEach((each, place) => { if (Math.abs(each - x) < Math.abs(places[best] - x)) { best = place; } });
  return best;
}

function prepare(root) {
  localTimes(root);
  root.querySelectorAll(".plots").forEach(readPlots);
}

function say(text) {
  document.getElementById("news").textContent = text;
}

// The focus and what is open or chosen stay where they are when the content is put anew.
function placesOf(main) {
  const at = document.activeElement;
  const links = Array.from(main.querySelectorAll("a, button, input, summary"));
  const ranges = Array.from(main.querySelectorAll("input[type=range]"));
  return {
    open: Array.from(main.querySelectorAll("details[open]")).map((each) => each.id),
    ranges: ranges.filter((each) => each.value !== each.max).map((each) => [each.id, each.value]),
    name: at && main.contains(at) ? [at.tagName, at.id, at.getAttribute("href"), links.indexOf(at)] : null,
  };
}

function putBack(main, places) {
  for (const details of main.querySelectorAll("details")) {
    if (places.open.includes(details.id)) { details.open = true; }
  }
  for (const [id, value] of places.ranges) {
    const range = document.getElementById(id);
    if (range) { range.value = value; range.dispatchEvent(new Event("input")); }
  }
  if (!places.name) { return; }
  const [tag, id, href, place] = places.name;
  const links = Array.from(main.querySelectorAll("a, button, input, summary"));
  const same = links.find((each) => id && each.id === id) || links.find((each) => each.tagName === tag && href && each.getAttribute("href") === href);
  (same || links[place] || main).focus({ preventScroll: true });
}

let running = null;

async function renew() {
  if (running) { running.again = true; return; }
  running = { again: false };
  try {
    const answer = await fetch(location.pathname + location.search);
    const fresh = new DOMParser().parseFromString(await answer.text(), "text/html");
    const from = fresh.getElementById("main");
    const main = document.getElementById("main");
    if (answer.ok && from) {
      const places = placesOf(main);
      main.replaceChildren(...Array.from(from.childNodes));
      main.dataset.head = from.dataset.head;
      prepare(main);
      putBack(main, places);
    }
  } catch (error) {
    reach(false);
  } finally {
    const again = running.again;
    running = null;
    if (again) { renew(); }
  }
}

function isWriting() {
  const at = document.activeElement;
  return Boolean(at && at.closest("main") && at.matches("textarea, input:not([type=range])"));
}

function changed() {
  const main = document.getElementById("main");
  if (main.dataset.live === "yes" && !isWriting()) { renew(); }
}

function reach(isThere) {
  const said = isThere ? "" : "The node cannot be reached: what stands here may be old. It is tried again.";
  const place = document.getElementById("reach");
  if (place.textContent !== said) { place.textContent = said; }
}

const MILLISECONDS_TO_RETRY = 5000;
let events = null;

// A page that is not looked at keeps no connection: a browser opens few to one host.
function listenWhileShown() {
  const isShown = document.visibilityState === "visible";
  if (isShown && !events) { listen(); }
  if (!isShown) { leave(); }
}

function leave() {
  if (events) { events.close(); }
  events = null;
}

function listen() {
  const main = document.getElementById("main");
  const known = {};
  events = new EventSource("/node/events");
  events.addEventListener("open", () => reach(true));
  events.addEventListener("error", () => {
    reach(false);
    if (events && events.readyState === EventSource.CLOSED) {
      // the service refused the stream: a browser does not try again by itself
      leave();
      setTimeout(listenWhileShown, MILLISECONDS_TO_RETRY);
    }
  });
  events.addEventListener("block", (event) => {
    const block = JSON.parse(event.data);
    if (!main.dataset.head) { main.dataset.head = block.stamp; }
    if (main.dataset.head === block.stamp) { return; }
    say("Block " + Number(block.number) + " has come in.");
    changed();
    if (main.dataset.live !== "yes") { main.dataset.head = block.stamp; }
  });
  for (const name of ["pool", "branches"]) {
    events.addEventListener(name, (event) => {
      if (name in known && known[name] !== event.data && location.pathname !== "/") { changed(); }
      known[name] = event.data;
    });
  }
}

prepare(document);
listenWhileShown();
document.addEventListener("visibilitychange", listenWhileShown);
window.addEventListener("pagehide", leave);
window.addEventListener("pageshow", listenWhileShown);
