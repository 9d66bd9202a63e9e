"use strict";

const find = id => document.getElementById(id);
const lines = JSON.parse(find("schedule").textContent);
const columns = document.querySelectorAll("g.column");
const messages = Array.from(document.querySelectorAll("g.message"), group => (
  { group, sent: Number(group.dataset.sent), until: Number(group.dataset.until), fate: group.dataset.fate }
));

let line = 0;        // the line shown, from 1 on
let tables = [];     // the sentences after it: [subject, text]
let cursor = null;   // the column that is marked
let seenRow = null;  // the row of the picture that was scrolled to
let addressTimer = 0;

// What one line changes: a subject without a text is gone, another is put at its place.
function change([subject, text, place]) {
  if (text === null) {
    tables = tables.filter(([other]) => other !== subject);
  } else {
    const known = place < tables.length && tables[place][0] === subject;
    tables.splice(place, known ? 1 : 0, [subject, text]);
  }
}

// The changes are known forwards only; going back begins anew.
function tablesAfter(from, to) {
  if (to < from) {
    tables = [];
    from = 0;
  }
  lines.slice(from, to).forEach(each => each.changes.forEach(change));
}

function element(tag, text) {
  const made = document.createElement(tag);
  made.textContent = text;
  return made;
}

function showTold(told) {
  find("told").className = told.code < 16 ? "accepted" : "refused";
  find("text").textContent = told.text;
  find("meaning").textContent = told.meaning;
  find("details").replaceChildren(...told.details.map(detail => element("li", detail)));
}

function showTables(told) {
  const changed = new Set(told.changes.map(([subject]) => subject));
  const rows = tables.map(([subject, text]) => {
    const row = document.createElement("div");
    row.className = changed.has(subject) ? "changed" : "";
    row.append(element("dt", subject), element("dd", text));
    return row;
  });
  find("tables").replaceChildren(...(rows.length ? rows : [element("div", "No set-up has been accepted yet.")]));
}

// A refused line stands at the column before it, and nothing arrives by it.
function showPicture(told) {
  const at = told.column === null ? -1 : told.column;
  const arriving = told.code < 16 ? at : -1;
  messages.forEach(({ group, sent, until, fate }) => {
    group.classList.toggle("onway", sent <= at && at < until);
    group.classList.toggle("arrives", until === arriving && fate !== "waiting");
  });
  if (cursor) cursor.classList.remove("now");
  cursor = at < 0 ? null : columns[at];
  if (cursor) {
    cursor.classList.add("now");
    follow(cursor);
  }
}

// The picture's part of the page follows the cursor; inside a row the reader may scroll freely.
function follow(column) {
  const pane = find("picture"), seen = pane.getBoundingClientRect();
  const row = column.closest("g.row"), place = row.getBoundingClientRect();
  const hidden = place.bottom < seen.top + 40 || place.top > seen.bottom - 40;
  if (row !== seenRow || hidden) pane.scrollTop += place.top - seen.top - 6;
  seenRow = row;
  const { left, right } = column.getBoundingClientRect();
  if (left < seen.left + 20 || right > seen.right - 20) pane.scrollLeft += left - seen.left - seen.width / 2;
}

// One row fits its part of the page, where the window is high enough.
function fitRow() {
  const row = document.querySelector("g.row");
  if (row) find("picture").style.setProperty("--row", row.getBoundingClientRect().height + 24 + "px");
}

function show(wanted) {
  const next = Math.min(Math.max(Math.trunc(wanted) || 1, 1), lines.length);
  find("slider").value = find("number").value = next;
  if (next === line) return;
  tablesAfter(line, next);
  line = next;
  const told = lines[line - 1];
  find("back").disabled = line === 1;
  find("forward").disabled = line === lines.length;
  showTold(told);
  showTables(told);
  showPicture(told);
  clearTimeout(addressTimer); // browsers allow few changes of the address a second
  addressTimer = setTimeout(() => history.replaceState(null, "", "#" + line), 300);
}

const keys = {
  ArrowLeft: () => line - 1, ArrowRight: () => line + 1, Home: () => 1, End: () => lines.length,
};

function onKey(event) {
  const typing = event.target === find("number");
  if (typing || event.ctrlKey || event.altKey || event.metaKey || !(event.key in keys)) return;
  event.preventDefault();
  show(keys[event.key]());
}

const addressed = () => Number(location.hash.slice(1)) || 1;

document.body.classList.add("stepping"); // without this script the picture is whole
find("slider").max = find("number").max = lines.length;
find("count").textContent = lines.length;
find("slider").addEventListener("input", event => show(Number(event.target.value)));
find("number").addEventListener("change", event => show(Number(event.target.value) || line));
find("back").addEventListener("click", () => show(line - 1));
find("forward").addEventListener("click", () => show(line + 1));
document.addEventListener("keydown", onKey);
fitRow();
window.addEventListener("hashchange", () => show(addressed()));
show(addressed());
