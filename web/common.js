"use strict";
// What both pages have. MODULE (base64) is set before this text, and the page's own script follows, with WORDS by language.

let exported = null; // by the module

async function start() {
  const bytes = Uint8Array.from(atob(MODULE), (letter) => letter.charCodeAt(0));
  exported = (await WebAssembly.instantiate(bytes, {})).instance.exports;
}

let language = (navigator.language ?? "en").toLowerCase().startsWith("de") ? "de" : "en";
const $ = (id) => document.getElementById(id);

function element(tag, text, attributes = {}) {
  const made = document.createElement(tag);
  if (text !== null) made.textContent = text;
  for (const [name, value] of Object.entries(attributes)) made.setAttribute(name, value);
  return made;
}

// A table whose columns have these names among the words, each with its class. (It has roles, since a narrow page lays out the
// cells one below the other.)
function tableOf(caption, columns, rows) {
  const table = element("table", null, { role: "table" });
  const [head, body] = ["thead", "tbody"].map((tag) => element(tag, null, { role: "rowgroup" }));
  const heads = element("tr", null, { role: "row" });
  for (const [name, kind] of columns) {
    heads.append(element("th", WORDS[language][name], { scope: "col", role: "columnheader", ...(kind ? { class: kind } : {}) }));
  }
  head.append(heads);
  body.append(...rows);
  table.append(element("caption", caption), head, body);
  return table;
}

// A row of a table: of each cell its column's title, its text, and its class.
function rowOf(cells, attributes = {}) {
  const row = element("tr", null, { role: "row", tabindex: "0", ...attributes });
  for (const [label, text, kind] of cells) row.append(element("td", text, { role: "cell", "data-label": label, ...(kind ? { class: kind } : {}) }));
  return row;
}

function speak() {
  const words = WORDS[language];
  document.documentElement.lang = language;
  document.title = words.title;
  for (const one of document.querySelectorAll("[data-text]")) one.textContent = words[one.dataset.text];
  $("language").textContent = words.other;
  $("language").lang = language === "en" ? "de" : "en";
  $("refused").textContent = words.refused;
}

// Begins the module. A browser that can't gets a sentence in place of the form.
async function begins() {
  try {
    await start();
    return true;
  } catch {
    $("refused").hidden = false;
    $("form").hidden = true;
    return false;
  }
}
