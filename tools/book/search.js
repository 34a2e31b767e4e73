"use strict";
// The search of the book: it looks through INDEX, which make_book writes, so it needs no server. No word of it is read as markup.
const find = document.getElementById("find"), found = document.getElementById("found"), pages = document.getElementById("pages");

/** Returns how well a page fits what is looked for: its title first, then its headings, then how often it has the words. */
function fits(page, wanted) {
  const title = page.title.toLowerCase().includes(wanted) ? 50 : 0;
  const heads = page.heads.filter(([, text]) => text.toLowerCase().includes(wanted)).length * 10;
  return title + heads + page.text.toLowerCase().split(wanted).length - 1;
}

/** Makes a link of the list of what was found. */
function link(address, text) {
  const made = document.createElement("a");
  made.href = address;
  made.textContent = text;
  return made;
}

/** Makes the entry of a page: its title, the headings that fit, and the words round the first place. */
function entry(page, wanted) {
  const item = document.createElement("li");
  item.append(link(page.file, page.title));
  for (const [mark, text] of page.heads.filter(([, it]) => it.toLowerCase().includes(wanted)).slice(0, 4)) {
    const head = link(`${page.file}#${mark}`, text);
    head.className = "head";
    item.append(head);
  }
  const at = page.text.toLowerCase().indexOf(wanted);
  if (at >= 0) {
    const around = document.createElement("small");
    around.textContent = `… ${page.text.slice(Math.max(0, at - 30), at + 50)} …`;
    item.append(around);
  }
  return item;
}

function search() {
  const wanted = find.value.toLowerCase().trim();
  found.textContent = "";
  if (wanted.length < 2) return;
  const fitting = INDEX.map((page) => [page, fits(page, wanted)]).filter(([, points]) => points > 0);
  fitting.sort((a, b) => b[1] - a[1]);
  for (const [page] of fitting.slice(0, 12)) found.append(entry(page, wanted));
  if (!fitting.length) {
    const none = document.createElement("li");
    none.textContent = "No page has these words.";
    found.append(none);
  }
}

find.addEventListener("input", search);
if (window.matchMedia("(max-width: 760px)").matches) pages.open = false;
