"use strict";
// What comes of a run, as the page shows it: what a report says, files that were written, the picture as a table, and words for
// runs that a page cannot hold.

const OUT_OF_TURNS = 5, NO_MEMORY = 9, WRITE_FAULT = 8;
const MOST_SHOWN = 20000;

const textShown = (bytes) => new TextDecoder().decode(bytes);

/** Returns what a report says of the wires and the sinks, as `pictureOf` takes it. */
function runOfReport(report) {
  const wires = [], sinks = Object.create(null); // (a sink may have the name `constructor`)
  for (const [, number, sent, asked, shut] of report.matchAll(/^wire (\d+) sent (\d+) (\w+) (\w+)$/gm)) {
    wires[number] = { sent: Number(sent), isAsked: asked === "asked", isShut: shut === "shut" };
  }
  for (const [, name, said] of report.matchAll(/^sink (\S+) (.*)$/gm)) sinks[name] = said;
  return { wires, sinks };
}

/** Says in words what stopped a program that did not end by itself. */
function wordsOfFault(fault) {
  if (/could not be loaded/.test(fault)) return "This browser could not load the program.";
  if (/stack/i.test(fault)) return "The run needed a deeper stack than a page has, and was ended.";
  if (/out of memory|allocat/i.test(fault)) return "The run wanted more memory than this page has, and was ended.";
  return "The program stopped in the middle of the run, and left no report. This is a fault of this build or of this page.";
}

/** Says in words what a page has less of than a machine, where the run met it; else nothing. */
function wordsOfLimits(end) {
  const elsewhere = "The program that `make` builds has no such limit.";
  if (end.code === NO_MEMORY) return `This page gives a run 1 GB of memory, and the run wanted more. ${elsewhere}`;
  if (end.code === WRITE_FAULT && end.isFull) return `This page keeps at most 64 MB of what a run writes, and the run wrote more. ${elsewhere}`;
  return "";
}

function element(name, properties = {}, ...children) {
  const made = Object.assign(document.createElement(name), properties);
  made.append(...children);
  return made;
}

/** Returns a file that was written: its name, its size, a link that saves it, and its first part. */
function writtenFile(name, bytes) {
  const text = textShown(bytes.subarray(0, MOST_SHOWN));
  const save = element("button", { type: "button", textContent: "Save" });
  save.setAttribute("aria-label", `Save ${name}`);
  save.addEventListener("click", () => saveFile(name, bytes));
  const size = sizeInWords(bytes.length) + (bytes.length > MOST_SHOWN ? `; the first ${sizeInWords(MOST_SHOWN)} are shown` : "");
  const contents = element("pre", { textContent: text, tabIndex: 0 });
  contents.setAttribute("role", "region");
  contents.setAttribute("aria-label", `Contents of ${name}`);
  const head = element("div", { className: "head" }, element("b", { textContent: name }), save, element("span", { className: "dim", textContent: size }));
  const file = element("div", { className: "file" }, head, contents);
  file.dataset.name = name;
  return file;
}

function saveFile(name, bytes) {
  const address = URL.createObjectURL(new Blob([bytes]));
  element("a", { href: address, download: name }).click();
  setTimeout(() => URL.revokeObjectURL(address), 10000);
}

/** Returns a table with a caption, the heads of its columns, and its rows. */
function tableOf(caption, heads, rows) {
  const headCells = heads.map((text) => element("th", { textContent: text, scope: "col" }));
  const bodyRows = rows.map((texts) => element("tr", {}, ...texts.map((text) => element("td", { textContent: text }))));
  const head = element("thead", {}, element("tr", {}, ...headCells));
  return element("table", {}, element("caption", { textContent: caption }), head, element("tbody", {}, ...bodyRows));
}

/** Returns the tables of the nodes and of the wires of a picture. */
function tablesOf({ nodes, wires }) {
  const place = (name, port) => (port ? `${name} (${port})` : name);
  const nodeRows = nodes.map((node) => [node.name, ROLE_WORDS[node.role], node.rows.map((it) => it.text).join(" ")]);
  const wireRows = wires.map((wire, i) => {
    const count = wire.count;
    const counted = count ? [count.sent, stateOf(count).words] : ["", ""];
    return [i, place(wire.from, wire.output), place(wire.to, wire.input), wire.type, wire.lane, ...counted, wire.rule ?? ""];
  });
  return [
    tableOf("Nodes", ["Node", "Role", "What it does"], nodeRows),
    tableOf("Wires", ["Wire", "From (output)", "To (input)", "Type", "Lane", "Sent", "State", "Rule"], wireRows),
  ];
}

const ROLE_WORDS = {
  source: "source", sink: "sink", stage: "stage", fan: "several inputs or outputs", hub: "hub", holds: "holds elements",
  substreams: "substreams", stop: "kill switch", handed: "handed in",
};
