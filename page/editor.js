"use strict";
// The blueprint's text: its colours, the numbers of its lines, and the line at fault. A text area lies over the coloured text.

const KINDS = new Set((
  "lines range empty failed head last ignore map filter filter_not take_while drop_while take drop limit grouped map_concat fold scan reduce " +
  "buffer recover valve trip plug custom group_by split_when split_after merge concat interleave merge_sorted zip broadcast balance " +
  "partition unzip merge_hub broadcast_hub").split(" "));
const ATTRIBUTES = new Set("decider stop resume restart async keep each shutdown abort backpressure drop_head drop_tail drop_buffer drop_new fail".split(" "));
// Above this many bytes a text has no colours, so that typing stays quick.
const MOST_COLOURED = 100000;

/** Returns the class of a word of a line: `i` is its number, `before` the word before it. */
function classOfWord(word, i, before) {
  if (i === 0) return "declaration";
  if (KINDS.has(word) && (i === 2 || before === "|")) return "kind";
  if (i > 1 && ATTRIBUTES.has(word)) return "attribute";
  return /^-?\d+$/.test(word) ? "number" : "";
}

function part(name, text) {
  const element = document.createElement("span");
  if (name) element.className = name;
  element.textContent = text;
  return element;
}

/** Returns the parts of a line, each in its colour. */
function colouredParts(line) {
  if (/^ *#/.test(line)) return [part("comment", line)];
  const words = [];
  return line.split(/( +)/).filter(Boolean).map((text) => {
    if (text.trim() === "") return text;
    const name = classOfWord(text, words.length, words[words.length - 1]);
    words.push(text);
    return name ? part(name, text) : text;
  });
}

/** Returns the element of a line, with its end. */
function lineElement({ text, isFault, isColoured }) {
  const parts = isColoured ? colouredParts(text) : [text];
  const line = part(isFault ? "fault" : "", "");
  line.append(...parts, "\n");
  return line;
}

const areSame = (a, b) => a.text === b.text && a.isFault === b.isFault && a.isColoured === b.isColoured;

class Editor {
  constructor(area, colours, numbers) {
    Object.assign(this, { area, colours, numbers, faultLine: 0, lines: [] });
    area.addEventListener("scroll", () => this.follow());
  }

  get text() { return this.area.value; }
  set text(text) {
    this.area.value = text;
    this.show(0);
  }

  /** Shows the colours, and marks line `faultLine`, counted from 1; 0 marks none. */
  show(faultLine = this.faultLine) {
    this.faultLine = faultLine;
    const isColoured = this.text.length <= MOST_COLOURED;
    const lines = this.text.split("\n").map((text, i) => ({ text, isFault: i + 1 === faultLine, isColoured }));
    this.showLines(lines);
    const digits = String(lines.length).length;
    this.numbers.textContent = lines.map((line, i) => (line.isFault ? "✗" : " ") + String(i + 1).padStart(digits)).join("\n") + "\n";
    this.area.setAttribute("aria-invalid", String(faultLine > 0));
    this.follow();
  }

  /** Makes only those lines anew that are others than before, so that typing stays quick in a long text. */
  showLines(lines) {
    const old = this.lines, least = Math.min(old.length, lines.length);
    let before = 0, after = 0;
    while (before < least && areSame(old[before], lines[before])) before++;
    while (after < least - before && areSame(old[old.length - 1 - after], lines[lines.length - 1 - after])) after++;
    const shown = [...this.colours.children];
    for (const line of shown.slice(before, old.length - after)) line.remove();
    const made = lines.slice(before, lines.length - after).map(lineElement);
    if (before === 0) this.colours.prepend(...made);
    else shown[before - 1].after(...made);
    this.lines = lines;
  }

  /** Keeps the colours and the numbers where the text is. */
  follow() {
    this.colours.scrollTop = this.numbers.scrollTop = this.area.scrollTop;
    this.colours.scrollLeft = this.area.scrollLeft;
  }

  /** Puts the cursor on a line, which is selected. */
  goTo(line) {
    const lines = this.text.split("\n");
    const begin = lines.slice(0, line - 1).reduce((sum, it) => sum + it.length + 1, 0);
    this.area.focus();
    this.area.setSelectionRange(begin, begin + (lines[line - 1] ?? "").length);
  }
}
