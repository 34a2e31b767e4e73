"use strict";
// The files that a run may read. What a file holds are its bytes; a text area shows them where they are a text.

const FILE_NAME = /^[A-Za-z0-9][A-Za-z0-9._-]{0,63}$/;
const MOST_EDITED = 1 << 20;
const NAME_RULE = "A name is a letter or a digit, and then up to 63 letters, digits, points, _ or -.";

/** Returns the text of bytes, or null where they are no text that an editor keeps byte by byte. */
function textOfBytes(bytes) {
  try {
    return new TextDecoder("utf-8", { fatal: true, ignoreBOM: true }).decode(bytes);
  } catch {
    return null;
  }
}

function sizeInWords(bytes) {
  if (bytes === 1) return "1 byte";
  if (bytes < 10000) return `${bytes} bytes`;
  return bytes < 1e7 ? `${Math.round(bytes / 1000)} KB` : `${Math.round(bytes / 1e6)} MB`;
}

class InputFile {
  constructor(list, name, bytes) {
    this.list = list;
    this.bytes = bytes;
    this.element = document.getElementById("file").content.firstElementChild.cloneNode(true);
    const find = (selector) => this.element.querySelector(selector);
    Object.assign(this, { nameField: find(".name"), area: find("textarea"), note: find(".note"), fault: find(".fault") });
    this.nameField.value = name;
    this.nameField.addEventListener("input", () => list.changed());
    this.area.addEventListener("input", () => {
      this.bytes = new TextEncoder().encode(this.area.value);
      this.tell();
      list.changed();
    });
    find(".remove").addEventListener("click", () => list.remove(this));
    this.show();
  }

  get name() { return this.nameField.value.trim(); }

  show() {
    const text = this.bytes.length <= MOST_EDITED ? textOfBytes(this.bytes) : null;
    this.area.hidden = text === null;
    this.area.value = text ?? "";
    this.tell();
  }

  /** Says how large the file is, and what the text area cannot keep. */
  tell() {
    const notes = [sizeInWords(this.bytes.length)];
    if (this.area.hidden) notes.push(this.bytes.length > MOST_EDITED ? "too large to be shown here, and read as it is" : "no UTF-8 text, and read as it is");
    else if (this.bytes.includes(13)) notes.push("has CR characters; an edit here takes them out");
    this.note.textContent = notes.join("; ");
  }

  /** Shows what is wrong with the name; an empty text where nothing is. */
  blame(fault) {
    this.fault.textContent = fault;
    this.nameField.setAttribute("aria-invalid", String(fault !== ""));
    this.element.setAttribute("aria-label", `File ${this.name}`);
  }
}

class InputFiles {
  /** `reserved` returns the names that the page itself uses; `onChange` is called at each change. */
  constructor(element, reserved, onChange) {
    Object.assign(this, { element, reserved, onChange, files: [] });
  }

  add(name, bytes) {
    const file = new InputFile(this, name, bytes);
    this.files.push(file);
    this.element.append(file.element);
    this.changed();
    return file;
  }

  /** Adds a file, or puts its bytes into that of the same name. */
  put(name, bytes) {
    const known = this.files.find((file) => file.name === name);
    if (!known) return this.add(name, bytes);
    known.bytes = bytes;
    known.show();
    this.changed();
    return known;
  }

  remove(file) {
    const place = this.files.indexOf(file);
    this.files.splice(place, 1);
    file.element.remove();
    (this.files[Math.min(place, this.files.length - 1)]?.nameField ?? document.getElementById("add")).focus();
    this.changed();
  }

  clear() {
    this.files = [];
    this.element.replaceChildren();
  }

  freeName() {
    const taken = new Set([...this.files.map((file) => file.name), ...this.reserved()]);
    for (let i = 1; ; i++) if (!taken.has(`file${i}.txt`)) return `file${i}.txt`;
  }

  /** Returns what is wrong with the name of a file, in words; an empty text where nothing is. */
  faultOf(file) {
    if (!FILE_NAME.test(file.name)) return `No blueprint can name this file. ${NAME_RULE}`;
    if (this.files.some((other) => other !== file && other.name === file.name)) return `Two files have the name ${file.name}.`;
    return this.reserved().includes(file.name) ? `The page itself uses the name ${file.name}.` : "";
  }

  changed() {
    for (const file of this.files) file.blame(this.faultOf(file));
    this.onChange();
  }

  /** The first fault of a name; an empty text where there is none. */
  get fault() { return this.files.map((file) => this.faultOf(file)).find(Boolean) ?? ""; }

  /** The bytes of each file by its name. */
  get contents() { return Object.fromEntries(this.files.map((file) => [file.name, file.bytes])); }
}
