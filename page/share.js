"use strict";
// A link that holds what stands in the page. It is in the fragment of the address, behind `#`, which a browser sends to nobody:
// `#page=` and the base64 (with - and _, and without =) of a raw deflate of JSON. docs/PAGE.md has its members.

const LINK_VERSION = 1;
// Browsers differ in how long an address may be; all current ones take this.
const MOST_LINK = 60000;

const lettersOf = (bytes) => {
  let letters = "";
  for (let i = 0; i < bytes.length; i += 8192) letters += String.fromCharCode(...bytes.subarray(i, i + 8192));
  return letters;
};
const toBase64 = (bytes) => btoa(lettersOf(bytes)).replace(/\+/g, "-").replace(/\//g, "_").replace(/=+$/, "");
const fromBase64 = (text) => Uint8Array.from(atob(text.replace(/-/g, "+").replace(/_/g, "/")), (letter) => letter.charCodeAt(0));

async function through(bytes, stream) {
  return new Uint8Array(await new Response(new Blob([bytes]).stream().pipeThrough(stream)).arrayBuffer());
}

/** Returns the fragment of a state: { blueprint, files, turns, moves, trace }, where `files` has bytes by names. */
async function fragmentOf(state) {
  const files = {}, bytes = {};
  for (const [name, contents] of Object.entries(state.files)) {
    const text = textOfBytes(contents);
    if (text === null) bytes[name] = toBase64(contents);
    else files[name] = text;
  }
  const json = JSON.stringify({ version: LINK_VERSION, ...state, files, bytes });
  return `#page=${toBase64(await through(new TextEncoder().encode(json), new CompressionStream("deflate-raw")))}`;
}

/** Returns the members of a link as they are used, and throws an Error with words where one is none. */
function stateOfJson(json) {
  const isText = (it) => typeof it === "string";
  const areTexts = (it) => it === undefined || (it !== null && typeof it === "object" && Object.values(it).every(isText));
  if (json?.version !== LINK_VERSION) throw new Error("it was made by another version of this page");
  if (!isText(json.blueprint) || !areTexts(json.files) || !areTexts(json.bytes)) throw new Error("its members are none of a link");
  const files = {};
  for (const [name, text] of Object.entries(json.files ?? {})) files[name] = new TextEncoder().encode(text);
  for (const [name, text] of Object.entries(json.bytes ?? {})) files[name] = fromBase64(text);
  const turns = isText(json.turns) ? json.turns : "", moves = isText(json.moves) ? json.moves : null;
  return { blueprint: json.blueprint, files, turns, moves, trace: json.trace === true };
}

/** Returns the state that a fragment holds, or null where it holds none. Throws an Error with words where it is damaged. */
async function stateOfFragment(fragment) {
  const packed = new URLSearchParams(fragment.slice(1)).get("page");
  if (packed === null) return null;
  let json;
  try {
    json = JSON.parse(new TextDecoder().decode(await through(fromBase64(packed), new DecompressionStream("deflate-raw"))));
  } catch {
    throw new Error("a part of it is missing or changed");
  }
  return stateOfJson(json);
}
