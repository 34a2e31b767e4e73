"use strict";
// Reads what `blueprint draw` prints: a text in the DOT language. Attributes are taken by their names, and unknown ones are passed
// over, so that a drawing may change its look without this file.

const DOT_TOKEN = /\s+|\/\/[^\n]*|#[^\n]*|\/\*[^]*?\*\/|(->|--|[{}\[\];,=:])|"((?:[^"\\]|\\[^])*)"|(-?[\w.]+)|(<)/gy;

/** Returns the end of an HTML label that begins at a place: its angle brackets are in pairs. */
function endOfHtml(text, from) {
  let depth = 0;
  for (let at = from; at < text.length; at++) {
    if (text[at] === "<") depth++;
    if (text[at] === ">" && --depth === 0) return at + 1;
  }
  throw new Error("a label of the drawing has no end");
}

/** Returns the tokens of a DOT text: { mark } for punctuation, { word, isHtml } for names and values. */
function dotTokens(text) {
  const tokens = [];
  DOT_TOKEN.lastIndex = 0;
  while (DOT_TOKEN.lastIndex < text.length) {
    const at = DOT_TOKEN.lastIndex, found = DOT_TOKEN.exec(text);
    if (!found) throw new Error(`the drawing has a character that is none of its language, at ${at}`);
    const [, mark, quoted, bare, html] = found;
    if (mark) tokens.push({ mark });
    else if (quoted !== undefined) tokens.push({ word: quoted, isHtml: false });
    else if (bare !== undefined) tokens.push({ word: bare, isHtml: false });
    else if (html) {
      const end = endOfHtml(text, at);
      tokens.push({ word: text.slice(at + 1, end - 1), isHtml: true });
      DOT_TOKEN.lastIndex = end;
    }
  }
  return tokens;
}

/** A reader of tokens, which collects nodes, edges and clusters. */
class DotReader {
  constructor(text) {
    this.tokens = dotTokens(text);
    this.at = 0;
    this.nodes = new Map();
    this.edges = [];
    this.clusters = [];
  }

  peek() { return this.tokens[this.at] || {}; }
  takes(mark) {
    if (this.peek().mark !== mark) return false;
    this.at++;
    return true;
  }
  word() {
    const token = this.tokens[this.at++];
    if (!token || token.word === undefined) throw new Error("the drawing lacks a name");
    return token;
  }

  read() {
    while (this.peek().word !== undefined) this.at++; // `digraph` and its name
    this.body({ node: {}, edge: {} }, null);
    return this;
  }

  /** Reads `{ .. }`. What is set by `node [..]` and `edge [..]` holds to the end of the braces. */
  body(outer, cluster) {
    const set = { node: { ...outer.node }, edge: { ...outer.edge } };
    if (!this.takes("{")) throw new Error("the drawing lacks a brace");
    while (!this.takes("}")) {
      if (this.at >= this.tokens.length) throw new Error("the drawing lacks its end");
      if (!this.takes(";") && !this.takes(",")) this.statement(set, cluster);
    }
  }

  statement(set, cluster) {
    if (this.peek().mark === "{") return this.body(set, cluster);
    const first = this.word();
    if (first.word === "subgraph") return this.subgraph(set, cluster);
    if (this.takes("=")) {
      const value = this.word();
      if (cluster) cluster.attributes[first.word] = value;
    } else if (["graph", "node", "edge"].includes(first.word) && this.peek().mark === "[") {
      const attributes = this.attributes();
      if (first.word !== "graph") Object.assign(set[first.word], attributes);
      else if (cluster) Object.assign(cluster.attributes, attributes);
    } else this.nodeOrEdge(first.word, set, cluster);
  }

  subgraph(set, cluster) {
    const name = this.peek().word !== undefined ? this.word().word : "";
    if (!name.startsWith("cluster")) return this.body(set, cluster);
    const inner = { name, attributes: {}, names: [], outer: cluster };
    this.clusters.push(inner);
    this.body(set, inner);
  }

  attributes() {
    const found = {};
    while (this.takes("[")) {
      while (!this.takes("]")) {
        if (this.takes(";") || this.takes(",")) continue;
        const name = this.word().word;
        found[name] = this.takes("=") ? this.word() : { word: "true", isHtml: false };
      }
    }
    return found;
  }

  port() { while (this.takes(":")) this.word(); }

  nodeOrEdge(name, set, cluster) {
    const way = [name];
    this.port();
    while (this.takes("->") || this.takes("--")) {
      way.push(this.word().word);
      this.port();
    }
    const attributes = this.attributes();
    if (way.length === 1) this.node(name, { ...set.node, ...attributes }, attributes, cluster);
    for (let i = 1; i < way.length; i++) this.edges.push({ from: way[i - 1], to: way[i], attributes: { ...set.edge, ...attributes } });
  }

  node(name, all, own, cluster) {
    const known = this.nodes.get(name);
    if (!known) this.nodes.set(name, all);
    else Object.assign(known, own);
    for (let it = cluster; it; it = it.outer) if (!it.names.includes(name)) it.names.push(name);
  }
}

const HTML_NAMES = { lt: "<", gt: ">", amp: "&", quot: '"', apos: "'", nbsp: " " };

/** Returns the text of an HTML label: each row of a table and each `<br/>` ends a line. Cells that are ports are no text of it. */
function textOfHtml(html) {
  return html
    .replace(/<td [^>]*port=.*?<\/td>/gi, "")
    .replace(/<br[^>]*>|<\/tr>/gi, "\n")
    .replace(/<[^>]*>/g, "")
    .replace(/\\\\/g, "\\")
    .replace(/&(#x?[0-9a-f]+|\w+);/gi, (whole, name) => {
      if (name[0] !== "#") return HTML_NAMES[name] ?? whole;
      return String.fromCodePoint(name[1] === "x" ? parseInt(name.slice(2), 16) : parseInt(name.slice(1), 10));
    });
}

/** Returns the lines of a label that hold something. */
function labelLines(value) {
  if (!value) return [];
  const text = value.isHtml ? textOfHtml(value.word) : value.word.replace(/\\([^])/g, (_, c) => ("nlr".includes(c) ? "\n" : c));
  return text.split("\n").map((line) => line.trim()).filter((line) => line !== "");
}

const valueOf = (attributes, name) => attributes[name]?.word ?? "";
// What a drawing of a run says of a wire. The page says it by itself, from the report.
const isCount = (line) => /^\d+( shut|\W+asked)?$/.test(line);
const isRule = (line) => /^(unfit|refused) \d/.test(line);
// A lane's size is behind the word `lane`, in a line of its own or behind the type.
const LANE = /,? ?\blane (\d+(?: keep)?)/;

/** Returns a node of the drawing: its name, the lines below the name, and the rule that it breaks. */
function nodeOf(name, attributes) {
  const told = [...labelLines(attributes.label), ...labelLines(attributes.xlabel)];
  const lines = told[0] === name ? told.slice(1) : told;
  return { name, shape: valueOf(attributes, "shape"), lines: lines.filter((line) => !isRule(line)), rule: lines.find(isRule) ?? null };
}

/** Returns the number of a wire's port: in a label of its end, or in the name of the port, as `o0:e`; empty where neither is. */
function portOf(attributes, end) {
  return labelLines(attributes[`${end}label`])[0] ?? (valueOf(attributes, `${end}port`).match(/^[io](\d+)/) ?? [])[1] ?? "";
}

/** Returns a wire of the drawing: its ends, the type on it, the size of its lane, and the rule that it breaks. */
function wireOf({ from, to, attributes }) {
  const wire = { from, to, type: "", lane: "", rule: null, output: portOf(attributes, "tail"), input: portOf(attributes, "head") };
  for (const line of labelLines(attributes.label).filter((it) => !isCount(it))) {
    if (isRule(line)) {
      wire.rule = line;
      continue;
    }
    const lane = line.match(LANE);
    if (lane) wire.lane = lane[1];
    const rest = lane ? line.replace(lane[0], "") : line;
    wire.type = [wire.type, rest].filter((it) => it !== "").join(" ");
  }
  return wire;
}

/**
 * Returns the graph of a drawing: nodes; wires, in the order of the blueprint; orders, from a trip to the valves of its switch; and
 * areas, which are islands or instances of modules. Throws an Error with words where the text is no drawing.
 */
function graphOfDrawing(text) {
  const { nodes, edges, clusters } = new DotReader(text).read();
  const style = (edge) => valueOf(edge.attributes, "style");
  for (const { from, to } of edges) for (const name of [from, to]) if (!nodes.has(name)) nodes.set(name, {});
  return {
    nodes: [...nodes].map(([name, attributes]) => nodeOf(name, attributes)),
    wires: edges.filter((it) => !/dotted|invis/.test(style(it))).map(wireOf),
    orders: edges.filter((it) => /dotted/.test(style(it))).map(({ from, to, attributes }) => ({ from, to, text: labelLines(attributes.label).join(" ") })),
    areas: clusters.map(({ name, attributes, names, outer }) => ({ text: labelLines(attributes.label).join(" "), names, depth: depthOf(outer), name })),
  };
}

function depthOf(cluster) {
  let depth = 0;
  for (let it = cluster; it; it = it.outer) depth++;
  return depth;
}
