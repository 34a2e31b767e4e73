"use strict";
// A drawing of `blueprint draw` as a picture (SVG) of the page: a form and a colour for each role, never a colour alone, and, where
// a run is given, how many elements each wire carried.

// (without a prototype: a file may have the name `constructor`)
const ROLE_OF_KIND = Object.create(null);
for (const [role, kinds] of Object.entries({
  fan: "merge concat interleave merge_sorted zip broadcast balance partition unzip",
  hub: "merge_hub broadcast_hub",
  holds: "buffer fold scan reduce grouped recover",
  substreams: "group_by split_when split_after",
  stop: "valve trip",
  handed: "plug custom",
})) for (const kind of kinds.split(" ")) ROLE_OF_KIND[kind] = role;

const TEXT = { name: 8.5, line: 6.8, wire: 7, lineHeight: 15 };
const NAMESPACE = "http://www.w3.org/2000/svg";

/** Makes an element of the picture. Texts are set as texts, so that no word of a blueprint is read as markup. */
function svg(name, attributes, ...children) {
  const element = document.createElementNS(NAMESPACE, name);
  for (const [key, value] of Object.entries(attributes)) element.setAttribute(key, value);
  for (const child of children) if (child !== null) element.append(child);
  return element;
}

const roleOf = (node) => {
  if (!node.incoming.length && node.outgoing.length) return "source";
  if (node.incoming.length && !node.outgoing.length) return "sink";
  return ROLE_OF_KIND[(node.lines[0] || "").split(" ")[0]] || "stage";
};

/** What a report says of a sink, with a mark before it. */
function endOf(said) {
  if (said.startsWith("ended")) return { text: `✓ ${said}`, state: "ended" };
  if (said.startsWith("unended")) return { text: `… ${said}`, state: "unended" };
  return { text: `✗ ${said.replace(/ stage.*/, "")}`, state: "failed" };
}

/** Joins the parts of a drawing, and says how large each node is. */
function prepare(drawing, run) {
  const byName = new Map(drawing.nodes.map((node) => [node.name, node]));
  for (const node of drawing.nodes) Object.assign(node, { incoming: [], outgoing: [] });
  drawing.wires.forEach((wire, number) => {
    Object.assign(wire, { source: byName.get(wire.from), target: byName.get(wire.to), count: run?.wires[number] ?? null });
    wire.source.outgoing.push(wire);
    wire.target.incoming.push(wire);
  });
  drawing.orders = drawing.orders.map((order) => ({ ...order, source: byName.get(order.from), target: byName.get(order.to) }));
  const nodesOf = (area) => area.names.map((name) => byName.get(name)).filter(Boolean);
  drawing.areas = drawing.areas.map((area) => ({ ...area, nodes: nodesOf(area) })).filter((area) => area.nodes.length);
  const deepest = Math.max(0, ...drawing.areas.map((area) => area.depth));
  for (const area of drawing.areas) area.inner = deepest - area.depth;
  for (const node of drawing.nodes) measureNode(node, run);
  for (const wire of drawing.wires) measureWire(wire);
}

function measureNode(node, run) {
  node.role = roleOf(node);
  node.isPoint = node.shape === "point";
  node.rows = node.lines.flatMap((line) => line.split(/ (?=\| )/)).map((text) => ({ text, state: "" }));
  if (run?.sinks[node.name]) node.rows.push(endOf(run.sinks[node.name]));
  if (node.rule) node.rows.push({ text: `✗ ${node.rule}`, state: "failed" });
  const ports = Math.max(node.incoming.length, node.outgoing.length);
  const textWidth = Math.max(node.name.length * TEXT.name, ...node.rows.map((row) => row.text.length * TEXT.line), 40);
  node.width = textWidth + (node.role === "substreams" || node.role === "stop" ? 34 : 26);
  node.lid = node.role === "holds" ? 6 : 0; // (the text stands below the lid of a cylinder)
  node.height = Math.max(27 + TEXT.lineHeight * node.rows.length + 2 * node.lid, ports * LAYOUT.port + 8);
  for (const [wires, shift] of [[node.incoming, "inputShift"], [node.outgoing, "outputShift"]]) {
    wires.forEach((wire, i) => (wire[shift] = (i - (wires.length - 1) / 2) * LAYOUT.port));
  }
}

function measureWire(wire) {
  // (a lane leads from one frame to another mostly, and has its words between them)
  const lane = wire.lane ? wire.lane.length * TEXT.wire + 44 : 0;
  const said = wire.type.length * TEXT.wire + lane;
  const ports = (wire.output ? 20 : 0) + (wire.input ? 20 : 0);
  const beside = wire.source.outgoing.filter((it) => it.target === wire.target).length;
  wire.room = Math.max(LAYOUT.column, Math.max(said, 44, (wire.rule || "").length * TEXT.wire) * beside + ports + 22);
}

// ---- The forms of nodes

const FORMS = {
  arrow: ({ left, top, width, height }) => `M${left} ${top}h${width - 10}l10 ${height / 2}l-10 ${height / 2}h${10 - width}z`,
  note: ({ left, top, width, height }) => `M${left} ${top}h${width - 9}l9 9v${height - 9}h${-width}zM${left + width - 9} ${top}v9h9`,
  box: (b) => roundBox(b, 9),
  bars: (b) => `${roundBox(b, 3)}M${b.left + 6} ${b.top}v${b.height}M${b.left + b.width - 6} ${b.top}v${b.height}`,
  double: (b) => `${roundBox(b, 0)}M${b.left - 4} ${b.top - 4}h${b.width + 8}v${b.height + 8}h${-b.width - 8}z`,
  cylinder: ({ left, top, width, height }) => `M${left} ${top + 5}a${width / 2} 5 0 0 1 ${width} 0v${height - 10}a${width / 2} 5 0 0 1 ${-width} 0zM${left} ${top + 5}a${width / 2} 5 0 0 0 ${width} 0`,
  stack: (b) => `M${b.left + 6} ${b.top}v-5h${b.width}v${b.height}h-6${roundBox(b, 3)}`,
  octagon: ({ left, top, width, height }) => `M${left + 11} ${top}h${width - 22}l11 11v${height - 22}l-11 11h${22 - width}l-11 -11v${22 - height}z`,
  tab: (b) => `${roundBox(b, 0)}M${b.left} ${b.top}v-5h26v5`,
};
const FORM_OF_ROLE = { source: "arrow", sink: "note", stage: "box", fan: "bars", hub: "double", holds: "cylinder", substreams: "stack", stop: "octagon", handed: "tab" };

function roundBox({ left, top, width, height }, r) {
  const across = width - 2 * r, down = height - 2 * r;
  return `M${left + r} ${top}h${across}q${r} 0 ${r} ${r}v${down}q0 ${r} ${-r} ${r}h${-across}q${-r} 0 ${-r} ${-r}v${-down}q0 ${-r} ${r} ${-r}z`;
}

function nodeElement(node) {
  const box = { left: node.x - node.width / 2, top: node.y - node.height / 2, width: node.width, height: node.height };
  const point = () => svg("circle", { cx: box.left + 8, cy: node.y, r: 7 });
  const form = () => svg("path", { d: FORMS[FORM_OF_ROLE[node.role]](box) });
  const words = svg("title", {}, [node.name, ...node.rows.map((row) => row.text)].join(", "));
  const group = svg("g", { class: `node ${node.role}${node.rule ? " fault" : ""}` }, words, node.isPoint ? point() : form());
  const first = node.y - (TEXT.lineHeight * node.rows.length) / 2 + 5 + node.lid / 2;
  group.append(svg("text", { class: "name", x: node.x, y: first }, node.name));
  node.rows.forEach((row, i) => {
    const y = first + TEXT.lineHeight * (i + 1);
    group.append(svg("text", { class: `row ${row.state}`, x: node.x, y }, ...rowParts(row.text)));
  });
  return group;
}

/** The text of a row, with its decider in a part of its own. */
function rowParts(text) {
  const parts = text.split(/(decider \w+)/).filter(Boolean);
  return parts.map((part) => (part.startsWith("decider ") ? svg("tspan", { class: "decider" }, part) : part));
}

// ---- Wires

/** The points of a wire, from the edge of its source to the edge of its target. */
function pointsOf(wire) {
  return wire.way.map((place, i) => {
    if (i === 0) return { x: place.x + place.width / 2, y: place.y + wire.outputShift };
    if (i === wire.way.length - 1) return { x: place.x - place.width / 2 - 1, y: place.y + wire.inputShift };
    return { x: place.x, y: place.y };
  });
}

function curve(points) {
  let path = `M${points[0].x} ${points[0].y}`;
  for (let i = 1; i < points.length; i++) {
    const [a, b] = [points[i - 1], points[i]], half = Math.max((b.x - a.x) / 2, 30);
    path += `C${a.x + half} ${a.y} ${b.x - half} ${b.y} ${b.x} ${b.y}`;
  }
  return path;
}

/** How far along a wire its words are: where it is apart from the others that leave or reach the same node. */
function shareOf(wire) {
  const beside = wire.source.outgoing.filter((it) => it.target === wire.target);
  if (beside.length > 1) return (beside.indexOf(wire) + 1) / (beside.length + 1);
  return wire.source.outgoing.length > 1 ? 0.62 : wire.target.incoming.length > 1 ? 0.38 : 0.5;
}

/** The place for what is said of a wire. */
function labelPoint(wire, points) {
  const share = shareOf(wire);
  const [a, b] = share < 0.5 ? points.slice(-2) : points;
  const rest = 1 - share;
  return { x: a.x + (b.x - a.x) * share, y: rest * rest * (rest + 3 * share) * a.y + share * share * (share + 3 * rest) * b.y };
}

/** What a count says of its wire: a mark, and its words. */
function stateOf(count) {
  if (count.isShut) return { mark: " ▪", words: "shut", name: "shut" };
  if (count.isAsked) return { mark: " ◂", words: "more is asked for", name: "asked" };
  return { mark: "", words: "nothing more is asked for", name: "" };
}

function laneElements(lane, x, y) {
  const width = lane.length * 6.6 + 10;
  return [svg("rect", { class: "size", x, y: y - 11, width, height: 14, rx: 2 }), svg("text", { class: "size", x: x + width / 2, y }, lane)];
}

function wireElement(wire, number, most) {
  const points = pointsOf(wire), at = labelPoint(wire, points), count = wire.count, state = count && stateOf(count);
  const group = svg("g", { class: `wire${wire.lane ? " lane" : ""}${wire.rule ? " fault" : ""}${state ? ` ${state.name}` : ""}` });
  const counted = count && `${count.sent} sent, ${state.words}`;
  const said = [`wire ${number}, ${wire.from} to ${wire.to}`, wire.type, wire.lane && `a lane of ${wire.lane}`, counted, wire.rule];
  group.append(svg("title", {}, said.filter(Boolean).join(": ")));
  const width = count ? 1.2 + (3.2 * count.sent) / most : wire.lane ? 2.2 : 1.4;
  group.append(svg("path", { d: curve(points), "marker-end": "url(#arrow)", "stroke-width": width.toFixed(1) }));
  if (wire.rule) group.append(svg("text", { x: at.x, y: at.y - 7 }, `✗ ${wire.rule}`));
  const laneWidth = wire.lane ? wire.lane.length * 6.6 + 16 : 0;
  group.append(svg("text", { class: "type", x: at.x - laneWidth / 2, y: at.y - 7 }, wire.type));
  if (wire.lane) group.append(...laneElements(wire.lane, at.x - laneWidth / 2 + (wire.type.length * TEXT.wire) / 2 + 4, at.y - 7));
  if (count) group.append(svg("text", { class: "sent", x: at.x, y: at.y + 17 }, `${count.sent}${state.mark}`));
  const end = points[points.length - 1];
  if (wire.output) group.append(svg("text", { class: "port", x: points[0].x + 8, y: points[0].y - 3 }, wire.output));
  if (wire.input) group.append(svg("text", { class: "port", x: end.x - 15, y: end.y - 3 }, wire.input));
  return group;
}

function orderElement({ source, target, text }) {
  if (!source || !target) return null;
  const low = Math.max(source.y + source.height / 2, target.y + target.height / 2) + 40;
  const path = `M${source.x} ${source.y + source.height / 2}Q${(source.x + target.x) / 2} ${low} ${target.x} ${target.y + target.height / 2}`;
  return svg("g", { class: "order" }, svg("path", { d: path, "marker-end": "url(#arrow)" }), svg("text", { x: (source.x + target.x) / 2, y: low - 12 }, text));
}

function areaElement(area) {
  const { left, right, top, bottom } = frameOf(area);
  const frame = svg("rect", { x: left, y: top, width: right - left, height: bottom - top, rx: 10 });
  return svg("g", { class: "area" }, frame, svg("text", { x: left + 9, y: top + 15 }, area.text));
}

function arrowHead() {
  const size = { viewBox: "0 0 8 8", refX: 7, refY: 4, markerWidth: 8, markerHeight: 8, markerUnits: "userSpaceOnUse" };
  return svg("defs", {}, svg("marker", { id: "arrow", orient: "auto", ...size }, svg("path", { d: "M0 0L8 4L0 8z" })));
}

/** The rectangle that holds all that is drawn. */
function boundsOf(drawing) {
  const frames = drawing.areas.map(frameOf);
  const places = [...drawing.nodes, ...drawing.wires.flatMap((wire) => wire.way.slice(1, -1))];
  const left = Math.min(8, ...frames.map((frame) => frame.left - 8));
  const right = Math.max(...places.map((it) => it.x + it.width / 2), ...frames.map((frame) => frame.right)) + 20;
  const top = Math.min(...places.map((it) => it.y - it.height / 2), ...frames.map((frame) => frame.top)) - 20;
  const bottom = Math.max(...places.map((it) => it.y + it.height / 2), ...frames.map((frame) => frame.bottom)) + (drawing.orders.length ? 48 : 24);
  return { left, top, width: right - left, height: bottom - top };
}

/**
 * Returns the picture of a text of `blueprint draw`. `run` has what a report says: `wires`, each { sent, isAsked, isShut } or nothing,
 * and `sinks`, what is said of each by its name. Throws an Error with words where the text is no drawing.
 */
function pictureOf(text, run = null) {
  const drawing = graphOfDrawing(text);
  prepare(drawing, run);
  layOut(drawing);
  const { left, top, width, height } = boundsOf(drawing);
  const words = `The graph of the blueprint: ${drawing.nodes.length} nodes and ${drawing.wires.length} wires. The tables below have them in words.`;
  const picture = svg("svg", { class: "graph", viewBox: `${left} ${top} ${width} ${height}`, role: "img", "aria-label": words }, arrowHead());
  picture.style.maxWidth = `${width}px`;
  picture.style.setProperty("--natural", `${width}px`); // (a narrow page scrolls it, so that its words can be read)
  const most = Math.max(1, ...drawing.wires.map((wire) => wire.count?.sent ?? 0));
  picture.append(...drawing.areas.map(areaElement), ...drawing.wires.map((wire, i) => wireElement(wire, i, most)));
  picture.append(...drawing.orders.map(orderElement).filter(Boolean), ...drawing.nodes.map(nodeElement));
  return { picture, drawing };
}
