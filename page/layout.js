"use strict";
// Finds a place for each node of a graph: columns by the longest way from a source, rows by the middle of the neighbours. A wire
// over several columns has a bend in each column between. Lengths are in pixels.

const LAYOUT = { between: 24, betweenAreas: 50, column: 46, port: 14, rounds: 12, settling: 60, mostBends: 4000 };

/** Marks the wires that close a walk, so that columns are found without them. */
function markBackWires(nodes) {
  const state = new Map(); // 1: on the way here, 2: done
  for (const first of nodes) {
    const stack = state.has(first) ? [] : [[first, 0]];
    while (stack.length) {
      const top = stack[stack.length - 1], [node, next] = top;
      state.set(node, 1);
      if (next === node.outgoing.length) {
        state.set(node, 2);
        stack.pop();
        continue;
      }
      top[1]++;
      const wire = node.outgoing[next];
      wire.isBack = state.get(wire.target) === 1;
      if (!state.has(wire.target)) stack.push([wire.target, 0]);
    }
  }
}

/** Gives each node its column: one behind the last of the nodes before it. */
function setColumns(nodes) {
  markBackWires(nodes);
  const waiting = new Map(nodes.map((node) => [node, node.incoming.filter((wire) => !wire.isBack).length]));
  const ready = nodes.filter((node) => waiting.get(node) === 0);
  for (const node of ready) {
    for (const wire of node.outgoing) {
      if (wire.isBack) continue;
      wire.target.column = Math.max(wire.target.column, node.column + 1);
      waiting.set(wire.target, waiting.get(wire.target) - 1);
      if (waiting.get(wire.target) === 0) ready.push(wire.target);
    }
  }
}

/** Gives each wire its way: its source, a bend in each column between, its target. */
function setWays(wires, areBanded) {
  const length = (wire) => Math.max(0, wire.target.column - wire.source.column - 1);
  const areFew = wires.reduce((sum, wire) => sum + length(wire), 0) <= LAYOUT.mostBends;
  for (const wire of wires) {
    const staysInArea = wire.source.area === wire.target.area;
    const bends = areFew && (staysInArea || !areBanded) ? length(wire) : 0;
    wire.way = [wire.source];
    for (let i = 1; i <= bends; i++) wire.way.push({ isBend: true, column: wire.source.column + i, width: 0, height: 16, area: wire.source.area });
    wire.way.push(wire.target);
  }
}

/** Returns the columns of nodes and bends, each with its neighbours to the left and to the right. */
function columnsOf(nodes, wires) {
  const columns = [];
  const add = (place) => {
    (columns[place.column] ||= []).push(place);
    place.left = [];
    place.right = [];
  };
  nodes.forEach(add);
  for (const wire of wires) wire.way.slice(1, -1).forEach(add);
  for (const wire of wires) {
    for (let i = 1; i < wire.way.length; i++) {
      const [before, after] = [wire.way[i - 1], wire.way[i]];
      after.left.push({ place: before, shift: i === 1 ? wire.outputShift : 0 });
      before.right.push({ place: after, shift: i === wire.way.length - 1 ? wire.inputShift : 0 });
    }
  }
  return Array.from(columns, (column) => column || []);
}

const mean = (list, value) => list.reduce((sum, it) => sum + value(it), 0) / list.length;

/** Orders each column by the middle of the neighbours, so that few wires cross. Bands keep their areas apart. */
function orderColumns(columns, areBanded) {
  const number = (column) => column.forEach((place, i) => (place.row = i));
  columns.forEach(number);
  for (let round = 0; round < LAYOUT.rounds; round++) {
    const side = round % 2 ? "right" : "left";
    for (const column of round % 2 ? [...columns].reverse() : columns) {
      for (const place of column) {
        const near = place[side];
        place.key = near.length ? mean(near, (it) => it.place.row + it.shift * 0.001) : place.row;
      }
      column.sort((a, b) => (areBanded ? a.area - b.area : 0) || a.key - b.key);
      number(column);
    }
  }
}

/** Moves the places of a column apart where they come too near to each other. */
function spread(column, gap) {
  for (let pass = 0; pass < 3; pass++) {
    for (let i = 1; i < column.length; i++) {
      const [above, below] = [column[i - 1], column[i]];
      const lacking = above.height / 2 + below.height / 2 + gap - (below.y - above.y);
      if (lacking > 0) {
        above.y -= lacking / 2;
        below.y += lacking / 2;
      }
    }
  }
}

/** Gives each place of these columns its height on the picture, near the middle of its neighbours in these columns. */
function settle(columns, gap) {
  const here = new Set(columns.flat()), nears = new Map();
  for (const place of here) nears.set(place, [...place.left, ...place.right].map((it) => it.place).filter((it) => here.has(it)));
  for (const column of columns) {
    let y = 0;
    for (const place of column) {
      place.y = y + place.height / 2;
      y += place.height + gap;
    }
  }
  for (let round = 0; round < LAYOUT.settling; round++) {
    for (const column of round % 2 ? [...columns].reverse() : columns) {
      for (const place of column) {
        const near = nears.get(place);
        if (near.length) place.y += (mean(near, (it) => it.y) - place.y) * 0.6;
      }
      spread(column, gap);
    }
  }
  // (the last passes may have left two places too near: from the top down none is)
  for (const column of columns) {
    for (let i = 1; i < column.length; i++) {
      const least = column[i - 1].y + column[i - 1].height / 2 + gap + column[i].height / 2;
      column[i].y = Math.max(column[i].y, least);
    }
  }
}

/** Settles each area by itself, and puts one below the other. */
function settleBands(columns, gap) {
  let top = 0;
  const areas = [...new Set(columns.flat().map((place) => place.area))].sort((a, b) => a - b);
  for (const area of areas) {
    const band = columns.map((column) => column.filter((place) => place.area === area));
    settle(band, gap);
    const places = band.flat();
    const shift = top - Math.min(...places.map((place) => place.y - place.height / 2));
    for (const place of places) place.y += shift;
    top = Math.max(...places.map((place) => place.y + place.height / 2)) + LAYOUT.betweenAreas;
  }
}

/** Gives each column its place from the left, with room for what stands on the wires behind it. */
function setAcross(columns, wires) {
  const rooms = columns.map(() => LAYOUT.column);
  for (const wire of wires) rooms[wire.source.column] = Math.max(rooms[wire.source.column], wire.room);
  let left = 20;
  columns.forEach((column, i) => {
    const width = Math.max(10, ...column.map((place) => place.width));
    for (const place of column) place.x = left + width / 2;
    left += width + rooms[i];
  });
}

/** Returns the rectangle around the nodes of an area. */
function frameOf(area) {
  const pad = 12 + 4 * area.inner;
  const left = Math.min(...area.nodes.map((node) => node.x - node.width / 2)) - pad;
  const right = Math.max(...area.nodes.map((node) => node.x + node.width / 2)) + pad;
  const top = Math.min(...area.nodes.map((node) => node.y - node.height / 2)) - pad - 12;
  const bottom = Math.max(...area.nodes.map((node) => node.y + node.height / 2)) + pad;
  return { left, right, top, bottom };
}

/** Says whether a frame has a node in it that is not its own. */
function isCrossed(area, nodes) {
  const frame = frameOf(area), own = new Set(area.nodes);
  const isBeside = (node) => node.x + node.width / 2 <= frame.left || node.x - node.width / 2 >= frame.right;
  const isAboveOrBelow = (node) => node.y + node.height / 2 <= frame.top || node.y - node.height / 2 >= frame.bottom;
  return nodes.some((node) => !own.has(node) && !isBeside(node) && !isAboveOrBelow(node));
}

function place(graph, areBanded) {
  const gap = graph.areas.length ? LAYOUT.betweenAreas : LAYOUT.between;
  setWays(graph.wires, areBanded);
  const columns = columnsOf(graph.nodes, graph.wires);
  orderColumns(columns, areBanded);
  setAcross(columns, graph.wires);
  if (areBanded) settleBands(columns, LAYOUT.between);
  else settle(columns, gap);
}

/**
 * Sets `x` and `y`, the middle, of each node, and the `way` of each wire. Each node has `width`, `height`, `incoming` and `outgoing`
 * wires; each wire `source`, `target`, `room` (the least length) and the shifts of its ports. Areas have `nodes`. Where the frame of
 * an area would hold a node of another, the areas are put one below the other.
 */
function layOut(graph) {
  for (const node of graph.nodes) Object.assign(node, { column: 0, area: -1 });
  graph.areas.forEach((area, i) => {
    for (const node of area.nodes) if (node.area < 0) node.area = i;
  });
  setColumns(graph.nodes);
  place(graph, false);
  if (graph.areas.some((area) => isCrossed(area, graph.nodes))) place(graph, true);
}
