// The graph of a program: the library's drawing, which is in the language DOT, read and drawn as SVG
// with its boxes in layers. A program has no loops, so each edge leads to a lower layer.
"use strict";

let [LETTER, GLYPH, LINE] = [12, 7.3, 16]; // the height and the width of a letter, and the height of a line
const MARGIN = 8; // within a box
const [BESIDE, BELOW] = [26, 44]; // room between boxes
const SWEEPS = 9; // down and up in turn, down at last
const MOST_BOXES = 400;
const LEAST_SCALE = 0.8; // to which a wide graph shrinks, but on a phone
const [MOST_FIRST, MOST_LAST, AROUND_BAD] = [12, 6, 2]; // rows of a long box
const END = '<br align="left"/>';
const BOX = /^ {2}s(\d+) \[label=<<font color="gray40">(.*?)<\/font>(.*)>(, color=red)?\];$/;
const EDGE = /^ {2}s(\d+) -> s(\d+) \[label="([a-z ]*)"(, color=red)?\];$/;
const INSTRUCTION = /^(<font color="red">)?slot (\d+)(?:, line (\d+))?: (.*?)(?:<\/font>)?$/;

// ---- the drawing, read

function read_row(text) {
    const [, red, slot, line, words] = INSTRUCTION.exec(text);
    return { slot: Number(slot), line: line === undefined ? null : Number(line), text: words, bad: Boolean(red) };
}

// The boxes and the edges of a drawing.
function read_drawing(drawing) {
    const [boxes, edges] = [[], []];
    for (const line of drawing.split("\n").slice(2)) {
        const [box, edge] = [BOX.exec(line), EDGE.exec(line)];
        if (box) {
            const [cost, ...known] = box[2].split(END).slice(0, -1);
            const rows = box[3].split(END).slice(0, -1).map(read_row);
            boxes.push({ slot: Number(box[1]), cost, known, rows, way: Boolean(box[4]) });
        } else if (edge) {
            edges.push({ from: Number(edge[1]), to: Number(edge[2]), word: edge[3], way: Boolean(edge[4]) });
        } else if (line !== "}" && line !== "") {
            throw new Error("the library draws in another form");
        }
    }
    return { boxes, edges };
}

// ---- places

// What is shown of a box: all of its rows, or of many the first, the last and those around a bad one.
function shown_rows(rows) {
    const bad = rows.findIndex((row) => row.bad);
    const shown = [];
    rows.forEach((row, place) => {
        const is_near = bad >= 0 && Math.abs(place - bad) <= AROUND_BAD;
        const is_at_an_end = place < MOST_FIRST || place >= rows.length - MOST_LAST;
        if (rows.length <= MOST_FIRST + MOST_LAST + 2 || is_at_an_end || is_near) {
            shown.push({ ...row, slots: [row.slot], label: `${String(row.slot).padStart(4)}  ${row.text}` });
        } else if (shown.at(-1).left) {
            shown.at(-1).slots.push(row.slot);
        } else {
            shown.push({ left: true, slots: [row.slot] });
        }
    });
    for (const one of shown) if (one.left) one.label = `      .. ${one.slots.length} more`;
    return shown;
}

// Each box as a node with its size. Its layer is the number of edges of the longest way there.
function nodes_of(boxes, edges) {
    const nodes = new Map(boxes.map((box) => {
        const shown = shown_rows(box.rows);
        const widest = Math.max(box.cost.length, ...shown.map((one) => one.label.length));
        const width = Math.ceil(widest * GLYPH) + 2 * MARGIN;
        const height = (shown.length + 1) * LINE + 2 * MARGIN - 4;
        return [box.slot, { box, shown, width, height, layer: 0, ins: [], outs: [], waits: 0 }];
    }));
    for (const edge of edges) nodes.get(edge.to).waits++;
    const ready = [...nodes.values()].filter((node) => node.waits === 0);
    while (ready.length) {
        const node = ready.pop();
        for (const edge of edges.filter((one) => one.from === node.box.slot)) {
            const next = nodes.get(edge.to);
            next.layer = Math.max(next.layer, node.layer + 1);
            if (--next.waits === 0) ready.push(next);
        }
    }
    return nodes;
}

// The layers, in which an edge that passes a layer has a place of its own there. Each edge gets the
// places that it passes, from box to box.
function layers_of(nodes, edges) {
    const layers = [];
    const into = (node) => { (layers[node.layer] ??= []).push(node); };
    for (const node of nodes.values()) into(node);
    for (const edge of edges) {
        const [from, to] = [nodes.get(edge.from), nodes.get(edge.to)];
        edge.passes = [from];
        for (let layer = from.layer + 1; layer < to.layer; layer++) {
            const bend = { width: 4, height: 0, layer, ins: [], outs: [] };
            into(bend);
            edge.passes.push(bend);
        }
        edge.passes.push(to);
        edge.passes.slice(1).forEach((node, place) => {
            node.ins.push(edge.passes[place]);
            edge.passes[place].outs.push(node);
        });
    }
    return layers;
}

const mean = (numbers) => numbers.reduce((sum, one) => sum + one, 0) / numbers.length;
const centre = (node) => node.x + node.width / 2;

// Puts each layer in the order of what its nodes are joined to, downwards and upwards in turn.
function order_layers(layers) {
    layers.forEach((layer) => layer.forEach((node, place) => { node.place = place; }));
    for (let sweep = 0; sweep < SWEEPS; sweep++) {
        const down = sweep % 2 === 0;
        for (const layer of down ? layers : [...layers].reverse()) {
            for (const node of layer) {
                const others = down ? node.ins : node.outs;
                node.wish = others.length ? mean(others.map((one) => one.place)) : node.place;
            }
            layer.sort((a, b) => a.wish - b.wish);
            layer.forEach((node, place) => { node.place = place; });
        }
    }
}

// The room between two nodes of a layer: edges that pass it take less.
const room_between = (one, other) => (one.box || other.box ? BESIDE : BESIDE / 3);

// Moves the nodes of a layer to where they wish to be, as far as they don't meet. Boxes come first:
// a way straight down stays straight.
function settle(layer) {
    let before = null;
    for (const node of layer) {
        const least = before ? before.x + before.width + room_between(before, node) : -Infinity;
        node.x = Math.max(node.wish - node.width / 2, least);
        before = node;
    }
    const boxes = layer.filter((node) => node.box);
    const shift = mean((boxes.length ? boxes : layer).map((node) => centre(node) - node.wish));
    for (const node of layer) node.x -= shift;
}

function place_layers(layers) {
    let y = 0;
    for (const layer of layers) {
        let x = 0;
        const height = Math.max(...layer.map((node) => node.height));
        for (const node of layer) {
            Object.assign(node, { x, y });
            x += node.width + BESIDE;
        }
        y += height + BELOW;
    }
    for (let sweep = 0; sweep < SWEEPS; sweep++) {
        const down = sweep % 2 === 0;
        for (const layer of down ? layers : [...layers].reverse()) {
            for (const node of layer) {
                const others = down ? node.ins : node.outs;
                node.wish = others.length ? mean(others.map(centre)) : centre(node);
            }
            settle(layer);
        }
    }
    const all = layers.flat();
    const left = Math.min(...all.map((node) => node.x));
    for (const node of all) node.x = Math.round(node.x - left) + 1;
    return { width: Math.max(...all.map((node) => node.x + node.width)) + 1, height: y - BELOW + 6 };
}

// ---- the SVG

function drawn_box({ box, shown, x, y, width, height }) {
    const group = svg_element("g", { class: box.way ? "box way" : "box" });
    group.append(svg_element("rect", { x, y: y + 1, width, height, rx: 4 }));
    const title = svg_element("title", {});
    title.textContent = box.known.join("\n") || "no register is set";
    group.append(title);
    const write = (text, row, name) => {
        const at = { x: x + MARGIN, y: y + MARGIN + LINE * row + LETTER - 1, class: name };
        const made = svg_element("text", at);
        made.textContent = text;
        group.append(made);
        return made;
    };
    write(box.cost, 0, "cost");
    const rows = shown.map((one, place) => {
        const behind = { x: x + 2, y: y + MARGIN + LINE * (place + 1) - 2, width: width - 4, height: LINE };
        const band = svg_element("rect", { ...behind, class: one.bad ? "band bad" : "band" });
        group.append(band);
        write(one.label, place + 1, one.bad ? "bad" : "");
        return [one.slots, band];
    });
    return { group, rows };
}

// Where an edge leaves its box: edges side by side, in the order of where they lead.
function leave_at(edge, edges) {
    const from = edge.passes[0];
    const beside = edges.filter((one) => one.from === edge.from);
    beside.sort((a, b) => centre(a.passes[1]) - centre(b.passes[1]));
    return from.x + (from.width * (beside.indexOf(edge) + 1)) / (beside.length + 1);
}

function arrive_at(edge, edges) {
    const to = edge.passes.at(-1);
    const beside = edges.filter((one) => one.to === edge.to);
    beside.sort((a, b) => centre(a.passes.at(-2)) - centre(b.passes.at(-2)) || edges.indexOf(a) - edges.indexOf(b));
    return to.x + (to.width * (beside.indexOf(edge) + 1)) / (beside.length + 1);
}

// An edge, and the words beside its beginning.
function drawn_edge(edge, edges) {
    const kind = edge.word === "" ? "" : edge.word === "taken" ? "taken" : "not_taken";
    const name = `edge ${kind}${edge.way ? " way" : ""}`;
    const [from, to] = [edge.passes[0], edge.passes.at(-1)];
    const start = [leave_at(edge, edges), from.y + from.height + 1];
    let [x, y] = start;
    let path = `M${x} ${y}`;
    for (const node of edge.passes.slice(1)) {
        const next = node === to ? [arrive_at(edge, edges), to.y] : [centre(node), node.y];
        const bow = Math.min((next[1] - y) / 2, BELOW);
        path += `C${x} ${y + bow} ${next[0]} ${next[1] - bow} ${next[0]} ${next[1]}`;
        [x, y] = next;
    }
    const drawn = [svg_element("path", { d: `${path}m-4 -6l4 6l4 -6`, class: name })];
    if (edge.word) {
        const beside = edges.filter((one) => one.from === edge.from).map((one) => leave_at(one, edges));
        const is_left = start[0] === Math.min(...beside);
        const place = { x: start[0] + (is_left ? -6 : 6), y: start[1] + LETTER, "text-anchor": is_left ? "end" : "start" };
        const label = svg_element("text", { ...place, class: name });
        label.textContent = edge.word;
        drawn.push(label);
    }
    return drawn;
}

// How far the words beside edges reach to the left and to the right.
function reach_of(labels) {
    const reaches = labels.map((label) => {
        const [x, width] = [Number(label.getAttribute("x")), label.textContent.length * GLYPH];
        return label.getAttribute("text-anchor") === "end" ? [x - width, x] : [x, x + width];
    });
    return [Math.min(0, ...reaches.map((one) => one[0])), Math.max(0, ...reaches.map((one) => one[1]))];
}

// Draws a graph into a room, and gives the rows of its boxes by their slots; or tells that it has too
// many boxes.
function draw_graph(room, drawing) {
    const graph = read_drawing(drawing);
    if (graph.boxes.length > MOST_BOXES) {
        room.textContent = `The graph has ${graph.boxes.length} blocks, which are too many to draw.`;
        return { ...graph, row_of: new Map() };
    }
    [LETTER, GLYPH, LINE] = is_phone() ? [16, 9.7, 20] : [12, 7.3, 16];
    const nodes = nodes_of(graph.boxes, graph.edges);
    const layers = layers_of(nodes, graph.edges);
    order_layers(layers);
    const { width, height } = place_layers(layers);
    const drawn_edges = graph.edges.map((edge) => drawn_edge(edge, graph.edges));
    const labels = drawn_edges.flatMap(([, label]) => label ?? []);
    const [left, right] = reach_of(labels);
    const wide = Math.ceil(Math.max(width, right) - left);
    const told = `${graph.boxes.length} blocks and ${graph.edges.length} edges`;
    const view = `${Math.floor(left)} 0 ${wide} ${height}`;
    const svg = svg_element("svg", { viewBox: view, role: "img", "aria-label": told });
    svg.style.fontSize = `${LETTER}px`;
    svg.style.width = `min(${wide}px, max(100%, ${Math.ceil(wide * (is_phone() ? 1 : LEAST_SCALE))}px))`;
    const row_of = new Map();
    svg.append(...drawn_edges.map(([path]) => path), ...labels);
    for (const node of nodes.values()) {
        const drawn = drawn_box(node);
        svg.append(drawn.group);
        for (const [slots, band] of drawn.rows) for (const slot of slots) row_of.set(slot, band);
    }
    room.replaceChildren(svg);
    if (graph.boxes.length) see_band(room, row_of.get(graph.boxes[0].slot));
    return { ...graph, row_of };
}

// Scrolls a room so far that a band of a box in it can be seen.
function see_band(room, band) {
    const view = band.ownerSVGElement.viewBox.baseVal;
    const scale = band.ownerSVGElement.getBoundingClientRect().width / view.width;
    const [x, y, width] = ["x", "y", "width"].map((name) => Number(band.getAttribute(name)) * scale);
    const left = x - view.x * scale;
    if (left < room.scrollLeft || left + width > room.scrollLeft + room.clientWidth) {
        room.scrollLeft = left + (width - room.clientWidth) / 2;
    }
    see_within(room, y, LINE);
}
