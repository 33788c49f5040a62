// The instructions of a program and the jumps between them, as a list with arcs beside it.
"use strict";

const LANE = 10;
const MOST_LANES = 12;

// The instructions of a listing: slot, text, and the slots that they lead to.
function instructions_of(listing) {
    const found = [];
    let slot = 0;
    for (const text of listing.split("\n")) {
        if (!text) continue;
        const word = text.split(" ")[0];
        const size = word === "lddw" ? 2 : 1;
        const jump = /^j/.test(word) ? /([+-]\d+)$/.exec(text) : null;
        const target = jump ? slot + 1 + Number(jump[1]) : null;
        const falls = word !== "exit" && word !== "ja" && word !== "ja32";
        found.push({ slot, text, target, next: falls ? slot + size : null });
        slot += size;
    }
    return found;
}

// The lines of a source, from 1 on, that say an instruction, in order.
function instruction_lines(source) {
    const lines = [];
    source.split("\n").forEach((text, place) => {
        if (text.split(";")[0].replace(/^[ \t\r]+|[ \t\r]+$/g, "")) lines.push(place + 1);
    });
    return lines;
}

// Each jump with the lane that its arc has: short ones stand closest to the instructions, and no two
// that overlap share a lane. An arc that finds none isn't drawn.
function arcs_of(found) {
    const row_of = new Map(found.map((one, row) => [one.slot, row]));
    const arcs = [];
    found.forEach((one, row) => {
        const to = one.target === null ? undefined : row_of.get(one.target);
        if (to !== undefined) arcs.push({ from: row, to, low: Math.min(row, to), high: Math.max(row, to) });
    });
    arcs.sort((a, b) => a.high - a.low - (b.high - b.low) || a.low - b.low);
    const lanes = [];
    for (const arc of arcs) {
        arc.lane = null;
        for (let lane = 0; lane < MOST_LANES; lane++) {
            lanes[lane] ??= [];
            if (lanes[lane].every((other) => other.high < arc.low || arc.high < other.low)) {
                lanes[lane].push(arc);
                arc.lane = lane;
                break;
            }
        }
    }
    return arcs.filter((arc) => arc.lane !== null);
}

function svg_element(name, attributes) {
    const made = document.createElementNS("http://www.w3.org/2000/svg", name);
    for (const [key, value] of Object.entries(attributes)) made.setAttribute(key, value);
    return made;
}

function drawn_arcs(found, arcs, width) {
    const svg = svg_element("svg", { width, height: found.length * ROW, "aria-hidden": "true" });
    for (const arc of arcs) {
        const [from, to] = [arc.from * ROW + ROW / 2 + 3, arc.to * ROW + ROW / 2 - 3];
        const x = width - 10 - arc.lane * LANE;
        const turn = from < to ? 4 : -4;
        const path = `M${width - 4} ${from}H${x + 4}Q${x} ${from} ${x} ${from + turn}V${to - turn}` +
            `Q${x} ${to} ${x + 4} ${to}H${width - 5}m-4 -3l4 3l-4 3`;
        arc.drawn = svg_element("path", { d: path, class: arc.to <= arc.from ? "loop" : "" });
        svg.append(arc.drawn);
    }
    return svg;
}

// Draws the instructions into a room, and gives what marks them.
function draw_flow(room, listing, lines) {
    const found = instructions_of(listing);
    const arcs = arcs_of(found);
    const lanes = arcs.reduce((most, arc) => Math.max(most, arc.lane + 1), 0);
    const width = lanes ? lanes * LANE + 14 : 6;
    const targets = new Set(arcs.map((arc) => arc.to));
    const list = document.createElement("ol");
    list.style.paddingLeft = `${width}px`;
    const rows = found.map((one, row) => {
        const item = document.createElement("li");
        const number = document.createElement("i");
        number.textContent = String(one.slot).padStart(4) + "  ";
        item.append(number, one.text);
        const before = found[row - 1];
        if (row && (targets.has(row) || before.next === null || before.target !== null)) item.classList.add("leader");
        list.append(item);
        return item;
    });
    room.replaceChildren(list, drawn_arcs(found, arcs, width));
    const jumps = found.filter((one) => one.target !== null).length;
    return { found, arcs, jumps, rows, lines, row_of: new Map(found.map((one, row) => [one.slot, row])) };
}

// Marks a way of slots, and the slot that is refused.
function mark_flow(flow, way, bad) {
    const rows = way.map((slot) => flow.row_of.get(slot)).filter((row) => row !== undefined);
    const pairs = new Set();
    rows.forEach((row, place) => {
        flow.rows[row].classList.add("way");
        if (place) pairs.add(`${rows[place - 1]} ${row}`);
    });
    for (const arc of flow.arcs) {
        if (pairs.has(`${arc.from} ${arc.to}`)) arc.drawn.classList.add("way");
    }
    if (bad !== null) flow.rows[flow.row_of.get(bad)]?.classList.add("bad");
}

// The lines of a source by the slots of its instructions.
function lines_by_slot(listing, source) {
    const lines = instruction_lines(source);
    return new Map(instructions_of(listing).map((one, row) => [one.slot, lines[row]]));
}

function line_of_slot(flow, slot) {
    const row = flow.row_of.get(slot);
    return row === undefined ? null : flow.lines[row] ?? null;
}
