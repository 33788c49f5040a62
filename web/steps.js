// The steps of a run, forth and back. The library tells what each step changed: a state is that of the
// start with the changes up to it, and what they overwrote is kept for the way back.
"use strict";

const STACK_SIZE = 512;
const MOST_ROWS = 24; // of bytes

function bytes_of(digits) {
    const bytes = new Uint8Array(digits.length / 2);
    for (let place = 0; place < bytes.length; place++) bytes[place] = parseInt(digits.substr(2 * place, 2), 16);
    return bytes;
}

class Steps {
    // `told` has a JSON object a line
    constructor(told, memory, argument) {
        this.steps = told.split("\n").filter(Boolean).map((line) => JSON.parse(line));
        this.at = 0;
        this.registers = Array(11).fill("unset");
        const entry = { 1: "part+0", 2: String(memory.length), 3: String(argument), 10: `stack+${STACK_SIZE}` };
        for (const [number, content] of Object.entries(entry)) this.registers[number] = content;
        this.stack = new Uint8Array(STACK_SIZE);
        this.part = memory.slice();
        this.overwritten = []; // of each step that was taken
        this.changed_rows = {};
    }

    // The step that led here; none at the start.
    get step() {
        return this.steps[this.at - 1] ?? null;
    }

    // What that step overwrote: registers by number, and of each region where it did, and the bytes.
    get before() {
        return this.overwritten.at(-1) ?? { registers: {} };
    }

    forth() {
        const step = this.steps[this.at];
        const before = { registers: {} };
        for (const [name, content] of Object.entries(step.registers)) {
            const number = Number(name.slice(1));
            before.registers[number] = this.registers[number];
            this.registers[number] = content;
        }
        for (const region of ["stack", "part"]) {
            if (!step[region]) continue;
            const { at, bytes } = step[region];
            before[region] = { at, bytes: this[region].slice(at, at + bytes.length / 2) };
            this[region].set(bytes_of(bytes), at);
        }
        this.overwritten.push(before);
        this.at++;
    }

    back() {
        const before = this.overwritten.pop();
        for (const [number, content] of Object.entries(before.registers)) this.registers[number] = content;
        for (const region of ["stack", "part"]) {
            if (before[region]) this[region].set(before[region].bytes, before[region].at);
        }
        this.at--;
    }

    go(wanted) {
        const to = Math.max(0, Math.min(wanted, this.steps.length));
        while (this.at < to) this.forth();
        while (this.at > to) this.back();
    }

    // Whether the step that led here changed a byte.
    is_changed(region, place) {
        const before = this.before[region];
        const old = before?.bytes[place - before.at];
        return old !== undefined && old !== this[region][place];
    }

    // The rows of a region, so many bytes wide, that the run changes at any of its steps.
    rows_changed(region, wide) {
        const known = this.changed_rows[`${region} ${wide}`];
        if (known) return known;
        const rows = new Set();
        for (const step of this.steps) {
            if (!step[region]) continue;
            const { at, bytes } = step[region];
            const last = Math.floor((at + bytes.length / 2 - 1) / wide);
            for (let row = Math.floor(at / wide); row <= last; row++) rows.add(row);
        }
        return (this.changed_rows[`${region} ${wide}`] = [...rows].sort((a, b) => a - b));
    }
}

// The rows that are shown: all of a small part, else those that the run changes, and of many those
// around what the step changed.
function rows_of_bytes(steps, region, wide) {
    const all = Math.ceil(steps[region].length / wide);
    if (region === "part" && all <= MOST_ROWS) return [...Array(all).keys()];
    const rows = steps.rows_changed(region, wide);
    if (!rows.length && region === "part") return [0, 1, 2, 3];
    if (rows.length <= MOST_ROWS) return rows;
    const now = Math.floor((steps.before[region]?.at ?? 0) / wide);
    const first = Math.max(0, Math.min(rows.findIndex((row) => row >= now) - 4, rows.length - MOST_ROWS));
    return rows.slice(first, first + MOST_ROWS);
}

// Rows of bytes, with those marked that the step changed, and dots where rows are left out.
function tell_rows(room, steps, region, wide, name_of) {
    const bytes = steps[region];
    const rows = rows_of_bytes(steps, region, wide);
    const pieces = [];
    let text = "";
    rows.forEach((row, place) => {
        if (row !== (place ? rows[place - 1] + 1 : 0)) text += "..\n";
        text += name_of(row * wide) + " ";
        for (let at = row * wide; at < Math.min((row + 1) * wide, bytes.length); at++) {
            const pair = bytes[at].toString(16).padStart(2, "0");
            if (steps.is_changed(region, at)) {
                pieces.push(text + " ", made("mark", pair));
                text = "";
            } else {
                text += ` ${pair}`;
            }
        }
        text += "\n";
    });
    if (rows.length && (rows.at(-1) + 1) * wide < bytes.length) text += "..\n";
    room.replaceChildren(...pieces, text);
}

function tell_registers(room, steps) {
    room.replaceChildren(...steps.registers.map((content, number) => {
        const text = /^[0-9]/.test(content) ? number_text(BigInt(content)) : content;
        const line = made("div", `r${number}`.padEnd(4), content === "unset" ? "unset" : "");
        line.append(number in steps.before.registers ? made("mark", text) : text);
        return line;
    }));
}

// Shows where the steps stand.
function tell_steps(steps) {
    const { step } = steps;
    const wide = bytes_in_row();
    at("step_at").value = steps.at;
    const line = step?.line === undefined ? "" : `, line ${step.line}`;
    at("step").textContent = step ? `step ${steps.at} of ${steps.steps.length}: slot ${step.slot}${line}: ${step.insn}`
        : `at the start, ahead of ${steps.steps.length} step${steps.steps.length === 1 ? "" : "s"}`;
    at("step_used").textContent = `used ${step?.used ?? 0} of the credit`;
    // (a button that is disabled would lose the focus, and the keys with it)
    for (const id of ["step_first", "step_back"]) at(id).ariaDisabled = steps.at === 0;
    for (const id of ["step_forth", "step_last"]) at(id).ariaDisabled = steps.at === steps.steps.length;
    tell_registers(at("registers"), steps);
    at("step_memory").hidden = steps.part.length === 0;
    tell_rows(at("step_part"), steps, "part", wide, (place) => place.toString(16).padStart(4, "0"));
    at("step_stacks").hidden = steps.rows_changed("stack", wide).length === 0;
    tell_rows(at("step_stack"), steps, "stack", wide, (place) => `r10-${STACK_SIZE - place}`.padEnd(7));
}
