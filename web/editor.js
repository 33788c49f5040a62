// A field for a source text, with the numbers of its lines beside it and lines that are marked. It
// stands in a room, which scrolls both.
"use strict";

const [ROW, ABOVE] = [20, 8]; // the height of a line, and the room above the first, as in page.css
const PHONE = "(max-width: 40rem), (pointer: coarse)"; // as in page.css

const is_phone = () => matchMedia(PHONE).matches;
// How many bytes stand in a row.
const bytes_in_row = () => matchMedia("(max-width: 40rem)").matches ? 8 : 16;

class Editor {
    constructor(room) {
        this.room = room;
        this.lines = room.querySelector(".lines");
        this.field = room.querySelector("textarea");
        this.marked = null;
        // (Firefox has the Tab key stop at a room that scrolls, if nothing says otherwise)
        Object.assign(room, { tabIndex: -1, role: "group", ariaLabel: `Lines of: ${this.field.ariaLabel}` });
        room.onfocus = () => this.field.focus();
    }

    // Numbers the lines anew, as after a change of the text, and marks one as bad.
    number(bad = null) {
        const text = this.field.value;
        const count = Math.max(1, text.split("\n").length - text.endsWith("\n"));
        const lines = [];
        for (let line = 1; line <= count; line++) {
            lines.push(made("span", String(line), line === bad ? "bad" : ""));
        }
        this.lines.replaceChildren(...lines);
        this.marked = null;
        this.paint("--bad-at", bad);
        this.paint("--now-at", null);
        const widest = text.split("\n").reduce((most, line) => Math.max(most, line.replace(/\t/g, "        ").length), 0);
        this.field.style.height = `${count * ROW + 36}px`;
        this.field.style.width = `${widest + 3}ch`;
        if (bad !== null) this.see(bad);
    }

    // Marks a line as the one that runs, or none.
    mark(line) {
        this.marked?.classList.remove("now");
        this.marked = line === null ? null : this.lines.children[line - 1] ?? null;
        this.marked?.classList.add("now");
        this.paint("--now-at", this.marked ? line : null);
    }

    // Puts a band behind a line of the text, or takes it away.
    paint(name, line) {
        if (line === null) this.field.style.removeProperty(name);
        else this.field.style.setProperty(name, `${ABOVE + (line - 1) * ROW}px`);
    }

    // Scrolls so far that a line can be seen.
    see(line) {
        see_within(this.room, (line - 1) * ROW, ROW);
    }
}

// Scrolls a room so far that so many pixels from a place on can be seen.
function see_within(room, top, height) {
    if (top < room.scrollTop || top + 2 * height > room.scrollTop + room.clientHeight) {
        room.scrollTop = Math.max(0, top - room.clientHeight / 2);
    }
}
