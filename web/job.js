// A job as the page shows it: its tasks along a schedule, forth and back. The library runs the job in
// one world, which tells the sums of its credit, and tells what each step did to a task. A state is
// that of the start with what the steps did, and what they overwrote is kept for the way back.
"use strict";

const MOST_STEPS = 20000;
const MOST_PROGRAMS = 16;
const REASONS = {
    1: "there is no such program", 2: "the share is under the child's cost",
    3: "too little credit is left for the rest of the parent's run", 4: "too few bytes for the child",
    5: "too few bytes are left for the parent", 6: "no memory",
};

// A number of the sequence that a seed gives, from 0 up to 1.
function chance_of(seed) {
    let state = seed >>> 0;
    return () => {
        state = (state + 0x6d2b79f5) >>> 0;
        let mixed = Math.imul(state ^ (state >>> 15), state | 1);
        mixed ^= mixed + Math.imul(mixed ^ (mixed >>> 7), mixed | 61);
        return ((mixed ^ (mixed >>> 14)) >>> 0) / 4294967296;
    };
}

// The orders in which tasks may go: each gives the live task that is next, behind the one before.
const ORDERS = {
    turn: () => (live, before) => live.find((number) => number > before) ?? live[0],
    random: (seed) => {
        const chance = chance_of(seed);
        return (live) => live[Math.floor(chance() * live.length)];
    },
};

// A step of what the library tells. Numbers that may be large stay as they are written.
function step_of(line) {
    return JSON.parse(line.replace(/"(r0|argument)":(\d+)/g, '"$1":"$2"'));
}

// A task at its start.
function task_of({ number, parent, place, program, argument, share, base, size }) {
    const registers = Array(11).fill("unset");
    const entry = { 1: "part+0", 2: String(size), 3: String(argument), 10: `stack+${STACK_SIZE}` };
    for (const [register, content] of Object.entries(entry)) registers[register] = content;
    const task = { number, parent, place, program, argument, given: share, held: share, used: 0, base, size };
    return { ...task, registers, stack: new Uint8Array(STACK_SIZE), r0: null, children: 0, gone: 0, last: null, refused: null };
}

class JobRun {
    // The run of a job at its start, or the refusal.
    static open(library, job) {
        const told = World.open(library, job);
        if (told.status) return told;
        try {
            return { status: 0, run: new JobRun(library, job, told.world) };
        } catch (wrong) {
            told.world.close();
            throw wrong;
        }
    }

    constructor(library, job, world) {
        Object.assign(this, { library, job, world, at: 0 });
        this.restart();
        const root = { number: 0, parent: null, place: [], program: 0, argument: "0", share: job.credit };
        this.tasks = [task_of({ ...root, base: 0, size: job.buffer.length })];
        this.buffer = job.buffer.slice();
        this.overwritten = []; // of each step that was taken
        this.look_ahead();
    }

    // Forgets all steps: the world is at its start.
    restart() {
        this.schedule = [];
        this.steps = [];
        this.steps_of_task = [[]]; // the places of each task's steps
        this.live = [0]; // the tasks that are alive behind the last step
        this.told = [this.world.run(0, 0)];
    }

    get step() {
        return this.steps[this.at - 1] ?? null;
    }

    // The sums of the credit here, as the world told them.
    get sums() {
        return this.told[this.at].sums;
    }

    get is_complete() {
        return this.told[this.at].is_complete;
    }

    get before() {
        return this.overwritten.at(-1) ?? null;
    }

    // The instruction of a live task that is next.
    next_of(task) {
        const place = this.steps_of_task[task.number]?.[task.gone];
        return place === undefined ? this.ahead.get(task.number) : this.steps[place];
    }

    // ---- forth and back

    forth() {
        const step = this.steps[this.at];
        const task = this.tasks[step.task];
        const { held, used, size, r0, children, gone, last, refused } = task;
        const before = { task, fields: { held, used, size, r0, children, gone, last, refused }, registers: {} };
        for (const [name, content] of Object.entries(step.registers)) {
            const register = Number(name.slice(1));
            before.registers[register] = task.registers[register];
            task.registers[register] = content;
        }
        Object.assign(task, { used: step.used, gone: gone + 1, last: step, refused: null, r0: step.r0 ?? null });
        if (step.spawned) this.bear(task, step.spawned);
        else if (step.insn === "call 1") task.refused = Number(task.registers[0]);
        this.overwrite(before, step, task);
        this.overwritten.push(before);
        this.at++;
    }

    // A child takes the last bytes of its parent's part, and its share.
    bear(parent, { task: number, program, share, argument, bytes }) {
        parent.held -= share;
        parent.size -= bytes;
        parent.children++;
        const place = [...parent.place, parent.children];
        const base = parent.base + parent.size;
        this.tasks.push(task_of({ number, parent: parent.number, place, program, argument, share, base, size: bytes }));
    }

    // Writes the bytes that a step changed, and keeps what they were.
    overwrite(before, step, task) {
        for (const [region, bytes, base] of [["stack", task.stack, 0], ["part", this.buffer, task.base]]) {
            if (!step[region]) continue;
            const [at, now] = [base + step[region].at, bytes_of(step[region].bytes)];
            before[region] = { at, bytes: bytes.slice(at, at + now.length) };
            bytes.set(now, at);
        }
    }

    back() {
        const { task, fields, registers, stack, part } = this.overwritten.pop();
        this.at--;
        if (this.steps[this.at].spawned) this.tasks.pop();
        Object.assign(task, fields);
        for (const [register, content] of Object.entries(registers)) task.registers[register] = content;
        if (stack) task.stack.set(stack.bytes, stack.at);
        if (part) this.buffer.set(part.bytes, part.at);
    }

    go(wanted) {
        const to = Math.max(0, Math.min(wanted, this.steps.length));
        while (this.at < to) this.forth();
        while (this.at > to) this.back();
    }

    // ---- steps that are new

    // Has the world run an instruction of a task, if that is alive. Answers whether it was.
    extend(number) {
        const told = this.world.run(number);
        if (told.came_to === SKIPPED) return false;
        this.schedule.push(number);
        if (told.came_to === ENDED) this.live.splice(this.live.indexOf(number), 1);
        for (let born = this.told.at(-1).tasks; born < told.tasks; born++) {
            this.live.push(born);
            this.steps_of_task.push([]);
        }
        this.told.push(told);
        return true;
    }

    // Learns what the new steps did, and which instruction of each live task is next.
    look_ahead() {
        const told = this.library.trace_job(this.job, [...this.schedule, ...this.live]);
        if (told.status) throw new Error(`the steps: refused ${told.status}`);
        const lines = told.text.split("\n").filter(Boolean);
        for (let place = this.steps.length; place < this.schedule.length; place++) {
            const step = step_of(lines[place]);
            this.steps_of_task[step.task].push(place);
            this.steps.push(step);
        }
        const next = lines.slice(this.schedule.length).map(step_of);
        this.ahead = new Map(next.map((step) => [step.task, step]));
    }

    // Drops the steps behind this place, and has a new world come here. So it does where the module is
    // another one, since then the world is gone.
    cut() {
        if (this.at === this.steps.length && this.world.lib === this.library.lib) return;
        const kept = this.schedule.slice(0, this.at);
        const opened = World.open(this.library, this.job);
        if (opened.status) throw new Error(`the job: refused ${opened.status}`);
        this.world.close();
        this.world = opened.world;
        const steps = this.steps;
        this.restart();
        for (const number of kept) this.extend(number);
        this.steps = steps.slice(0, this.at);
        this.steps.forEach((step, place) => this.steps_of_task[step.task].push(place));
    }

    // Goes on from here with tasks of these numbers. One that isn't alive is passed over.
    take(numbers) {
        this.cut();
        for (const number of numbers) {
            if (this.schedule.length >= MOST_STEPS) break;
            this.extend(number);
        }
        this.look_ahead();
        this.go(this.steps.length);
    }

    // Goes on from here by an order, so many steps at most, or to the end of the job.
    run_on(order, most = MOST_STEPS) {
        this.cut();
        for (let count = 0; count < most && this.live.length && this.schedule.length < MOST_STEPS; count++) {
            this.extend(order(this.live, this.schedule.at(-1) ?? -1));
        }
        this.look_ahead();
        this.go(this.steps.length);
    }

    close() {
        this.world.close();
    }
}

// ---- what a job comes to

// R0 of a task by its place in the tree, as text.
const at_place = (place, r0) => `/${place.join("/")} ${r0}`;

// What a run that is at its end came to.
function answer_of(run) {
    const r0s = run.tasks.map((task) => at_place(task.place, task.r0)).sort();
    const { spent, returned } = run.sums;
    return { steps: run.steps.length, r0: run.tasks[0].r0, spent, returned, buffer: hex_of(run.buffer), r0s };
}

// What a job comes to by an order, run by a world alone; nothing where it takes too many steps.
function answer_by(library, job, order) {
    const opened = World.open(library, job);
    if (opened.status) throw new Error(`the job: refused ${opened.status}`);
    const { world } = opened;
    const [places, children, live, r0s] = [[[]], [0], [0], []];
    let [told, steps, before, r0] = [world.run(0, 0), 0, -1, null];
    for (; live.length && steps < MOST_STEPS; steps++) {
        const number = order(live, before);
        const count = places.length;
        told = world.run(number);
        if (told.tasks > count) {
            places.push([...places[number], ++children[number]]);
            children.push(0);
            live.push(count);
        }
        if (told.came_to === ENDED) {
            live.splice(live.indexOf(number), 1);
            r0s.push(at_place(places[number], told.r0));
            if (number === 0) r0 = String(told.r0);
        }
        before = number;
    }
    const buffer = hex_of(world.buffer(job.buffer.length));
    world.close();
    if (live.length) return null;
    return { steps, r0, spent: told.sums.spent, returned: told.sums.returned, buffer, r0s: r0s.sort() };
}

function is_same_answer(one, other) {
    const told = ({ r0, spent, returned, buffer, r0s }) => JSON.stringify([r0, spent, returned, buffer, r0s]);
    return told(one) === told(other);
}

function hex_of(bytes) {
    return Array.from(bytes, (one) => one.toString(16).padStart(2, "0")).join("");
}

// ---- schedules as text

// A schedule's text: numbers, each with how often it stands there in a row, as 0*9 1.
function schedule_text(schedule) {
    const told = [];
    for (let place = 0; place < schedule.length;) {
        let end = place;
        while (schedule[end] === schedule[place]) end++;
        told.push(end - place > 1 ? `${schedule[place]}*${end - place}` : String(schedule[place]));
        place = end;
    }
    return told.join(" ");
}

function schedule_in(text) {
    const found = [];
    for (const word of text.trim().split(/[\s,]+/)) {
        if (!word) continue;
        const parts = /^(\d{1,6})(?:\*(\d{1,6}))?$/.exec(word);
        if (!parts) throw new Error(`schedule: numbers of tasks, as 0*9 1, and not ${word.slice(0, 20)}`);
        const times = parts[2] === undefined ? 1 : Number(parts[2]);
        if (found.length + times > MOST_STEPS) throw new Error(`schedule: over ${MOST_STEPS} entries`);
        for (let time = 0; time < times; time++) found.push(Number(parts[1]));
    }
    return found;
}
