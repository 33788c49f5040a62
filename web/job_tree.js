// A job drawn: the sums of its credit, the ranges of its buffer, the tree of its tasks, and the task
// that is chosen.
"use strict";

const MOST_TASKS = 300; // that are drawn

const share_of = (part, whole) => `${whole ? (100 * part) / whole : 0}%`;

function task_place(task) {
    return `/${task.place.join("/")}`;
}

// A task's state in words.
function state_text(run, task) {
    if (task.r0 !== null) return `ended with R0 ${task.r0}`;
    const next = run.next_of(task);
    return next ? `next: slot ${next.slot}: ${next.insn}` : "alive";
}

function range_text(task) {
    return task.size ? `bytes ${task.base} to ${task.base + task.size - 1}` : "no bytes";
}

// A step in words, with what it led to.
function step_text(run) {
    const { step, at: place } = run;
    if (!step) return "at the start: task 0 has all of the credit and of the buffer";
    const task = run.tasks[step.task];
    const told = [`step ${place}: task ${step.task}, slot ${step.slot}: ${step.insn}`];
    if (step.spawned) {
        const { task: number, program, share, argument, bytes } = step.spawned;
        told.push(`spawns task ${number} of program ${program}, with ${share} of the credit, argument ${argument} ` +
            `and ${counted(bytes, "byte")}`);
    }
    if (task.refused) told.push(`the spawn is refused, ${task.refused}: ${REASONS[task.refused]}`);
    if (task.r0 !== null && task.last === step) told.push(`task ${step.task} ends with R0 ${task.r0}`);
    if (run.is_complete) told.push("no task is alive");
    return told.join("; ");
}

// ---- the sums, and the buffer

const SUMS = ["held", "returned", "spent"];

function draw_sums(run) {
    const issued = run.job.credit;
    const { sums } = run;
    const told = [...SUMS.map((name) => [name, sums[name]]), ["issued", issued]];
    at("job_sums").replaceChildren(...told.flatMap(([name, value]) => [made("dt", name, name), made("dd", String(value))]));
    at("job_bar").replaceChildren(...SUMS.map((name) => {
        const piece = made("i", "", name);
        piece.style.width = share_of(sums[name], issued);
        return piece;
    }));
    at("job_bar").ariaLabel = `${SUMS.map((name) => `${name} ${sums[name]}`).join(", ")}, of ${issued}`;
}

// The part of each task as a range of the buffer. Parts lie beside each other, and cover it.
function draw_map(run, chosen) {
    const size = run.buffer.length;
    at("job_map").hidden = size === 0;
    at("job_map_facts").textContent = counted(size, "byte");
    const shown = run.tasks.filter((task) => task.size).slice(0, MOST_TASKS);
    at("job_map").replaceChildren(...shown.map((task) => {
        const piece = made("i", String(task.number), task.r0 === null ? "alive" : "ended");
        piece.classList.toggle("chosen", task === chosen);
        piece.style.left = share_of(task.base, size);
        piece.style.width = share_of(task.size, size);
        piece.title = `task ${task.number}: ${range_text(task)}`;
        return piece;
    }));
    const told = shown.slice(0, 20).map((task) => `task ${task.number} ${range_text(task)}`);
    at("job_map").ariaLabel = `The buffer: ${told.join(", ")}${shown.length > 20 ? ", and more" : ""}`;
}

// ---- the tree

function bar_of(name, title) {
    const bar = made("span", "", `bar ${name}`);
    bar.ariaHidden = "true";
    bar.title = title;
    bar.append(made("i", ""));
    return bar;
}

// The row of a task, which later calls fill.
function new_row(number) {
    const row = made("li", "");
    row.setAttribute("role", "treeitem");
    row.tabIndex = -1;
    row.id = `task_${number}`;
    row.dataset.number = number;
    const go = made("span", "step", "go");
    go.ariaHidden = "true";
    go.title = "runs the next instruction of this task";
    const room = (name, ...parts) => {
        const one = made("span", "", name);
        one.append(...parts);
        return one;
    };
    const last = made("span", "last step", "last");
    last.ariaHidden = "true"; // the step itself is told where it is taken
    row.append(room("head", go, room("name"), room("state"), last));
    row.append(room("meter", bar_of("credit", ""), room("used")));
    row.append(room("meter", bar_of("range", "part of the buffer"), room("part")));
    return row;
}

function fill_row(run, row, task, chosen) {
    const part = (name) => row.querySelector(`.${name}`);
    part("name").textContent = `task ${task.number} ${task_place(task)} `;
    part("state").textContent = `program ${task.program}, ${state_text(run, task)} `;
    part("used").textContent = task.r0 === null ? `used ${task.used} of ${task.held} held ` :
        `spent ${task.used}, returned ${task.held - task.used} `;
    part("part").textContent = range_text(task);
    part("go").hidden = task.r0 !== null;
    part("last").hidden = run.step?.task !== task.number;
    part("credit").title = `the credit, ${part("used").textContent.trim()}, of ${task.given} given`;
    part("credit").style.width = share_of(task.given, run.job.credit);
    part("credit").firstChild.style.width = share_of(task.used, task.given);
    part("credit").style.setProperty("--kept", share_of(task.held, task.given));
    const range = part("range").firstChild;
    range.style.left = share_of(task.base, run.buffer.length);
    range.style.width = share_of(task.size, run.buffer.length);
    row.className = [task.r0 === null ? "alive" : "ended", task.refused ? "refused" : ""].join(" ").trim();
    row.ariaLevel = String(task.place.length + 1);
    row.style.setProperty("--level", Math.min(task.place.length, 12));
    row.ariaSelected = String(task === chosen);
    row.tabIndex = task === chosen ? 0 : -1;
}

// The tasks in the order of the tree: each ahead of its children, and these by their birth.
function in_tree_order(tasks) {
    const children = tasks.map(() => []);
    for (const task of tasks) if (task.parent !== null) children[task.parent].push(task);
    const found = [];
    const waiting = [tasks[0]];
    while (waiting.length) {
        const task = waiting.pop();
        found.push(task);
        waiting.push(...children[task.number].toReversed());
    }
    return found;
}

// Draws the tree, over the rows that are there.
function draw_tree(run, chosen) {
    const room = at("job_tree");
    const shown = in_tree_order(run.tasks.slice(0, MOST_TASKS));
    const had_focus = room.contains(document.activeElement);
    const rows = shown.map((task) => at(`task_${task.number}`) ?? new_row(task.number));
    const is_same = rows.length === room.children.length && rows.every((row, place) => room.children[place] === row);
    if (!is_same) room.replaceChildren(...rows);
    shown.forEach((task, place) => fill_row(run, rows[place], task, chosen));
    const more = run.tasks.length - shown.length;
    const live = run.tasks.filter((task) => task.r0 === null).length;
    at("job_tree_facts").textContent = `${counted(run.tasks.length, "task")}, ${live} alive` +
        (more ? `, ${more} of them not drawn` : "");
    const row = at(`task_${chosen.number}`);
    if (row) see_within(room, row.offsetTop - room.offsetTop, row.offsetHeight);
    if (had_focus) row?.focus({ preventScroll: true });
}

// ---- the task that is chosen

// A task's registers and bytes, with those marked that the last step changed.
class TaskView {
    constructor(run, task) {
        const last = run.before?.task === task ? run.before : { registers: {} };
        this.registers = task.registers;
        this.stack = task.stack;
        this.part = run.buffer.slice(task.base, task.base + task.size);
        this.before = { registers: last.registers, stack: last.stack };
        if (last.part) this.before.part = { at: last.part.at - task.base, bytes: last.part.bytes };
    }

    is_changed(region, place) {
        return Steps.prototype.is_changed.call(this, region, place);
    }

    // The rows of a region with a byte that isn't 0, or that the step wrote.
    rows_changed(region, wide) {
        const bytes = this[region];
        const rows = [...Array(Math.ceil(bytes.length / wide)).keys()];
        return rows.filter((row) => {
            const places = [...bytes.subarray(row * wide, (row + 1) * wide).keys()];
            return places.some((place) => bytes[row * wide + place] || this.is_changed(region, row * wide + place));
        });
    }
}

function draw_task(run, task) {
    const view = new TaskView(run, task);
    const wide = bytes_in_row();
    at("job_task_name").textContent = `Task ${task.number}`;
    at("job_task_facts").textContent = `${task_place(task)}, program ${task.program}, argument ${task.argument}, ` +
        `given ${task.given}, ${state_text(run, task)}`;
    tell_registers(at("job_registers"), view);
    at("job_part_room").hidden = view.part.length === 0;
    tell_rows(at("job_part"), view, "part", wide, (place) => (task.base + place).toString(16).padStart(4, "0"));
    at("job_stack_room").hidden = view.rows_changed("stack", wide).length === 0;
    tell_rows(at("job_stack"), view, "stack", wide, (place) => `r10-${STACK_SIZE - place}`.padEnd(7));
}

// ---- the answer

const ANSWER_HEADS = ["Schedule", "Steps", "R0", "Spent", "Returned", "Tasks", "Buffer", "Answer"];

// (a table that is laid out as cards would be none for readers)
function with_roles(row) {
    row.setAttribute("role", "row");
    const roles = { row: "rowheader", col: "columnheader" };
    for (const cell of row.children) cell.setAttribute("role", roles[cell.scope] ?? "cell");
    return row;
}

function answer_row(name, answer, shown) {
    const row = made("tr", "");
    const head = made("th", name);
    head.scope = "row";
    row.append(head);
    if (!answer) {
        const none = made("td", `not over after ${MOST_STEPS} steps`);
        none.colSpan = 7;
        row.append(none);
        return with_roles(row);
    }
    const { steps, r0, spent, returned, buffer, r0s } = answer;
    const told = [steps, r0, spent, returned, r0s.length, buffer.length > 32 ? `${buffer.slice(0, 32)}..` : buffer || "-"];
    told.push(answer === shown ? "shown" : is_same_answer(answer, shown) ? "the same" : "another answer");
    row.append(...told.map((one, place) => {
        const cell = made("td", String(one));
        cell.dataset.head = ANSWER_HEADS[place + 1];
        return cell;
    }));
    return with_roles(row);
}

// The answer of the job beside those of other schedules. Answers whether all are the same.
function draw_answers(shown, others) {
    const head = made("tr", "");
    head.append(...ANSWER_HEADS.map((name) => {
        const cell = made("th", name);
        cell.scope = "col";
        return cell;
    }));
    const rows = [answer_row("this one", shown, shown), ...others.map(([name, one]) => answer_row(name, one, shown))];
    at("job_answers").tHead.replaceChildren(with_roles(head));
    at("job_answers").tBodies[0].replaceChildren(...rows);
    return others.every(([, one]) => one && is_same_answer(one, shown));
}
