// The view of a job: what is typed is admitted, its tasks are stepped by clicks and keys or run in an
// order, and what they come to stands beside what other schedules come to.
"use strict";

const USUAL = { credit: "0", buffer: "", order: "turn", seed: "1", schedule: "" };
const MOST_WRITTEN = 6000; // letters of a schedule in an address
const OTHERS = 4; // other schedules whose answers are shown
let job_run = null; // the job under way
let chosen = 0; // the number of the task that is chosen

// ---- what is typed

function program_fields(place) {
    const box = made("fieldset", "");
    const name = `Program ${place}${place ? "" : ", the root's"}`;
    const need = made("label", "Need (bytes) ");
    const needed = made("input", "", "job_need");
    needed.inputMode = "numeric";
    needed.value = "0";
    need.append(needed);
    const source = made("textarea", "", "job_source");
    Object.assign(source, { spellcheck: false, autocapitalize: "off", wrap: "off", ariaLabel: `${name} as eBPF assembly` });
    const room = made("div", "", "source of_job");
    const lines = made("div", "", "lines");
    lines.ariaHidden = "true";
    room.append(lines, source);
    const drop = made("button", "Remove", "job_drop");
    Object.assign(drop, { type: "button", ariaLabel: `Remove program ${place}` });
    drop.onclick = () => { drop_program(place); };
    needed.oninput = typed_job;
    source.oninput = () => { box.editor.number(); typed_job(); };
    needed.setAttribute("aria-describedby", "job_need_word");
    const row = made("div", "", "row");
    row.append(need, drop, made("span", "", "line_told"));
    box.append(made("legend", name), room, row);
    box.editor = new Editor(room);
    return box;
}

const program_boxes = () => [...at("job_programs").children];

function typed_programs() {
    return program_boxes().map((box) => ({
        need: box.querySelector(".job_need").value,
        source: box.querySelector(".job_source").value,
    }));
}

function show_programs(programs) {
    at("job_programs").replaceChildren(...programs.map(({ need, source }, place) => {
        const box = program_fields(place);
        box.querySelector(".job_need").value = need;
        box.querySelector(".job_source").value = source;
        box.editor.number();
        box.querySelector(".job_drop").hidden = programs.length === 1;
        return box;
    }));
    at("job_add").disabled = programs.length >= MOST_PROGRAMS;
}

function add_program() {
    const programs = [...typed_programs(), { need: "0", source: "mov64 r0, 0\nexit\n" }];
    show_programs(programs.slice(0, MOST_PROGRAMS));
    program_boxes().at(-1).querySelector(".job_source").focus();
    do_start();
}

function drop_program(place) {
    show_programs(typed_programs().filter((_, other) => other !== place));
    program_boxes()[Math.max(0, place - 1)].querySelector(".job_source").focus();
    do_start();
}

function show_job({ programs, ...fields }) {
    show_programs(programs);
    for (const [name, usual] of Object.entries(USUAL)) at(`job_${name}`).value = fields[name] ?? usual;
    show_order();
}

// ---- verdicts

// A refusal in words, with what to change; of a program also the line of its source. Each where it is known.
class Refused extends Error {
    constructor(told, change = "", program = null, line = null) {
        super(told);
        Object.assign(this, { change, program, line });
    }
}

// The bytes of each program, or the refusal.
function assembled(programs) {
    return programs.map(({ need, source }, place) => {
        const code = library.assemble(source);
        if (code.status) {
            const line = code.place === null ? "" : ` in line ${code.place}`;
            const told = `program ${place}: refused ${code.status}${line}: ${words_of(code.status)}`;
            throw new Refused(told, advice_of(code.status), place, code.place);
        }
        const bytes = need.trim();
        if (!/^[0-9]{1,10}$/.test(bytes) || Number(bytes) >= 2 ** 32) {
            throw new Error(`program ${place}: the need is a number from 0 to ${2 ** 32 - 1}`);
        }
        const lines = lines_by_slot(library.disassemble(code.bytes).text, source);
        return { need: Number(bytes), code: code.bytes, source, lines };
    });
}

function job_change(status, { need, code }) {
    return {
        63: `Give the job a credit of at least ${library.verify(need, code).cost}.`,
        64: `Give the job a buffer of at least ${counted(need, "byte")}.`,
        65: "Take a credit of at most 2,147,483,647, and a buffer of at most 65,536 bytes.",
    }[status];
}

function refusal({ status, program, slot }, programs) {
    if (program === null) return new Refused(`refused ${status}: ${words_of(status)}`, job_change(status, programs[0]));
    const { need, code, source, lines } = programs[program];
    const explanation = slot === null && status === 38 ? "" : library.explain(need, code, source).text;
    const other = need_of(status, explanation, code);
    const change = other === null ? advice_of(status) : `To have it accepted, change the need of program ${program} from ${need} to ${other}.`;
    const told = `program ${program}: ${explanation.split("\n")[0] || `refused ${status}`}`;
    return new Refused(told, change, program, lines.get(slot) ?? null);
}

// Admits what is typed, and shows the job at its start.
function admit_job() {
    forget_job();
    for (const { editor } of program_boxes()) editor.number();
    const programs = assembled(typed_programs());
    const credit = Number(number("job_credit", 2n ** 32n));
    const job = { programs, credit, buffer: bytes("job_buffer") };
    const opened = JobRun.open(library, job);
    if (opened.status) throw refusal(opened, programs);
    job_run = opened.run;
    const costs = programs.map(({ need, code }) => library.verify(need, code).cost);
    tell_job(`admitted; ${costs.map((cost, place) => `program ${place} costs ${cost}`).join(", ")}`, "good");
    show_run();
}

function tell_job(verdict, kind, change = "") {
    at("job_mend").hidden = !change;
    at("job_mend").textContent = change;
    at("job_verdict").textContent = verdict;
    at("job_verdict").className = `verdict ${kind}`;
}

function forget_job() {
    job_run?.close();
    job_run = null;
    chosen = 0;
    hide("job_run");
}

function job_guarded(work) {
    return (...given) => {
        try {
            work(...given);
        } catch (wrong) {
            forget_job();
            tell_job(wrong.message, "bad", wrong.change);
            if (wrong.line) program_boxes()[wrong.program].editor.number(wrong.line);
        }
        keep_job();
    };
}

// ---- what is shown

function show_run() {
    const run = job_run;
    if (chosen >= run.tasks.length) chosen = run.step?.task ?? 0;
    const task = run.tasks[chosen];
    const is_last = run.at === run.steps.length;
    at("job_run").hidden = false;
    at("job_at").max = run.steps.length;
    at("job_at").value = run.at;
    at("job_place").textContent = `${run.at} of ${run.steps.length}`;
    at("job_told").textContent = step_text(run);
    at("job_told").classList.toggle("bad", Boolean(run.step && run.tasks[run.step.task].refused));
    for (const id of ["job_first", "job_back"]) at(id).ariaDisabled = run.at === 0;
    at("job_forth").ariaDisabled = is_last && !may_go_on();
    at("job_last").ariaDisabled = is_last;
    at("job_all").ariaDisabled = run.is_complete && is_last;
    at("job_one").textContent = `Step task ${chosen}`;
    at("job_one").ariaDisabled = task.r0 !== null;
    draw_sums(run);
    draw_map(run, task);
    draw_tree(run, task);
    draw_task(run, task);
    mark_line(run, task);
    show_answer();
}

// Marks where the task that is chosen stands in the source of its program: at the instruction that is next, or at
// its last one. (A text that someone types stays where it is.)
function mark_line(run, task) {
    const at_slot = (task.r0 === null ? run.next_of(task) : task.last)?.slot;
    const line = run.job.programs[task.program].lines?.get(at_slot) ?? null;
    program_boxes().forEach((box, place) => {
        const is_its = place === task.program && line !== null;
        box.editor.mark(is_its ? line : null);
        box.querySelector(".line_told").textContent = !is_its ? "" :
            `Task ${task.number} ${task.r0 === null ? "is at" : "ended at"} line ${line}.`;
        if (is_its && run.at && document.activeElement !== box.editor.field) box.editor.see(line);
    });
}

// Whether the order knows a next task.
const may_go_on = () => job_run.live.length > 0 && at("job_order").value !== "schedule";

// At the end of a job: what it came to, and beside it what it comes to by other schedules.
function show_answer() {
    const run = job_run;
    at("job_answer").hidden = !run.is_complete;
    if (!run.is_complete) return;
    run.others ??= Array.from({ length: OTHERS }, (_, place) => {
        const seed = 1000 + place;
        return [`random, seed ${seed}`, answer_by(library, run.job, ORDERS.random(seed))];
    });
    const is_same = draw_answers(answer_of(run), run.others);
    at("job_same").textContent = is_same ? "Each of these schedules comes to the same answer." :
        "Not every schedule here came to this answer.";
    at("job_same").className = is_same ? "good" : "bad";
}

// ---- what is done

function go_in_job(place) {
    const run = job_run;
    if (!run) return;
    const is_new = place > run.steps.length && run.at === run.steps.length && may_go_on();
    const order = is_new ? order_here() : null;
    if (is_new && !order) return;
    if (is_new) run.run_on(order, 1);
    else run.go(place);
    if (run.step) chosen = run.step.task;
    show_run();
}

const JOB_MOVES = {
    Home: () => 0,
    ArrowLeft: () => job_run.at - 1,
    ArrowRight: () => job_run.at + 1,
    End: () => job_run.steps.length,
};

// Runs the next instruction of a task.
function step_task(task_number) {
    if (!job_run || task_number >= job_run.tasks.length) return;
    chosen = task_number;
    if (job_run.tasks[chosen].r0 === null) job_run.take([chosen]);
    show_run();
    if (job_run.tasks[chosen].last !== job_run.step) at("job_told").textContent = `task ${chosen} has ended`;
}

function choose_task(task_number) {
    chosen = task_number;
    show_run();
}

// What `read` makes of a field of the order; or nothing, and what is wrong is told. The job stays.
function read_order(read) {
    try {
        return read();
    } catch (wrong) {
        at("job_told").textContent = wrong.message;
        at("job_told").classList.add("bad");
        return null;
    }
}

// The order from here on, if it is one.
function order_here() {
    if (at("job_order").value !== "random") return ORDERS.turn();
    const seed = read_order(() => Number(number("job_seed", 2n ** 32n)));
    return seed === null ? null : ORDERS.random(seed + job_run.at);
}

// Runs the job along the schedule that is typed, or else in an order from here to its end. Answers
// whether what is typed says one.
function run_in_order() {
    if (at("job_order").value === "schedule") {
        const schedule = read_order(() => schedule_in(at("job_schedule").value));
        if (!schedule) return false;
        job_run.go(0);
        job_run.take(schedule);
        return true;
    }
    const order = order_here();
    if (order) job_run.run_on(order);
    return order !== null;
}

function run_all() {
    if (!job_run || !run_in_order()) return;
    chosen = job_run.step?.task ?? 0;
    show_run();
    const is_long = job_run.steps.length >= MOST_STEPS && !job_run.is_complete;
    if (is_long) at("job_told").textContent = `stopped after ${MOST_STEPS} steps, which is as many as are shown`;
}

const do_run_all = job_guarded(run_all);

function show_order() {
    at("job_seed_field").hidden = at("job_order").value !== "random";
    at("job_schedule_field").hidden = at("job_order").value !== "schedule";
}

const do_start = job_guarded(() => {
    clearTimeout(typed_job.timer);
    admit_job();
});

function typed_job() {
    at("job_examples").value = "";
    clearTimeout(typed_job.timer);
    typed_job.timer = setTimeout(do_start, 300);
}

// ---- the address

// What is typed, and the steps up to here, as the part of the address behind the #.
function keep_job() {
    if (at("job_view").hidden) return; // the address is the other view's by now
    const told = new URLSearchParams({ view: "job" });
    for (const [name, usual] of Object.entries(USUAL)) {
        if (at(`job_${name}`).value !== usual) told.set(name, at(`job_${name}`).value);
    }
    for (const { need, source } of typed_programs()) {
        told.append("need", need);
        told.append("program", source);
    }
    const steps = job_run ? schedule_text(job_run.schedule) : "";
    if (steps && steps.length <= MOST_WRITTEN) {
        told.set("steps", steps);
        told.set("at", String(job_run.at));
    }
    keep_told(told);
}

function read_job(told) {
    const needs = told.getAll("need");
    const programs = told.getAll("program").slice(0, MOST_PROGRAMS);
    if (!programs.length) {
        show_job_example(0);
        return;
    }
    show_job({
        ...Object.fromEntries(Object.keys(USUAL).filter((name) => told.has(name)).map((name) => [name, told.get(name)])),
        programs: programs.map((source, place) => ({ source, need: needs[place] ?? "0" })),
    });
    at("job_examples").value = "";
    job_guarded(() => {
        admit_job();
        if (!told.has("steps")) return;
        job_run.take(schedule_in(told.get("steps")));
        go_in_job(/^\d{1,6}$/.test(told.get("at") ?? "") ? Number(told.get("at")) : 0);
    })();
}

function show_job_example(place) {
    at("job_examples").value = place;
    show_job(JOB_EXAMPLES[place]);
    do_start();
}

// ---- keys and clicks

// The task to which a key of the tree leads: the next row, the parent, the first child.
function task_by_key(key) {
    const rows = [...at("job_tree").children].map((row) => Number(row.dataset.number));
    const place = rows.indexOf(chosen);
    const { tasks } = job_run;
    const leads = {
        ArrowDown: rows[place + 1],
        ArrowUp: rows[place - 1],
        Home: rows[0],
        End: rows.at(-1),
        ArrowLeft: tasks[chosen].parent,
        ArrowRight: tasks.find((task) => task.parent === chosen)?.number,
    };
    return key in leads ? leads[key] ?? chosen : null;
}

function press_in_tree(event) {
    if (!job_run || event.ctrlKey || event.metaKey || event.altKey || event.shiftKey) return;
    const to = task_by_key(event.key);
    if (to !== null) choose_task(to);
    else if (event.key === "Enter" || event.key === " ") job_guarded(step_task)(chosen);
    else return;
    event.preventDefault();
}

function click_in_tree(event) {
    const row = event.target.closest("[role=treeitem]");
    if (!row || !job_run) return;
    if (event.target.classList.contains("go")) job_guarded(step_task)(Number(row.dataset.number));
    else choose_task(Number(row.dataset.number));
    at(`task_${chosen}`).focus();
}

function press_in_job(event) {
    if (!job_run || event.ctrlKey || event.metaKey || event.altKey || event.shiftKey) return;
    if (/^(INPUT|SELECT)$/.test(event.target.tagName) && event.target.type !== "range") return;
    const move = JOB_MOVES[event.key];
    if (move) job_guarded(() => go_in_job(move()))();
    else if (/^[0-9]$/.test(event.key)) job_guarded(step_task)(Number(event.key));
    else return;
    event.preventDefault();
}

function listen_to_job() {
    at("job_examples").append(new Option("(your own)", ""));
    at("job_examples").append(...JOB_EXAMPLES.map((one, place) => new Option(one.name, place)));
    at("job_examples").onchange = () => {
        if (at("job_examples").value !== "") show_job_example(Number(at("job_examples").value));
    };
    for (const name of ["credit", "buffer"]) at(`job_${name}`).oninput = typed_job;
    at("job_add").onclick = add_program;
    at("job_start").onclick = do_start;
    at("job_share").onclick = () => copy_link("job_shared");
    at("job_order").onchange = () => { show_order(); if (job_run) show_run(); keep_job(); };
    for (const name of ["seed", "schedule"]) at(`job_${name}`).oninput = keep_job;
    at("job_all").onclick = do_run_all;
    at("job_one").onclick = () => job_guarded(step_task)(chosen);
    for (const [name, key] of [["first", "Home"], ["back", "ArrowLeft"], ["forth", "ArrowRight"], ["last", "End"]]) {
        at(`job_${name}`).onclick = job_guarded(() => { if (job_run) go_in_job(JOB_MOVES[key]()); });
    }
    at("job_at").oninput = job_guarded(() => go_in_job(Math.min(Number(at("job_at").value), job_run.steps.length)));
    at("job_tree").onkeydown = press_in_tree;
    at("job_tree").onclick = click_in_tree;
    at("job_stepper").onkeydown = press_in_job;
}
