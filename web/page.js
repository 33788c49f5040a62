// The page: what is typed is assembled, verified, explained and run by the library. All of it is kept
// in the page's address, behind the #.
"use strict";

const at = (id) => document.getElementById(id);
const FIELDS = { need: "0", argument: "0", credit: "2147483647", memory: "" };
const MOST_QUOTED = 200; // of a line that says nothing known
const MOST_BYTES = 1 << 20; // the library refuses over 65,536
const MOST_AT_ONCE = 512; // slots of a program whose graph is drawn unasked
// What a refusal says.
const words_of = (status) => REFUSALS[status]?.[0] ?? "";

let library;
let editor; // that of the program
let program = null; // what is known of the text: its bytes, its listing, its flow and its verdict
let steps = null; // those of the last run
let written = ""; // the address that the page wrote last

// ---- what is typed

// A field's name, as it is told.
const field_name = (id) => id.replace(/^job_/, "");

function number(id, limit) {
    const text = at(id).value.trim();
    if (!/^[0-9]+$/.test(text) || BigInt(text) >= limit) {
        throw new Error(`${field_name(id)}: a number from 0 to ${limit - 1n}`);
    }
    return BigInt(text);
}

// Bytes in hexadecimal, in which a pair may be repeated, as 00*64.
function bytes(id = "memory") {
    const found = [];
    for (const word of at(id).value.trim().split(/\s+/)) {
        if (!word) continue;
        const parts = /^((?:[0-9a-fA-F]{2})+)(?:\*([0-9]{1,7}))?$/.exec(word);
        if (!parts) throw new Error(`${field_name(id)}: pairs of hexadecimal digits, and not ${word.slice(0, 20)}`);
        const piece = parts[1].match(/../g).map((pair) => parseInt(pair, 16));
        const times = parts[2] === undefined ? 1 : Number(parts[2]);
        if (found.length + piece.length * times > MOST_BYTES) throw new Error(`${field_name(id)}: over 1,048,576 bytes`);
        for (let time = 0; time < times; time++) for (const one of piece) found.push(one);
    }
    return Uint8Array.from(found);
}

function given() {
    return {
        need: Number(number("need", 2n ** 32n)),
        argument: number("argument", 2n ** 64n),
        credit: Number(number("credit", 2n ** 32n)),
        memory: bytes(),
    };
}

// ---- what is told

function made(name, text, className = "") {
    const one = document.createElement(name);
    one.textContent = text;
    if (className) one.className = className;
    return one;
}

function tell(verdict, kind, facts = []) {
    hide("mend");
    at("verdict").textContent = verdict;
    at("verdict").className = `verdict ${kind}`;
    at("facts").replaceChildren(...facts.flatMap(([name, value]) => [made("dt", name), made("dd", String(value))]));
}

function counted(count, word) {
    return `${count} ${word}${count === 1 ? "" : "s"}`;
}

function hide(...ids) {
    for (const id of ids) at(id).hidden = true;
}

// Bytes as lines of hexadecimal, with what changed marked.
function tell_bytes(room, before, now) {
    const wide = bytes_in_row();
    const pieces = [];
    let text = "";
    for (let start = 0; start < now.length; start += wide) {
        const end = Math.min(start + wide, now.length);
        text += start.toString(16).padStart(4, "0") + " ";
        for (let place = start; place < end; place++) {
            const pair = now[place].toString(16).padStart(2, "0");
            if (before[place] === now[place]) {
                text += ` ${pair}`;
            } else {
                pieces.push(text + " ", made("mark", pair));
                text = "";
            }
        }
        text += "\n";
    }
    room.replaceChildren(...pieces, text);
    const first = room.querySelector("mark");
    if (first) room.scrollTop = Math.max(0, first.offsetTop - room.offsetTop - 60);
}

function tell_memory(before, now) {
    const changed = now.reduce((count, one, place) => count + (one !== before[place]), 0);
    at("memory_facts").textContent = `${now.length} bytes, ${changed} changed`;
    at("memories").hidden = false;
    at("memory_now").hidden = now.length === 0;
    tell_bytes(at("memory_now"), before, now);
}

// ---- verdicts

function refused_text(code) {
    const where = code.place === null ? "" : ` in line ${code.place}`;
    tell(`refused ${code.status}${where}: ${words_of(code.status)}`, "bad");
    tell_mend(code.status);
    const line = code.place === null ? "" : at("source").value.split("\n")[code.place - 1];
    at("explained").textContent = line.length > MOST_QUOTED ? `${line.slice(0, MOST_QUOTED)} ..` : line;
    at("explained").hidden = code.place === null;
    hide("flows", "graphs");
    editor.number(code.place);
}

function show_flow(verdict, explanation) {
    const listing = library.disassemble(program.code).text;
    program.flow = draw_flow(at("flow"), listing, instruction_lines(program.source));
    const way = /^way: (.*)$/m.exec(explanation);
    program.bad = verdict.status && verdict.slot !== null ? verdict.slot : null;
    mark_flow(program.flow, way ? way[1].split(" ").map(Number) : [], program.bad);
    const { found, arcs, jumps } = program.flow;
    const drawn = arcs.length < jumps ? `, ${arcs.length} of them drawn` : "";
    at("flow_facts").textContent = `${counted(found.length, "instruction")}, ${counted(jumps, "jump")}${drawn}`;
    at("flows").hidden = false;
}

// The graph, of a program that has one. It is drawn once it can be seen; of a long program, for which
// the library takes a while, once it is opened.
function show_graph() {
    const { verdict, code } = program;
    const has_graph = verdict.status === 0 || (verdict.status > 30 && verdict.status < 38);
    at("graphs").hidden = !has_graph;
    if (!has_graph) return;
    const is_long = code.length / 8 > MOST_AT_ONCE;
    if (is_long && at("graphs").open) {
        at("graphs").open = false;
        at("graphs").dataset.shut = "yes";
    } else if (!is_long && at("graphs").dataset.shut) {
        at("graphs").open = true;
        delete at("graphs").dataset.shut;
    }
    at("graph_facts").textContent = "";
    at("graph").replaceChildren();
    draw_if_open();
}

function draw_if_open() {
    if (!program || program.graph || at("graphs").hidden || !at("graphs").open) return;
    const { need, code, source } = program;
    const drawn = library.graph(need, code, source);
    if (!drawn.text) throw new Error(`the graph: refused ${drawn.status}: ${words_of(drawn.status)}`);
    program.graph = draw_graph(at("graph"), drawn.text);
    const { boxes, edges } = program.graph;
    at("graph_facts").textContent = `${counted(boxes.length, "block")}, ${counted(edges.length, "edge")}`;
    mark_step();
}

// ---- steps

// Marks the instruction of the step in the lists, the graph and the text. Where these have thousands of
// rows, asking for the place of one would take longer than all else.
function mark_step() {
    for (const one of mark_step.marked) one.classList.remove("now");
    mark_step.marked = [];
    editor.mark(null);
    const step = steps?.step;
    if (!step) return;
    const row = program.flow.row_of.get(step.slot);
    const band = program.graph?.row_of.get(step.slot);
    mark_step.marked = [program.flow.rows[row], band].filter((one) => one);
    for (const one of mark_step.marked) one.classList.add("now");
    see_within(at("flow"), row * ROW, ROW);
    editor.mark(step.line ?? null);
    if (editor.marked) editor.see(step.line);
    if (band) see_band(at("graph"), band);
}
mark_step.marked = [];

function go_to(place) {
    if (!steps) return;
    steps.go(place);
    tell_steps(steps);
    mark_step();
}

const MOVES = {
    Home: () => 0,
    ArrowLeft: () => steps.at - 1,
    ArrowRight: () => steps.at + 1,
    End: () => steps.steps.length,
};

function forget_steps() {
    steps = null;
    at("stepper").hidden = true;
    mark_step();
}

// The steps of a run that ended, from its start on. Answers whether there was memory for them.
function show_steps({ need, argument, credit, memory }) {
    try {
        const told = library.trace(need, program.code, program.source, credit, argument, memory);
        if (told.status) return false;
        steps = new Steps(told.text, memory, argument);
    } catch {
        return false;
    }
    at("step_at").max = steps.steps.length;
    at("stepper").hidden = false;
    go_to(0);
    return true;
}

// ---- verdicts, and runs

// Assembles and verifies what is typed, and tells the verdict.
function judge() {
    const source = at("source").value;
    const need = Number(number("need", 2n ** 32n));
    program = null;
    hide("memories");
    forget_steps();
    const code = library.assemble(source);
    if (code.status) {
        refused_text(code);
        return;
    }
    const began = performance.now();
    const verdict = library.verify(need, code.bytes);
    const took = performance.now() - began;
    program = { source, need, code: code.bytes, verdict };
    const explanation = verdict.status ? library.explain(need, code.bytes, source).text : "";
    show_flow(verdict, explanation);
    show_graph();
    const [first, ...others] = explanation.split("\n");
    at("explained").textContent = others.join("\n").trimEnd();
    at("explained").hidden = !explanation;
    if (verdict.status) {
        tell(first || `refused ${verdict.status}: ${words_of(verdict.status)}`, "bad");
        tell_mend(verdict.status, need_of(verdict.status, explanation, code.bytes));
    } else {
        const slots = code.bytes.length / 8;
        tell(`accepted, cost ${verdict.cost}`, "good", [["slots", slots], ["verified in", `${took.toFixed(2)} ms`]]);
    }
    editor.number(program.bad === null ? null : line_of_slot(program.flow, program.bad));
}

function refused_run(status) {
    tell(`refused ${status}: ${words_of(status)}`, "bad", [["cost", program.verdict.cost]]);
    const { need, verdict: { cost } } = program;
    tell_change({ 42: `Give it a credit of at least ${cost}.`, 43: `Give it a memory of at least ${counted(need, "byte")}.` }[status]);
}

function number_text(word) {
    if (word < 10n) return String(word);
    const signed = word >= 2n ** 63n ? `, ${BigInt.asIntN(64, word)}` : "";
    return `${word} (0x${word.toString(16)}${signed})`;
}

function run() {
    const { argument, credit, memory, need } = given();
    judge();
    if (!program || program.verdict.status) return;
    const done = library.run(need, program.code, credit, argument, memory);
    if (done.status) {
        refused_run(done.status);
        return;
    }
    const facts = [["R0", number_text(done.r0)], ["spent", `${done.used} of at most ${program.verdict.cost}`]];
    tell_memory(memory, done.memory);
    if (!show_steps({ need, argument, credit, memory })) facts.push(["steps", "not shown: no memory for them"]);
    tell("ran to its end", "good", facts);
}

// ---- the address

// What is typed, and whether it was run, as the part of the address behind the #.
function keep(is_run = false) {
    const told = new URLSearchParams();
    for (const [id, usual] of Object.entries(FIELDS)) if (at(id).value !== usual) told.set(id, at(id).value);
    if (is_run) told.set("do", "run");
    told.set("source", at("source").value);
    keep_told(told);
}

function keep_told(told) {
    written = `#${told}`;
    write_address();
}

// A browser that is asked too often, or for too long an address, keeps the old one. It is asked again.
function write_address() {
    clearTimeout(write_address.timer);
    try {
        history.replaceState(null, "", written);
    } catch {
        write_address.timer = setTimeout(write_address, 2000);
    }
}

function show(source, fields) {
    at("source").value = source;
    for (const [id, usual] of Object.entries(FIELDS)) at(id).value = fields[id] ?? usual;
    editor.number(null);
}

function guarded(work) {
    return () => {
        try {
            work();
        } catch (wrong) {
            hide("memories", "explained", "flows", "graphs");
            program = null;
            forget_steps();
            editor.number(null);
            tell(wrong.message, "bad");
        }
    };
}

// Does what the address says; without a program there, shows the first example.
function read_address() {
    const told = new URLSearchParams(location.hash.slice(1));
    const is_job = told.get("view") === "job";
    show_view(is_job ? "job" : "program");
    if (is_job) {
        read_job(told);
        return;
    }
    if (!told.has("source")) {
        show_example(0);
        return;
    }
    show(told.get("source"), Object.fromEntries(told));
    at("examples").value = "";
    if (told.get("do") === "run") do_run();
    else guarded(judge)();
    written = location.hash;
}

function show_example(place) {
    at("examples").value = place;
    show(EXAMPLES[place].source, EXAMPLES[place]);
    do_verify();
}

// (a verdict on what was typed that is still to come would hide what is asked for now)
function at_once(work, is_run) {
    clearTimeout(typed.timer);
    guarded(work)();
    keep(is_run);
}

const do_verify = () => at_once(judge, false);
const do_run = () => at_once(run, true);

// (the address itself may be older, where a browser refused to change it)
async function copy_link(room) {
    const told = (text) => { at(room).textContent = text; };
    try {
        await navigator.clipboard.writeText(location.href.split("#")[0] + written);
        told("copied");
    } catch {
        told("the address of this page is the link");
    }
    setTimeout(() => told(""), 3000);
}

// The pages of the docs stand beside this one, or where a package has put them.
function link_pages() {
    const folder = location.pathname.endsWith("/share/telgovan/telgovan.html") ? "../doc/telgovan/docs/" : "";
    for (const link of document.querySelectorAll("[data-page]")) link.href = folder + link.dataset.page;
}

// ---- the views

const VIEWS = ["program", "job"];

function show_view(name) {
    for (const one of VIEWS) {
        at(`tab_${one}`).ariaSelected = String(one === name);
        at(`tab_${one}`).tabIndex = one === name ? 0 : -1;
        at(`${one}_view`).hidden = one !== name;
    }
}

// Shows a view as a person asks for it, with what it had or else with its first example.
function open_view(name) {
    clearTimeout(typed.timer);
    show_view(name);
    at(`tab_${name}`).focus();
    if (name === "job" && !program_boxes().length) show_job_example(0);
    else if (name === "job") keep_job();
    else if (at("source").value) do_verify();
    else show_example(0);
}

function listen_to_views() {
    VIEWS.forEach((name, place) => {
        at(`tab_${name}`).onclick = () => open_view(name);
        at(`tab_${name}`).onkeydown = (event) => {
            const to = { ArrowLeft: place - 1, ArrowRight: place + 1, Home: 0, End: VIEWS.length - 1 }[event.key];
            if (to === undefined) return;
            event.preventDefault();
            open_view(VIEWS[(to + VIEWS.length) % VIEWS.length]);
        };
    });
}

// ---- keys and clicks

function typed() {
    at("examples").value = "";
    editor.number(null);
    clearTimeout(typed.timer);
    typed.timer = setTimeout(do_verify, 300);
}

function listen() {
    at("examples").append(new Option("(your own)", ""));
    at("examples").append(...EXAMPLES.map((one, place) => new Option(one.name, place)));
    at("examples").onchange = () => { if (at("examples").value !== "") show_example(Number(at("examples").value)); };
    at("source").oninput = typed;
    for (const id of Object.keys(FIELDS)) at(id).oninput = typed;
    at("verify").onclick = do_verify;
    at("run").onclick = do_run;
    at("share").onclick = () => copy_link("shared");
    at("graphs").ontoggle = guarded(draw_if_open);
    for (const [name, move] of [["first", "Home"], ["back", "ArrowLeft"], ["forth", "ArrowRight"], ["last", "End"]]) {
        at(`step_${name}`).onclick = () => go_to(MOVES[move]());
    }
    at("step_at").oninput = () => go_to(Number(at("step_at").value));
    at("stepper").onkeydown = (event) => {
        const move = MOVES[event.key];
        if (!move || !steps || event.ctrlKey || event.metaKey || event.altKey || event.shiftKey) return;
        event.preventDefault();
        go_to(move());
    };
    document.onkeydown = (event) => {
        if (!event.ctrlKey && !event.metaKey) return;
        if (event.key !== "Enter") return;
        event.preventDefault();
        if (!at("job_view").hidden) (event.shiftKey ? do_run_all : do_start)();
        else if (event.shiftKey) do_run();
        else do_verify();
    };
    window.onhashchange = () => { if (location.hash !== written) read_address(); };
}

async function module_bytes() {
    const packed = Uint8Array.from(atob(MODULE), (one) => one.charCodeAt(0));
    const stream = new Blob([packed]).stream().pipeThrough(new DecompressionStream("gzip"));
    return new Uint8Array(await new Response(stream).arrayBuffer());
}

// A module of nothing but a memory of 64 bits.
const LARGE_MEMORY = Uint8Array.of(0, 97, 115, 109, 1, 0, 0, 0, 5, 3, 1, 4, 1);

// Why this browser can't run the library, in words.
function told_unable() {
    const known = "Chrome, Chromium and Edge have it from version 133 on, and Firefox from version 134 on.";
    if (!globalThis.WebAssembly) return `This browser has no WebAssembly. Take another one: ${known}`;
    if (!WebAssembly.validate(LARGE_MEMORY)) {
        return `The WebAssembly of this browser has no memory of 64 bits, which the library needs. ${known}`;
    }
    return typeof DecompressionStream === "function" ? "" : `This browser has no DecompressionStream. ${known}`;
}

function tell_unable(why) {
    show_view("program");
    tell(why, "bad");
    hide("views");
    document.documentElement.dataset.unable = "yes";
}

async function start() {
    editor = new Editor(at("editor"));
    link_pages();
    const unable = told_unable();
    if (unable) {
        tell_unable(unable);
        return;
    }
    try {
        const body = await module_bytes();
        library = new Telgovan(await WebAssembly.compile(body));
        const imports = library.imports.length ? library.imports.map((one) => one.name).join(", ") : "nothing";
        at("about").textContent = `Telgovan ${VERSION}. ` +
            `The module has ${body.length.toLocaleString("en")} bytes and imports ${imports}. ` +
            "The page asks no network for anything: what you type stays in this page and in its address.";
    } catch (wrong) {
        tell_unable(`This browser can't run the library: ${wrong.message}`);
        return;
    }
    listen();
    listen_to_views();
    listen_to_job();
    read_address();
    document.documentElement.dataset.ready = "yes";
}
