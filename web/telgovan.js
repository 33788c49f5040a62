// The library in a page. Each call lends it memory of the module's own, and copies out what it wrote.
// `include/telgovan.h` declares what is called.
"use strict";

// The sizes of the header's structures, and what a run of a task comes to.
const [PIECE_SIZE, HANDLE_SIZE, REPORT_SIZE, STEP_SIZE] = [24, 16, 32, 48];
const [SKIPPED, WENT, ENDED] = [0, 1, 2];

class Telgovan {
    constructor(module) {
        this.module = module;
        this.imports = WebAssembly.Module.imports(module);
        this.begin();
    }

    begin() {
        this.lib = new WebAssembly.Instance(this.module, {}).exports;
        this.lent = [];
    }

    // The memory can grow in any call, which detaches the views that are there.
    view(at, size) {
        return new DataView(this.lib.memory.buffer, Number(at), size);
    }

    copy(at, size) {
        return new Uint8Array(this.lib.memory.buffer, Number(at), size).slice();
    }

    // Room in the module, at a multiple of 16: zeros, or what is given.
    lend(given, size = given.length) {
        const at = BigInt.asUintN(64, this.lib.page_alloc(BigInt(size)));
        if (at === 0n) throw new Error("no memory");
        this.lent.push(at);
        const room = new Uint8Array(this.lib.memory.buffer, Number(at), size);
        room.fill(0);
        if (given) room.set(given);
        return at;
    }

    // What `work` answers, with all that it lent given back. A call that traps, as where the module's
    // stack is too small, leaves memory that no later call may see.
    during(work) {
        try {
            return work();
        } catch (wrong) {
            this.begin();
            throw wrong;
        } finally {
            for (const at of this.lent) this.lib.page_free(at);
            this.lent = [];
        }
    }

    // What a call writes into a room of this size, or into one of the size that the call asks for.
    written(call, size) {
        const told = this.lend(null, 24);
        for (;;) {
            const room = this.lend(null, size);
            const status = call(room, BigInt(size), told) >>> 0;
            const said = this.view(told, 24);
            const length = Number(said.getBigUint64(0, true));
            if (length <= size) {
                const place = said.getUint8(20) ? Number(said.getBigUint64(8, true)) : null;
                const bytes = this.copy(room, length);
                return { status, place, bytes };
            }
            size = length;
        }
    }

    // The program's bytes, or the refusal's status with its line as the place.
    assemble(source) {
        return this.during(() => {
            const text = new TextEncoder().encode(source);
            const at = this.lend(text);
            const call = (...room) => this.lib.telgovan_assemble(at, BigInt(text.length), ...room);
            return this.written(call, 8 * 4096);
        });
    }

    // The program's lines, each with a line feed behind it.
    disassemble(code) {
        return this.during(() => {
            const at = this.lend(code);
            const call = (...room) => this.lib.telgovan_disassemble(at, BigInt(code.length), ...room);
            const told = this.written(call, 8 * code.length);
            return { status: told.status, text: new TextDecoder().decode(told.bytes) };
        });
    }

    verify(need, code) {
        return this.during(() => {
            const at = this.lend(code);
            const verdict = this.lend(null, 16);
            const status = this.lib.telgovan_verify(need, at, BigInt(code.length), verdict) >>> 0;
            const said = this.view(verdict, 16);
            const slot = said.getUint8(12) ? said.getUint32(8, true) : null;
            return { status, cost: said.getUint32(4, true), slot };
        });
    }

    // The text that a call tells of a program and its source, which gives the lines.
    text_of(call, need, code, source, size) {
        const text = new TextEncoder().encode(source);
        const lent = [need, this.lend(code), BigInt(code.length), this.lend(text), BigInt(text.length)];
        const told = this.written((...room) => call(...lent, ...room), size);
        return { status: told.status, slot: told.place, text: new TextDecoder().decode(told.bytes) };
    }

    // Why a program is refused: a text, empty where it is accepted.
    explain(need, code, source) {
        return this.during(() => this.text_of(this.lib.telgovan_explain, need, code, source, 4096));
    }

    // A program's graph in the language DOT: a text, empty where it has none.
    graph(need, code, source) {
        return this.during(() => this.text_of(this.lib.telgovan_graph, need, code, source, 1 << 16));
    }

    // The steps of a run: a text with a JSON object a line, empty where the program doesn't run.
    trace(need, code, source, credit, argument, memory) {
        return this.during(() => {
            const run = [credit, BigInt.asIntN(64, argument), this.lend(memory), BigInt(memory.length)];
            const call = (...given) => this.lib.telgovan_trace(...given.slice(0, 5), ...run, ...given.slice(5));
            return this.text_of(call, need, code, source, 1 << 16);
        });
    }

    run(need, code, credit, argument, memory) {
        return this.during(() => {
            const at = this.lend(code);
            const part = this.lend(memory);
            const outcome = this.lend(null, 16);
            const sizes = [BigInt(code.length), BigInt(memory.length)];
            const given = BigInt.asIntN(64, argument);
            const status = this.lib.telgovan_run(need, at, sizes[0], credit, given, part, sizes[1], outcome) >>> 0;
            const said = this.view(outcome, 16);
            const r0 = said.getBigUint64(0, true);
            return { status, r0, used: said.getUint32(12, true), memory: this.copy(part, memory.length) };
        });
    }

    // A job's code, its pieces, its credit and its buffer, as the calls of a job take them.
    lend_job({ programs, credit, buffer }) {
        const code = new Uint8Array(programs.reduce((size, one) => size + one.code.length, 0));
        const pieces = new DataView(new ArrayBuffer(PIECE_SIZE * programs.length));
        let start = 0;
        programs.forEach(({ need, code: bytes }, place) => {
            code.set(bytes, start);
            pieces.setBigUint64(PIECE_SIZE * place, BigInt(start), true);
            pieces.setBigUint64(PIECE_SIZE * place + 8, BigInt(bytes.length), true);
            pieces.setUint32(PIECE_SIZE * place + 16, need, true);
            start += bytes.length;
        });
        const lent = [this.lend(code), BigInt(code.length)];
        lent.push(this.lend(new Uint8Array(pieces.buffer)), BigInt(programs.length), credit);
        return [...lent, this.lend(buffer), BigInt(buffer.length)];
    }

    // The steps of a job along a schedule: a text with a JSON object a line.
    trace_job(job, schedule) {
        return this.during(() => {
            const numbers = new Uint8Array(Uint32Array.from(schedule).buffer);
            const lent = [...this.lend_job(job), this.lend(numbers), BigInt(schedule.length)];
            const call = (...room) => this.lib.telgovan_job_trace(...lent, ...room);
            const told = this.written(call, 4096 + 256 * schedule.length);
            return { status: told.status, place: told.place, text: new TextDecoder().decode(told.bytes) };
        });
    }
}

// A job under way, which the module keeps until it is closed. After a call that traps the module is
// another one, and the job is gone.
class World {
    // A world, or the refusal's status with the place of the program and its slot.
    static open(library, job) {
        const handle = BigInt.asUintN(64, library.lib.page_alloc(BigInt(HANDLE_SIZE)));
        if (handle === 0n) throw new Error("no memory");
        new Uint8Array(library.lib.memory.buffer, Number(handle), HANDLE_SIZE).fill(0);
        const refusal = library.during(() => {
            const report = library.lend(null, REPORT_SIZE);
            const status = library.lib.telgovan_world_open(...library.lend_job(job), handle, report) >>> 0;
            const said = library.view(report, REPORT_SIZE);
            const program = said.getUint8(28) ? said.getUint32(20, true) : null;
            return { status, program, slot: said.getUint8(29) ? said.getUint32(24, true) : null };
        });
        if (!refusal.status) return { status: 0, world: new World(library, handle) };
        library.lib.page_free(handle);
        return refusal;
    }

    constructor(library, handle) {
        this.library = library;
        this.lib = library.lib;
        this.handle = handle;
    }

    // What `work` answers, where the module is still the one that has the job.
    within(work) {
        if (this.lib !== this.library.lib) throw new Error("the job is gone");
        return this.library.during(work);
    }

    // Runs a task, at most so many instructions, and tells how the job stands then.
    run(number, limit = 1) {
        return this.within(() => {
            const room = this.library.lend(null, STEP_SIZE);
            const status = this.lib.telgovan_world_run(this.handle, number, limit, room) >>> 0;
            if (status) throw new Error(`the job: refused ${status}`);
            const said = this.library.view(room, STEP_SIZE);
            const [came_to, count, tasks, held, returned, spent, used] =
                [12, 16, 20, 24, 28, 32, 36].map((at) => said.getUint32(at, true));
            const sums = { held, returned, spent, used };
            return { came_to, count, tasks, sums, r0: said.getBigUint64(0, true), is_complete: said.getUint8(40) !== 0 };
        });
    }

    // The buffer as it is now.
    buffer(size) {
        return this.within(() => {
            const call = (...room) => this.lib.telgovan_world_buffer(this.handle, ...room);
            const told = this.library.written(call, size);
            if (told.status) throw new Error(`the buffer: refused ${told.status}`);
            return told.bytes;
        });
    }

    close() {
        if (this.lib !== this.library.lib) return;
        this.lib.telgovan_world_drop(this.handle);
        this.lib.page_free(this.handle);
        this.lib = null;
    }
}
