// WebAssembly in Node: `wasm.js MODULE FRAMES answers` or `time`, as frames.h, and `wasm.js MODULE COUNT
// held`, as held.h. Each frame is copied to
// the module's memory, since it sees no other; with `inside` behind MODULE it is there already.
const fs = require("fs");
const words = process.argv.slice(2);
const isInside = words[1] === "inside";
const [compiled, listed, form] = words.filter((word) => word !== "inside");
const instance = new WebAssembly.Instance(new WebAssembly.Module(fs.readFileSync(compiled)), {});
const { memory, within_budget: passes, __heap_base: base } = instance.exports;
const at = base.value;
memory.grow(16);
const room = new Uint8Array(memory.buffer);

function read(bytes) {
    const made = [];
    for (let start = 0; start < bytes.length; ) {
        const length = bytes.readUInt32LE(start);
        made.push(new Uint8Array(bytes.subarray(start + 4, start + 4 + length)));
        start += 4 + length;
    }
    return made;
}

function answer(frame) {
    room.set(frame, at);
    return passes(at);
}

// The places of frames that are there already.
function put(frames) {
    let end = at;
    return frames.map((frame) => {
        room.set(frame, end);
        end += frame.length;
        return end - frame.length;
    });
}

function timed(times) {
    let sum = 0;
    const start = process.hrtime.bigint();
    for (let round = 0; round < times; round++) for (const frame of frames) sum += answerTo(frame);
    return [Number(process.hrtime.bigint() - start) / (times * frames.length), sum];
}

// What an instance takes, each of a module of its own, as this process's resident memory grows; and how
// long it takes to make one. A section of its own tells each module from the others: equal ones share code.
function hold(count) {
    const text = fs.readFileSync(compiled);
    const section = (n) => Buffer.from([0, 4, 1, 110, n & 255, n >> 8]);
    const own = Array.from({ length: count }, (_, n) => Buffer.concat([text, section(n)]));
    const before = process.memoryUsage().rss;
    const start = process.hrtime.bigint();
    const held = [];
    for (const bytes of own) held.push(new WebAssembly.Instance(new WebAssembly.Module(bytes), {}));
    for (const one of held) one.exports.within_budget(base.value);
    const time = Number(process.hrtime.bigint() - start);
    return `0 ${(process.memoryUsage().rss - before) / count} ${time / count}`;
}

if (form === "held") {
    console.log(hold(Number(listed)));
    process.exit(0);
}

const copied = read(fs.readFileSync(listed));
const frames = isInside ? put(copied) : copied;
const answerTo = isInside ? passes : answer;
if (form === "answers") {
    console.log(`${frames.map((frame) => answerTo(frame)).join("")} 0`);
} else {
    timed(20);
    const times = Math.max(1, Math.round(20e6 / (timed(20)[0] * frames.length)));
    let quickest = Infinity;
    for (let round = 0; round < 9; round++) quickest = Math.min(quickest, timed(times)[0]);
    console.log(quickest.toFixed(3));
}
