// hold.js ENGINE.wasm CASES STACK: makes the calls in CASES of the engine in WebAssembly, and holds what each gives
// back and leaves in memory to what the native engine did, which stands in CASES too; the head of cases.c has its form.
// STACK: the bytes of stack that ENGINE.wasm was linked with, from address 0 on.
//
// How parameters arrive: a number, a list's length and what is given back have 64 bits and are BigInt; a pointer is an
// address in the module's memory, has 32 bits and is Number. A BigInt given back is signed: BigInt.asUintN(64, x) is
// the engine's number.
"use strict";
const fs = require("fs");

const [enginePath, casesPath, stackWord] = process.argv.slice(2);
const STACK = Number(stackWord);

// ---- The engine, and room for the lists in pages of memory that are added to its own

const ROOM = 4096; // words for each list, of which the first GUARD and those past the list guard it
const GUARD = 64;
const PAGE = 65536;
const PAINT = 0x0ddba11c0ffee000n;
const NAMES = ["rain", "subareas", "pond", "inflow", "outflow", "storage", "fresh", "answer", "changes", "values"];

const engine = new WebAssembly.Instance(new WebAssembly.Module(fs.readFileSync(enginePath)), {}).exports;
const bytes = NAMES.length * ROOM * 8;
const base = PAGE * engine.memory.grow(Math.ceil(bytes / PAGE));
const memory = engine.memory.buffer;

// What the lists hold, guards and all, and what they are to hold. The two are compared byte by byte after each call.
const held = Buffer.from(memory, base, bytes);
const due = Buffer.alloc(bytes);
const lists = new Map(NAMES.map((name, i) => [name, listAt(8 * (ROOM * i + GUARD))]));
new BigUint64Array(memory, base, bytes / 8).fill(PAINT);
due.set(held);

function listAt(offset) {
    const words = (buffer, start) => ({
        wholes: new BigUint64Array(buffer, start + offset, ROOM - 2 * GUARD),
        doubles: new Float64Array(buffer, start + offset, ROOM - 2 * GUARD),
    });
    return { at: base + offset, offset, length: 0, held: words(memory, base), due: words(due.buffer, due.byteOffset) };
}

function write(words, name, numbers) {
    if (name === "values") words.doubles.set(numbers.map(Number));
    else words.wholes.set(numbers.map((n) => BigInt.asUintN(64, BigInt(n))));
}

// ---- Calls

const setup = { step: 0n, first: 0n, rule: 0n };
let width = 0; // the numbers of a record
const at = (name) => lists.get(name).at;
const lend = (name) => [at(name), BigInt(lists.get(name).length)];
const records = () => [at("subareas"), BigInt(lists.get("subareas").length / width)];
const rows = () => [...lend("inflow"), ...lend("outflow"), ...lend("storage")];
const basin = (subareas) => [setup.step, setup.first, setup.rule, ...lend("rain"), ...subareas];
const run = (subareas) => [...basin(subareas), ...lend("pond"), ...rows()];
const change = (place) => [place, at("fresh"), at("answer"), at("changes")];

const parameters = {
    bt_study: () => [...run(lend("subareas")), at("answer")],
    bt_study_records: () => [...run(records()), at("answer")],
    bt_edit: (place) => [...run(lend("subareas")), ...change(place)],
    bt_edit_records: (place) => [...run(records()), ...change(place)],
    bt_mark: (row) => [setup.step, setup.first, ...lend("pond"), ...rows(), row, at("answer"), at("values")],
    bt_inflow: () => [...basin(lend("subareas")), ...rows(), at("answer")],
    bt_textbook: () => [...basin(lend("subareas")), ...rows(), at("answer")],
};

let called = null; // the last call, until it is looked at

function call(name, asked) {
    for (const answer of ["answer", "changes", "values"]) {
        lists.get(answer).held.wholes.fill(PAINT);
        lists.get(answer).due.wholes.fill(PAINT);
    }
    const given = parameters[name](asked);
    if (given.length !== engine[name].length) stop(`${name} takes ${engine[name].length} parameters`);
    called = { name, asked, gave: BigInt.asUintN(64, engine[name](...given)), due: null };
    lookAtStack(name);
}

// ---- What is looked at after a call

const tally = new Map(Object.keys(parameters).map((name) => [name, new Map()])); // calls by refusal number
let lastNumbers = 0; // marks whose point has the greatest row number
let differ = 0;
let about = "";
let line = 0;

function stop(what) {
    console.error(`wasm: ${what} (line ${line} of ${casesPath})`);
    process.exit(1);
}

function differs(what) {
    if (differ++ === 0) console.log(`wasm: ${about}: ${called.name} before line ${line} of ${casesPath}: ${what}`);
}

// The first word that differs, by its list and its place there, from 0; before and after a list stand its guards.
function firstDifference() {
    const byte = held.findIndex((b, i) => b !== due[i]);
    const name = NAMES[Math.floor(byte / (8 * ROOM))];
    const list = lists.get(name);
    const place = Math.floor((byte - list.offset) / 8);
    const shown = (words) => (name === "values" ? words.doubles[place] : words.wholes[place]);
    return `${name}[${place}] is ${shown(list.held)}, natively ${shown(list.due)}`;
}

// A point's row number, as a Number: the whole number itself, also where it is the greatest that is allowed.
function lookAtPoint() {
    const row = lists.get("values").held.doubles[2];
    const number = setup.first + called.asked - 1n;
    if (!Number.isSafeInteger(row) || BigInt(row) !== number) differs(`row number ${row} for ${number}`);
    if (row === 9007199254740991) lastNumbers++;
}

function lookAtCall() {
    if (called === null) return;
    if (called.due === null) stop("a call and nothing that it is held to");
    const counts = tally.get(called.name);
    counts.set(Number(called.due), (counts.get(Number(called.due)) ?? 0) + 1);
    if (called.gave !== called.due) differs(`it gives ${called.gave}, natively ${called.due}`);
    if (!held.equals(due)) differs(firstDifference());
    if (called.name === "bt_mark" && called.gave === 0n) lookAtPoint();
    held.set(due); // so that one difference is not told again
    called = null;
}

// ---- Lines

const words = {
    interface: (number) => {
        const own = BigInt.asUintN(64, engine.bt_interface());
        if (own !== BigInt(number)) stop(`the interface is ${own}, natively ${number}`);
    },
    record: (numbers) => {
        width = Number(numbers);
    },
    case: (...text) => {
        about = text.join(" ");
    },
    setup: (step, first, rule) => {
        setup.step = BigInt(step);
        setup.first = BigInt(first);
        setup.rule = BigInt(rule);
    },
    lend: (name, ...numbers) => {
        const list = lists.get(name);
        list.length = numbers.length;
        write(list.held, name, numbers);
        write(list.due, name, numbers);
    },
    call: (name, asked) => call(name, asked === undefined ? undefined : BigInt(asked)),
    gave: (number) => {
        called.due = BigInt(number);
    },
    due: (name, ...numbers) => write(lists.get(name).due, name, numbers),
};

function read(text) {
    line++;
    const [word, ...rest] = text.split(" ");
    if (!(word in words)) stop(`no line begins with '${word}'`);
    if (word !== "gave" && word !== "due") lookAtCall();
    words[word](...rest);
}

// ---- The stack: how far down a painted one is written, by entry. It lies from address 0 on, all of it free at rest.

const stack = Buffer.from(memory, 0, STACK);
const painted = Buffer.from(new BigUint64Array(STACK / 8).fill(PAINT).buffer);
const deepest = new Map(); // bytes, by entry

// What lies below the deepest call of the entry so far must be paint; where it is not, this call was deeper.
function lookAtStack(name) {
    const known = deepest.get(name) ?? 0;
    const free = STACK - known;
    if (!stack.subarray(0, free).equals(painted.subarray(0, free))) {
        const words = new BigUint64Array(memory, 0, STACK / 8);
        deepest.set(name, STACK - 8 * words.findIndex((word) => word !== PAINT));
    }
    stack.set(painted);
}

function printStack() {
    for (const name of Object.keys(parameters))
        console.log(`stack: ${name} takes ${deepest.get(name) ?? 0} of ${STACK} bytes`);
}

// ---- All of it

const upTo = (n) => Array.from({ length: n }, (_, i) => i + 1);
const REFUSALS = {
    bt_study: [...upTo(14), 19, 20],
    bt_study_records: [...upTo(14), 19, 20],
    bt_edit: [...upTo(17), 19, 20],
    bt_edit_records: [...upTo(17), 19, 20],
    bt_mark: [1, 2, 4, 12, 13, 17, 18],
    bt_inflow: [...upTo(11), 19, 20],
    bt_textbook: [...upTo(11), 19, 20],
};

// Gives whether each function ended in every way that it can.
function printTally() {
    let all = true;
    for (const [name, counts] of tally) {
        const missing = [0, ...REFUSALS[name]].filter((n) => !counts.has(n));
        const calls = [...counts.values()].reduce((a, b) => a + b, 0);
        const refused = REFUSALS[name].length - missing.length;
        console.log(`${name}: ${calls} calls, ${counts.get(0) ?? 0} of them done, ${refused} refusal numbers`);
        if (missing.length > 0) console.log(`  none ended with ${missing.join(", ")}: the cases do not reach it`);
        all = all && missing.length === 0;
    }
    return all;
}

stack.set(painted);
fs.readFileSync(casesPath, "utf8").trimEnd().split("\n").forEach(read);
line++;
lookAtCall();

const all = printTally();
const calls = [...tally.values()].flatMap((counts) => [...counts.values()]).reduce((a, b) => a + b, 0);
console.log(`marks of row number ${Number.MAX_SAFE_INTEGER}, as a JavaScript number: ${lastNumbers}`);
printStack();
console.log(`wasm: ${calls} calls, ${differ} differ from the native engine`);
process.exit(all && differ === 0 && lastNumbers > 0 ? 0 : 1);
