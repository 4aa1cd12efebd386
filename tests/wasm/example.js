// Four studies from JavaScript, two refused: those of tests/host/example, with the same numbers; what is altered there
// by an edit is here a new study. tests/wasm/run runs this and compares what it prints.
//
//     node tests/wasm/example.js ENGINE.wasm
//
// include/bridletenon.h has the meaning and the unit of each number.
"use strict";
const fs = require("fs");

const engine = new WebAssembly.Instance(new WebAssembly.Module(fs.readFileSync(process.argv[2])), {}).exports;

const INTERFACE = 5n; // what this was written for
if (engine.bt_interface() !== INTERFACE) {
    throw new Error(`the engine has interface ${engine.bt_interface()}, not ${INTERFACE}`);
}

// Lists stand in a page that is added to the engine's memory: all the rest of it is the engine's own.
let free = 65536 * engine.memory.grow(1);

// A list in that page. Where it begins is its address.
function lend(numbers) {
    const list = new BigUint64Array(engine.memory.buffer, free, numbers.length);
    list.set(numbers.map(BigInt));
    free += list.byteLength;
    return list;
}

const slice = (list) => [list.byteOffset, BigInt(list.length)]; // as the engine takes a list: pointer, length
const padded = (numbers, length) => [...numbers, ...Array(length - numbers.length).fill(0)];

const MOST_PATCHES = 8;
const PATCH_WIDTH = 3;
const MOST_SEGMENTS = 6;
const SEGMENT_WIDTH = 5;

// A record: patch count, room for all patches, segment count, room for all segments.
function record(patches, segments) {
    return [
        patches.length, ...padded(patches.flat(), MOST_PATCHES * PATCH_WIDTH),
        segments.length, ...padded(segments.flat(), MOST_SEGMENTS * SEGMENT_WIDTH),
    ];
}

// Segments by their kind: its number, the length, then what the kind needs. What is left of a segment's room is spare.
const unpaved = (length, slope) => padded([1, length, slope], SEGMENT_WIDTH);
const paved = (length, slope) => padded([2, length, slope], SEGMENT_WIDTH);
const given = (length, velocity) => padded([3, length, velocity], SEGMENT_WIDTH);
const sheet = (length, n, rain, slope) => [4, length, n, rain, slope];
const channel = (length, n, radius, slope) => [5, length, n, radius, slope];

const ROWS = 24;
const entries = [0, 60, 150, 300, 600, 1400, 2200, 2500, 2700, 2830, 2920, 2970, 3000];
const rain = lend(entries);
const slipped = lend([...entries.slice(0, -1), 30000]); // a slipped decimal
const lots = record([[14, 2, 800], [4, 2, 200]], [unpaved(300, 200), given(1200, 250)]);
const woods = record([[20, 3, 600]], [unpaved(1500, 300)]);
const built = record(
    [[12, 3, 500], [20, 3, 100]],
    [sheet(150, 150, 3600, 200), paved(1400, 300), channel(400, 30, 80, 100)],
);
const subareas = lend([...lots, ...woods]);
const altered = lend([...lots, ...built]);
const pond = lend([0, 0, 0, 1000, 12000000, 2000, 2000, 30000000, 9000, 4000, 90000000, 20000]);
const [inflow, outflow, storage] = [1, 2, 3].map(() => lend(Array(ROWS).fill(0)));
const answer = lend(Array(12).fill(0));

const step = 300n; // seconds
const first = 1n; // the first row's number
const TR55 = 1n; // sheet rules: sheet flow to 300 ft,
const WINTR55 = 2n; // and to 100 ft
const REFUSED_SEGMENTS = 7n;
const REFUSED_RISE = 19n;
const study = (rule, rain, subareas) => engine.bt_study(
    step, first, rule, ...slice(rain), ...slice(subareas), ...slice(pond),
    ...slice(inflow), ...slice(outflow), ...slice(storage), answer.byteOffset,
);

function thousandths(what, number, unit) {
    const digits = String(number % 1000n).padStart(3, "0");
    console.log(`  ${what.padEnd(16)} ${String(number / 1000n).padStart(6)}.${digits} ${unit}`);
}

function refused(what) {
    console.log(`${what} is refused: ${answer[0]} at ${answer[1]}`);
}

function print(what, refusal) {
    if (refusal !== 0n) {
        refused(what);
        return;
    }
    console.log(what);
    thousandths("inflow", answer[2], "cubic feet");
    thousandths("released", answer[3], "cubic feet");
    thousandths("stored", answer[4], "cubic feet");
    thousandths("peak outflow", answer[5], "cfs");
    console.log(`  ${"in row".padEnd(16)} ${String(answer[6]).padStart(6)}`);
    thousandths("greatest stage", answer[7], "ft");
}

if (study(TR55, slipped, subareas) === REFUSED_RISE) {
    refused("the study with a slipped decimal");
}
if (study(WINTR55, rain, altered) === REFUSED_SEGMENTS) {
    refused("the study with sheet flow past 100 ft, by the rule of 100 ft,");
}
print("the study", study(TR55, rain, subareas));
print("with the second subarea built over", study(TR55, rain, altered));
