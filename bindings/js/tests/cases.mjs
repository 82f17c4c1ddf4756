// Makes the calls of the tables of cases/ that the package has: on bytes, and in little endian also
// on code units. How a case is made follows from the shape of its call in calls.js. Prints each case
// whose result differs, with both results, and last 'N passed, M failed'. Cases of other calls, and cases with a condition on memory or devices, are not run.
// DETHRUX_TOP is the folder of the repository, whose cases/to_json.py reads the tables with Python.
// In a browser ../cases.json has what the script prints.
import { load } from "dethrux";
import { CALLS } from "../node_modules/dethrux/calls.js";
import { camelCase, isNode, isSame, ofNode, read, together } from "./common.mjs";

const dethrux = await load();
const STOPS = { done: "end", incomplete: "incomplete", "no-space": "no_space", "not-latin1": "not_latin1" };

/** The bytes of a word. */
function bytes(word) {
    if (!/^(-|([0-9A-F]{2})+)$/.test(word)) {
        throw new Error(`these are not bytes: ${word}`);
    }
    return Uint8Array.from(word.match(/\w\w/g) ?? [], (it) => parseInt(it, 16));
}

const chunks = (words) => words.flatMap((word) => word.split(",").map(bytes));
const DIGITS = Array.from("0123456789ABCDEF");
const PAIRS = DIGITS.flatMap((high) => DIGITS.map((low) => high + low));
const hex = (array) => Array.from(array, (it) => PAIRS[it]).join("") || "-";
const text = (array) => `utf8:${hex(array)}`;

/** UTF-32, which a case spells in big endian. */
function points(word) {
    const raw = new DataView(bytes(word).buffer);
    return Uint32Array.from({ length: raw.byteLength / 4 }, (_, at) => raw.getUint32(at * 4));
}

function madePoints(array) {
    const raw = new DataView(new ArrayBuffer(array.length * 4));
    array.forEach((it, at) => raw.setUint32(at * 4, it));
    return hex(new Uint8Array(raw.buffer));
}

/** The result for code units, from the one for bytes, whose lengths and offsets are of bytes. */
function halved(found) {
    if (typeof found !== "object") {
        return found > 0 && found !== true ? found / 2 : found;
    }
    const fields = ["read", "validUpTo", "errorLen"].filter((it) => it in found);
    return { ...found, ...Object.fromEntries(fields.map((it) => [it, found[it] / 2])) };
}

/** Fails if a call gives something else on code units than what is wanted, if there are such. */
function agree(order, arrays, wanted, call) {
    if (order === "le" && arrays.every((it) => it.length % 2 === 0)) {
        const found = call(...arrays.map((it) => new Uint16Array(it.slice().buffer)));
        if (JSON.stringify(found) !== JSON.stringify(wanted)) {
            throw new Error(`on code units: ${JSON.stringify(found)}`);
        }
    }
}

const stop = ({ status, errorLen }) => (status === "ill-formed" ? ["ill_formed", errorLen] : [STOPS[status]]);

/** The name of the function for the length of what a conversion writes. */
function lengthName(name) {
    const begin = name.match(/^(to|from)[A-Z][a-z]+\d*/)[0];
    return [`${begin}LossyLen`, `${begin}Len`].find((it) => it in dethrux);
}

/** A conversion from UTF-16. */
function fromUtf16(name, made) {
    const size = lengthName(name);
    return (order, [source, room]) => {
        const utf16 = bytes(source);
        const capacity = room === "size" ? dethrux[size](utf16, order) : Number(room);
        const found = dethrux[name](utf16, order, capacity);
        agree(order, [utf16], halved(found), (units) => dethrux[name](units, capacity));
        return [found.read, found.output.length, ...stop(found), made(found.output)];
    };
}

/** A conversion to UTF-16, from what a case spells so. */
function toUtf16(name, spell) {
    const size = lengthName(name);
    return (order, [source, room]) => {
        const array = spell(source);
        const capacity = room === "size" ? dethrux[size](array, order) : Number(room);
        const found = dethrux[name](array, order, capacity);
        const units = order === "le" && capacity % 2 === 0 && dethrux[name](array, undefined, capacity / 2);
        if (units && hex(new Uint8Array(units.output.buffer)) !== hex(found.output)) {
            throw new Error(`on code units: ${units.output}`);
        }
        return [found.read, found.output.length, ...stop(found), hex(found.output)];
    };
}

/** What is asked of UTF-16. A number is not of its length. */
function asked(name, words) {
    return (order, [source]) => {
        const utf16 = bytes(source);
        const found = dethrux[name](utf16, order);
        agree(order, [utf16], typeof found === "number" ? found : halved(found), dethrux[name]);
        return words(found, utf16);
    };
}

function validity(found, whole) {
    if (found.status === "done") {
        return whole;
    }
    return ["error", found.validUpTo, found.status === "incomplete" ? "none" : found.errorLen];
}

/** What a decoder or an encoder gives for chunks. */
function fed(coder, parts) {
    return together([...parts.map((it) => coder.feed(it)), coder.finish()]);
}

/** A stream cut into single bytes, and in two at each place. */
function cuttings(array) {
    const two = Array.from({ length: array.length + 1 }, (_, at) => [array.subarray(0, at), array.subarray(at)]);
    return [Array.from(array, (it) => Uint8Array.of(it)), ...two];
}

/** The output for a stream, and any other that a cutting gives. */
function cutAnywhere(array, made, coder) {
    const whole = fed(made(coder), [array]);
    const all = cuttings(array).map((parts) => fed(made(coder), parts));
    return [whole, ...all.filter((it) => !isSame(it, whole))];
}

function fromUtf8Lossy(order, words) {
    const found = toUtf16("fromUtf8Lossy", bytes)(order, words);
    const streams = found[2] === "end" ? cutAnywhere(bytes(words[0]), dethrux.encoder, order) : [];
    return [...found, ...streams.map(hex).filter((it) => it !== found.at(-1))];
}

function fedLossy(order, words) {
    const decoder = dethrux.decoder(order);
    const found = chunks(words).flatMap((it) => [text(decoder.feed(it)), hex(decoder.pending)]);
    return [...found, decoder.finish().length ? "U+FFFD" : "none"];
}

function compared(name) {
    return (order, [first, second]) => {
        const arrays = [bytes(first), bytes(second)];
        const found = dethrux[name](arrays[0], order, arrays[1], order);
        const other = arrays[1].slice();
        dethrux.swapByteOrder(other);
        const isSame = dethrux[name](arrays[0], order, other, order === "le" ? "be" : "le") === found;
        return [isSame ? ["less", "equal", "greater"][found + 1] : "differs"];
    };
}

function searched(name) {
    return (order, words) => {
        const [utf16, pattern] = words.map((it) => bytes(it));
        const found = dethrux[name](utf16, order, pattern);
        agree(order, [utf16, pattern], halved(found), dethrux[name]);
        return [found === -1 ? "none" : found];
    };
}

/** A change in place. The result, if there is one, precedes the bytes. */
function changed(name, ...orders) {
    return (order, [source]) => {
        const array = bytes(source);
        const found = dethrux[name](array, ...orders.map(() => order));
        return [found, hex(array)].filter((it) => it !== undefined);
    };
}

function atOffset(name) {
    return (order, [source, at]) => {
        const utf16 = bytes(source);
        const offset = at === "max" ? Number.MAX_SAFE_INTEGER : Number(at);
        const found = dethrux[name](utf16, order, offset);
        if (offset % 2 === 0) {
            agree(order, [utf16], halved(found), (units) => dethrux[name](units, offset / 2));
        }
        return [found];
    };
}

function inAnyOrder(name) {
    return (_order, [source]) => {
        const utf16 = bytes(source);
        const found = dethrux[name](utf16);
        agree("le", [utf16], halved(found), dethrux[name]);
        return [found];
    };
}

// The words for the answer of a question, by its kind. Other cases make a call without them.
const WORDS = {
    size: (it) => [it],
    truth: (it) => [it],
    inspection: (it) => [it.validUpTo, it.chars, it.repertoire, ...stop(it)],
};
// How the cases of a call are made, by its shape. Other cases make the calls of the empty ones.
const SHAPES = {
    utf16: (name, kind) => WORDS[kind] && asked(name, WORDS[kind]),
    utf16At: atOffset,
    utf16Pair: compared,
    utf16Search: searched,
    utf16ToUtf8: (name) => fromUtf16(name, name.startsWith("toUtf8") ? text : hex),
    utf16ToLatin1: (name) => fromUtf16(name, hex),
    utf16ToUtf32: (name) => fromUtf16(name, madePoints),
    bytesToUtf16: (name) => toUtf16(name, bytes),
    utf32ToUtf16: (name) => toUtf16(name, points),
    bytes: (name) => (_order, [source]) => [dethrux[name](bytes(source))],
    bytesForUtf16: (name) => (order, [source]) => [dethrux[name](bytes(source), order)],
    utf32ForUtf16: (name) => (order, [source]) => [dethrux[name](points(source), order)],
    utf32: (name) => (_order, [source]) => {
        const { status, validUpTo, errorLen } = dethrux[name](points(source));
        return status === "ill-formed" && errorLen === 1 ? [validUpTo] : [status];
    },
    around: (name) => (order, [source, at]) => [dethrux[name](bytes(source), order, BigInt(at))],
    offsets: (name) => (_order, words) => [dethrux[name](...words.map(BigInt))],
    swapped: (name) => changed(name),
    repaired: (name) => changed(name, "the byte order"),
    inAnyOrder,
    nothing: () => undefined,
    start: () => undefined,
    stream: () => undefined,
};
const MODULES = { utf16At: "bytes::", around: "bytes::", utf16Pair: "bytes::", utf16Search: "search::" };
const MADE = {
    ...Object.fromEntries(
        Object.entries(CALLS).map(([call, [shape, kind]]) => [
            `${MODULES[shape] ?? ""}${call}`,
            SHAPES[shape](camelCase(call), kind),
        ]),
    ),
    validate_raw_utf16: asked("validate", (it) => validity(it, ["done"])),
    "WStr::from_utf16": asked("validate", (it, utf16) => validity(it, [hex(utf16)])),
    from_utf8_lossy: fromUtf8Lossy,
    every_chunking: (order, [source]) => cutAnywhere(bytes(source), dethrux.decoder, order).map(text),
    "AnyLossy::every_chunking": (order, [source]) =>
        cutAnywhere(bytes(source), dethrux.decoder, "bom").map(text),
    "Lossy::feed": fedLossy,
    decode_pieces: (order, words) => [text(fed(dethrux.decoder(order), chunks(words)))],
};

/** What is wrong with a case, or nothing. */
function fault({ call, order, values, result }) {
    try {
        const found = MADE[call](order, values).join(" ");
        return found === result.join(" ") ? undefined : `found ${found}`;
    } catch (error) {
        return String(error);
    }
}

const counts = { passed: 0, failed: 0 };
const made = new Set();

function count(said, line) {
    counts[said ? "failed" : "passed"] += 1;
    if (said) {
        console.log(`JavaScript failed: ${line}\n   ${said}`);
    }
}

/** What the script prints. */
async function tables() {
    if (!isNode) {
        return new TextDecoder().decode(await read(new URL("../cases.json", import.meta.url)));
    }
    const script = `${process.env.DETHRUX_TOP}/cases/to_json.py`;
    const options = { encoding: "utf8", maxBuffer: Infinity };
    return ofNode("node:child_process").execFileSync("python3", [script], options);
}

const lines = await tables();
for (const line of lines.trim().split("\n")) {
    const it = JSON.parse(line);
    if (MADE[it.call] && it.conditions.length === 0) {
        made.add(it.call);
        count(fault(it), line);
    }
}
for (const call of Object.keys(MADE).filter((it) => MADE[it] && !made.has(it))) {
    count("there is no case of it", call);
}
console.log(`${counts.passed} passed, ${counts.failed} failed`);
if (isNode) {
    process.exitCode = counts.failed ? 1 : 0;
}
