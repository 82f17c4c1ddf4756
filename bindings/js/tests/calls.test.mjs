import assert from "node:assert/strict";
import { test } from "node:test";
import { IllFormedError, isSupported, load, stringOf, unitsOf } from "dethrux";
import { CALLS } from "../node_modules/dethrux/calls.js";
import { be, camelCase, isIllFormed, le, replaced, utf8 } from "./common.mjs";
import { isNode, isSame, ofNode, read } from "./common.mjs";

const { readFileSync } = ofNode("node:fs");
const { createServer } = ofNode("node:http");

/** What a call returns in a browser, which has no Buffer. */
async function withoutBuffer(call) {
    const { Buffer } = globalThis;
    delete globalThis.Buffer;
    try {
        return await call();
    } finally {
        globalThis.Buffer = Buffer;
    }
}

const BYTES_OF_MODULE = await read(new URL(import.meta.resolve("dethrux/dethrux.wasm")));
const MODULE = new WebAssembly.Module(BYTES_OF_MODULE);
/** Loads the library, with the memory that it begins with. */
const loadFresh = () => load(MODULE);
const dethrux = await load();
const LIBRARIES = [dethrux, await withoutBuffer(loadFresh)];
const top = globalThis.process?.env.DETHRUX_TOP;

// What a module of WebAssembly begins with.
const HEAD = [0, 0x61, 0x73, 0x6d, 1, 0, 0, 0];

test("the module has the calls of the header, and no others", () => {
    const names = WebAssembly.Module.exports(MODULE).map((it) => it.name);
    const wanted = Object.keys(CALLS).map((it) => `dethrux_${it}`);
    assert.deepEqual(names.sort(), [...wanted, "__heap_base", "memory"].sort());
    assert.deepEqual(WebAssembly.Module.imports(MODULE), []);
});

test("each function is in the types, and no others", () => {
    const types = readFileSync(new URL("./dethrux.d.ts", import.meta.resolve("dethrux")), "utf8");
    const body = types.slice(types.indexOf("interface Dethrux"));
    const names = [...body.matchAll(/^    (\w+)(?:: |\(|<)/gm)].map((it) => it[1]);
    assert.deepEqual([...new Set(names)].sort(), Object.keys(dethrux).sort());
});

test("the version is that of the tree", () => {
    const [major, minor, patch] = readFileSync(`${top}/VERSION`, "utf8").trim().split(".").map(Number);
    assert.equal(dethrux.version(), major * 1000000 + minor * 1000 + patch);
    const { version } = JSON.parse(readFileSync(new URL("./package.json", import.meta.resolve("dethrux"))));
    assert.equal(version, `${major}.${minor}.${patch}`);
});

test("an error says where it is, in elements of the array", () => {
    const text = "Gr\u00fc\udc00";
    assert.deepEqual(dethrux.validate(le(text), "le"), { validUpTo: 6, status: "ill-formed", errorLen: 2 });
    assert.deepEqual(dethrux.validate(be(text), "be"), { validUpTo: 6, status: "ill-formed", errorLen: 2 });
    assert.deepEqual(dethrux.validate(unitsOf(text)), { validUpTo: 3, status: "ill-formed", errorLen: 1 });
    assert.deepEqual(dethrux.toUtf8(unitsOf(text)), { output: utf8("Grü"), read: 3, status: "ill-formed", errorLen: 1 });
    assert.deepEqual(dethrux.fromUtf8(Uint8Array.of(0x61, 0xe2, 0x82, 0x28)), { output: Uint16Array.of(0x61), read: 1, status: "ill-formed", errorLen: 2 });
    assert.deepEqual(dethrux.validate(le("a").subarray(0, 1), "le"), { validUpTo: 0, status: "incomplete", errorLen: 0 });
});

test("a capacity counts elements of the output", () => {
    const rest = { read: 1, status: "no-space", errorLen: 0 };
    assert.deepEqual(dethrux.toUtf8(unitsOf("aé"), 2), { output: utf8("a"), ...rest });
    assert.deepEqual(dethrux.fromUtf8(utf8("aé"), undefined, 1), { output: Uint16Array.of(0x61), ...rest });
    assert.deepEqual(dethrux.fromUtf8(utf8("aé"), "be", 3), { output: Uint8Array.of(0, 0x61), ...rest });
    assert.deepEqual(dethrux.toUtf32(unitsOf("aé"), 1), { output: Uint32Array.of(0x61), ...rest });
    assert.equal(dethrux.toUtf8(unitsOf("a"), Number.MAX_SAFE_INTEGER).status, "done");
});

/** Fails unless a conversion into an array writes what it returns with such a capacity. */
function checkInto(name, array, order, Kind, isToUtf16) {
    for (let room = 0; room < 20; room += 1) {
        const [to, wanted] = [new Kind(room + 2).fill(9), new Kind(room + 2).fill(9)];
        const inner = to.subarray(1, room + 1);
        const orders = order ? [order] : [];
        const { output, ...rest } = dethrux[name](array, ...(isToUtf16 ? [order] : orders), room);
        const words = isToUtf16 ? [inner, ...orders] : [...orders, inner];
        const found = dethrux[`${name}Into`](array, ...words);
        assert.deepEqual(found, { ...rest, written: output.length }, `${name} ${room}`);
        wanted.set(output, 1);
        assert.deepEqual(to, wanted);
    }
}

test("a conversion into an array of the caller gives what it gives without, and no more", () => {
    const text = "a\u00e9\u4e00\u{1f600}\udc00";
    const raw = [utf8("a\u00e9\u{1f600}"), Uint8Array.of(0x61, 0xed, 0xa0, 0x80, 0xff)];
    const arrays = { bytesToUtf16: raw, utf32ToUtf16: [Uint32Array.of(0x61, 0x1f600, 0xd800)] };
    for (const [call, [shape, kind]] of Object.entries(CALLS)) {
        const name = camelCase(call);
        if (shape.startsWith("utf16To")) {
            const Kind = shape === "utf16ToUtf32" ? Uint32Array : Uint8Array;
            checkInto(name, le(text), "le", Kind);
            checkInto(name, be(text), "be", Kind);
            checkInto(name, unitsOf(text), undefined, Kind);
        }
        for (const array of arrays[shape] ?? []) {
            checkInto(name, array, "le", Uint8Array, true);
            checkInto(name, array, "be", Uint8Array, true);
            checkInto(name, array, undefined, Uint16Array, true);
        }
        const isConversion = kind === "progress" && shape !== "stream";
        assert.equal(`${name}Into` in dethrux, isConversion);
        assert.equal(shape.startsWith("utf16To") || shape in arrays, isConversion);
    }
});

test("a length of UTF-16 counts code units or bytes", () => {
    assert.equal(dethrux.fromUtf8Len(utf8("a\u00e9")), 2);
    assert.equal(dethrux.fromUtf8Len(utf8("a\u00e9"), "be"), 4);
    assert.equal(dethrux.fromUtf8LossyLen(Uint8Array.of(0x61, 0xff)), 2);
    assert.equal(dethrux.fromUtf32LossyLen(Uint32Array.of(0x1f600)), 2);
    assert.equal(dethrux.fromUtf32LossyLen(Uint32Array.of(0x1f600), "le"), 4);
});

test("arrays that begin within a buffer, and those of another window", () => {
    const bytes = Uint8Array.of(9, 0x61, 0, 0x62, 0, 9).subarray(1, 5);
    assert.deepEqual(dethrux.toUtf8(bytes, "le").output, utf8("ab"));
    const units = new Uint16Array(Uint16Array.of(9, 0x61, 0x62, 9).buffer, 2, 2);
    assert.deepEqual(dethrux.toUtf8(units).output, utf8("ab"));
    dethrux.swapByteOrder(units);
    assert.deepEqual(new Uint16Array(units.buffer), Uint16Array.of(9, 0x6100, 0x6200, 9));
    const other = isNode
        ? ofNode("node:vm").runInNewContext("Uint16Array")
        : document.body.appendChild(document.createElement("iframe")).contentWindow.Uint16Array;
    assert.ok(other !== Uint16Array);
    assert.deepEqual(dethrux.toUtf8(other.of(0x61)).output, utf8("a"));
    const inBuffer = isNode ? Buffer.from("a\0") : utf8("a\0");
    assert.deepEqual(dethrux.toUtf8(inBuffer, "le").output, utf8("a"));
});

test("an output is not changed by later calls", () => {
    const { output } = dethrux.toUtf8(unitsOf("first"));
    dethrux.toUtf8(unitsOf("later"));
    assert.deepEqual(output, utf8("first"));
});

test("offsets of files are numbers or bigints", () => {
    assert.equal(dethrux.shardOffset(100, 3, 1), 34);
    assert.equal(dethrux.shardOffset(2n ** 64n - 1n, 1n, 1n), 2n ** 64n - 1n);
    assert.equal(dethrux.floorCharBoundaryAround(Uint8Array.of(0x3d, 0xd8, 0, 0xde), "le", 2 ** 40 + 2), 2 ** 40);
    assert.throws(() => dethrux.shardOffset(2n ** 64n, 1n, 1n), RangeError);
});

test("the byte order of a stream", () => {
    assert.deepEqual(dethrux.detectBom(Uint8Array.of(0xff, 0xfe, 0x41)), { len: 2, order: "le", status: "present" });
    assert.deepEqual(dethrux.detectBom(Uint8Array.of(0xfe)), { len: 0, order: "be", status: "undecided" });
    assert.deepEqual(dethrux.detectBom(Uint8Array.of(0, 0x41), "le"), { len: 0, order: "le", status: "absent" });
});

test("wrong arguments are refused", () => {
    const bytes = le("a");
    const wrong = [
        () => dethrux.validate(bytes),
        () => dethrux.validate(bytes, "LE"),
        () => dethrux.validate(unitsOf("a"), "le"),
        () => dethrux.validate("a"),
        () => dethrux.validate(bytes.buffer, "le"),
        () => dethrux.validate(new Int8Array(2), "le"),
        () => dethrux.validate(null, "le"),
        () => dethrux.toUtf8(bytes, "le", "2"),
        () => dethrux.toUtf8(bytes, "le", 2n),
        () => dethrux.toUtf8(bytes, "le", 2, 3),
        () => dethrux.fromUtf8(unitsOf("a")),
        () => dethrux.fromUtf8(bytes, "utf-16"),
        () => dethrux.isCharBoundary(bytes, "le"),
        () => dethrux.find(bytes, "le"),
        () => dethrux.find(bytes, bytes, "le"),
        () => dethrux.find(bytes, "le", unitsOf("a")),
        () => dethrux.rfind(unitsOf("a"), bytes),
        () => dethrux.rfind(unitsOf("a"), "le", unitsOf("a")),
        () => dethrux.rfind(bytes, "le", bytes, 1),
        () => dethrux.nulOffset(bytes, "le"),
        () => dethrux.nulOffset("a"),
        () => dethrux.detectBom(bytes, "bom"),
        () => dethrux.version(1),
        () => dethrux.isCharBoundary(bytes, "le", 0, 1),
        () => dethrux.compare(bytes, "le", bytes, "le", 1),
        () => dethrux.validateUtf32(Uint32Array.of(1), 1),
        () => dethrux.fromUtf8Len(bytes, "le", 1),
        () => dethrux.fromUtf8(bytes, "le", 2, 3),
        () => dethrux.floorCharBoundaryAround(bytes, "le", 0, 1),
        () => dethrux.toUtf8Into(bytes, "le"),
        () => dethrux.toUtf8Into(bytes, "le", 2),
        () => dethrux.toUtf8Into(bytes, "le", bytes, 2),
        () => dethrux.toUtf32Into(bytes, "le", bytes),
        () => dethrux.fromUtf8Into(bytes, bytes),
        () => dethrux.fromUtf8Into(bytes, unitsOf("a"), "le"),
        () => dethrux.fromUtf8Into(bytes, "le", bytes),
        () => dethrux.decoder("le", "le"),
        () => dethrux.decoder("bom", "le", true),
        () => dethrux.encoder("le", true),
        () => dethrux.shardOffset(4, 2, 1, 1),
        () => dethrux.swapByteOrder(bytes, 1),
        () => dethrux.makeWellFormed(bytes, "le", 1),
        () => dethrux.detectBom(bytes, "le", 1),
        () => dethrux.decoder("utf-16"),
        () => dethrux.decoder("bom", "utf-16"),
        () => dethrux.decoder("le").feed(unitsOf("a")),
        () => dethrux.decoder().feed(bytes),
        () => dethrux.encoder("le").feed("a"),
        () => dethrux.decode(bytes),
        () => dethrux.decode(bytes, "utf-16le"),
        () => dethrux.decode("a", "le"),
        () => dethrux.decode(unitsOf("a"), "le"),
        () => dethrux.decode(bytes, "le", "fatal"),
        () => dethrux.decode(bytes, "le", {}, {}),
        () => dethrux.encode(bytes, "le"),
        () => dethrux.encode("a", "bom"),
        () => dethrux.encode("a", { fatal: true }),
        () => dethrux.encodeInto("a", bytes),
        () => dethrux.encodeInto("a", unitsOf("a"), "le"),
        () => dethrux.encodeInto(bytes, bytes, "le"),
        () => dethrux.textDecoder("bom"),
        () => dethrux.textDecoder("le", true),
        () => dethrux.textDecoder("le").decode(unitsOf("a")),
        () => dethrux.textDecoder().decode(bytes),
        () => dethrux.textDecoder("le").decode(null),
        () => dethrux.textDecoder("le").decode(bytes, true),
        () => dethrux.textDecoder("le").decode(bytes, {}, {}),
        () => dethrux.wtf8Decoder("le", { fatal: true }),
        () => dethrux.wtf8Encoder("le", { fatal: true }),
        () => dethrux.decode(bytes, "le", { stream: true }),
        () => unitsOf(5),
        () => unitsOf(["a"]),
        () => stringOf(bytes),
        () => stringOf("a"),
    ];
    for (const call of wrong) {
        assert.throws(call, (error) => error instanceof TypeError && !(error instanceof IllFormedError), String(call));
    }
    assert.throws(() => dethrux.toUtf8(bytes, "le", 2, undefined, 3), /too many: 3/);
    for (const at of [-1, 0.5, NaN, Infinity, 2 ** 53]) {
        assert.throws(() => dethrux.isCharBoundary(bytes, "le", at), RangeError);
        assert.throws(() => dethrux.toUtf8(bytes, "le", at), RangeError);
    }
});

test("options and a capacity may be undefined or null, and so may each option", () => {
    const bytes = le("\ufeffa\udc00");
    for (const none of [undefined, null]) {
        const options = { fatal: none, ignoreBOM: none };
        for (const given of [none, options]) {
            assert.equal(dethrux.decode(bytes, "le", given), "a\ufffd");
            assert.equal(dethrux.textDecoder("le", given).decode(bytes, given), "a\ufffd");
            assert.deepEqual(dethrux.encode("\udc00", "be", given), be("\ufffd"));
            assert.deepEqual(dethrux.decoder("bom", undefined, given).feed(bytes), utf8("a\ufffd"));
            assert.deepEqual(dethrux.encoder("le", given).feed(Uint8Array.of(0xff)), le("\ufffd"));
        }
        const decoder = dethrux.textDecoder("le", { fatal: true });
        isIllFormed(() => decoder.decode(le("\ud800"), { stream: none }), 0, 2);
        assert.equal(dethrux.toUtf8(unitsOf("a"), none).status, "done");
    }
});

test("arrays in memory that is shared, that was resized, and that is gone", () => {
    const shared = new Uint8Array(new SharedArrayBuffer(6), 2);
    assert.deepEqual(dethrux.encodeInto("ab", shared, "be"), { read: 2, written: 4 });
    for (const library of LIBRARIES) {
        assert.equal(library.decode(shared, "be"), "ab");
        assert.deepEqual(library.toUtf8(shared, "be").output, utf8("ab"));
    }
    dethrux.swapByteOrder(shared);
    assert.deepEqual(shared.slice(), le("ab"));
    assert.deepEqual(dethrux.fromUtf8Into(utf8("cd"), shared, "le").written, 4);
    assert.deepEqual(shared.slice(), le("cd"));
    const room = new ArrayBuffer(2, { maxByteLength: 8 });
    const [units, fixed] = [new Uint16Array(room), new Uint8Array(room, 0, 2)];
    room.resize(7);
    assert.deepEqual(dethrux.encodeInto("abcd", units), { read: 3, written: 3 });
    assert.equal(dethrux.decode(units), "abc");
    room.resize(1);
    const gone = le("a");
    structuredClone(gone, { transfer: [gone.buffer] });
    for (const array of [fixed, gone]) {
        assert.throws(() => dethrux.validate(array, "le"), TypeError);
        assert.throws(() => dethrux.decode(array, "le"), TypeError);
        assert.throws(() => dethrux.encodeInto("a", array, "le"), TypeError);
    }
    assert.equal(dethrux.decode(le("a"), "le"), "a");
});

test("too little memory throws a RangeError, and later calls work", () => {
    const huge = new Uint8Array(new ArrayBuffer(0, { maxByteLength: 8 }));
    Object.defineProperty(huge, "length", { value: 2 ** 45 });
    assert.throws(() => dethrux.toUtf8(huge, "le"), RangeError);
    assert.deepEqual(dethrux.toUtf8(unitsOf("a")).output, utf8("a"));
});

test("an array of 2 GiB has its length", () => {
    const huge = new Uint8Array(10);
    Object.defineProperty(huge, "length", { value: 2 ** 31 });
    assert.deepEqual(dethrux.encodeInto("hello", huge, "le"), { read: 5, written: 10 });
    assert.deepEqual(huge.slice(), le("hello"));
});

test("a string that is too long throws a RangeError, and changes nothing", () => {
    const fails = () => () => {
        throw new Error("too long");
    };
    const ofPlatform = [TextDecoder.prototype, "decode"];
    const prototypes = [isNode ? [Buffer.prototype, "toString"] : ofPlatform, ofPlatform];
    LIBRARIES.forEach((library, at) => {
        const decoder = library.textDecoder("le");
        decoder.decode(le("\ud83d"), { stream: true });
        const call = () => decoder.decode(le("\ude00"));
        assert.throws(() => replaced(...prototypes[at], fails, call), RangeError);
        assert.equal(call(), "\u{1f600}");
    });
});

test("an input that needs more memory than the module has", async () => {
    const units = new Uint16Array(500_000).fill(0x4e00);
    const { output, status } = (await loadFresh()).toUtf8(units);
    assert.equal(status, "done");
    assert.ok(new TextDecoder().decode(output) === "\u4e00".repeat(units.length));
    const utf32 = (await loadFresh()).toUtf32(units).output;
    assert.ok(utf32.length === units.length && utf32.every((it) => it === 0x4e00));
    const back = (await loadFresh()).fromUtf32(utf32).output;
    assert.ok(back.length === units.length && back.every((it) => it === 0x4e00));
});

test("a module from a server", async () => {
    const server = createServer(({ url }, answer) => {
        answer.writeHead(url === "/dethrux.wasm" ? 200 : 404).end(BYTES_OF_MODULE);
    });
    await new Promise((resolve) => server.listen(0, "127.0.0.1", resolve));
    const at = (path) => new URL(`http://127.0.0.1:${server.address().port}/${path}`);
    try {
        assert.equal((await load(at("dethrux.wasm"))).version(), dethrux.version());
        await assert.rejects(load(at("other.wasm")), /cannot be read: 404/);
    } finally {
        server.closeAllConnections();
        server.close();
    }
});

test("a relative URL, and an engine without getBuiltinModule", async () => {
    const url = new URL(import.meta.resolve("dethrux/dethrux.wasm"));
    await assert.rejects(load("dethrux.wasm"), /Invalid URL/);
    // What pages and workers have.
    for (const [name, page] of [["document", { baseURI: url.href }], ["location", { href: url.href }]]) {
        globalThis[name] = page;
        try {
            assert.equal((await load("./dethrux.wasm")).version(), dethrux.version());
        } finally {
            delete globalThis[name];
        }
    }
    const { getBuiltinModule } = process;
    process.getBuiltinModule = undefined;
    try {
        await assert.rejects(load(), /dethrux: this needs Node 20\.16/);
    } finally {
        process.getBuiltinModule = getBuiltinModule;
    }
});

test("a module as bytes, compiled, and at a URL", async () => {
    const url = new URL(import.meta.resolve("dethrux/dethrux.wasm"));
    const letters = Array.from(BYTES_OF_MODULE, (it) => String.fromCharCode(it)).join("");
    const data = new URL(`data:application/wasm;base64,${btoa(letters)}`);
    for (const source of [url, data, url.href, data.href, BYTES_OF_MODULE, MODULE]) {
        assert.equal((await load(source)).version(), dethrux.version());
    }
    assert.ok(isSupported());
    if (!isNode) {
        const relative = "../node_modules/dethrux/dethrux.wasm";
        assert.equal((await load(relative)).version(), dethrux.version());
    }
    await assert.rejects(load(Uint8Array.of(...HEAD)), /module has another version/);
    const ofVersion1 = [
        ...[...HEAD, 1, 5, 1, 0x60, 0, 1, 0x7f, 3, 2, 1, 0, 7, 19, 1, 15],
        ...[...utf8("dethrux_version"), 0, 0, 10, 6, 1, 4, 0, 0x41, 1, 0x0b],
    ];
    await assert.rejects(load(Uint8Array.from(ofVersion1)), /module has another version/);
    const missing = new URL("/no/such/file", import.meta.url);
    await assert.rejects(load(missing), isNode ? /ENOENT/ : /cannot be read: 404/);
    await assert.rejects(load(Uint8Array.of(1, 2, 3)), WebAssembly.CompileError);
});

const BYTES = { le, be };
const OPTIONS = [false, true].flatMap((fatal) => [false, true].map((ignoreBOM) => ({ fatal, ignoreBOM })));

// Letters, a BOM in either byte order, and the first and the last surrogates of both kinds.
const MARKS = ["", "a", "\u00ff", "\ufeff", "\ufffe", "\ud7ff", "\ud800", "\udbff", "\udc00", "\udfff", "\ue000"];
const PAIRS = MARKS.flatMap((first) => MARKS.map((second) => first + second));
const TEXTS = PAIRS.flatMap((pair) => MARKS.map((third) => pair + third));

/** What a call returns, or that it throws. Most of the time would be for the stacks of the errors. */
function outcome(call) {
    const { stackTraceLimit } = Error;
    Error.stackTraceLimit = 0;
    try {
        return call();
    } catch (error) {
        assert.ok(error instanceof TypeError, error);
        return "throws";
    } finally {
        Error.stackTraceLimit = stackTraceLimit;
    }
}

/** Fails if two strings differ. The words of the error are only made if they do. */
function equal(found, wanted, ...about) {
    if (found !== wanted) {
        assert.equal(found, wanted, about.map((it) => JSON.stringify(it)).join(" "));
    }
}

/** Each text in a byte order, also with an odd byte that begins another character or none. */
function* inputs(order) {
    for (const text of TEXTS) {
        for (const odd of [[], [0x61], [0xd8], [0xdc]]) {
            yield Uint8Array.of(...BYTES[order](text), ...odd);
        }
    }
}

test("decode gives what TextDecoder gives", () => {
    for (const order of ["le", "be"]) {
        for (const options of OPTIONS) {
            const platform = new TextDecoder(`utf-16${order}`, options);
            for (const bytes of inputs(order)) {
                const wanted = outcome(() => platform.decode(bytes));
                for (const library of LIBRARIES) {
                    const found = outcome(() => library.decode(bytes, order, options));
                    equal(found, wanted, order, options, bytes);
                }
            }
        }
    }
});

test("decode on code units is decode on their bytes", () => {
    for (const text of TEXTS) {
        for (const options of OPTIONS) {
            const found = outcome(() => dethrux.decode(unitsOf(text), options));
            assert.equal(found, outcome(() => dethrux.decode(le(text), "le", options)));
        }
    }
});

/** The string of a stream that is cut at these places. */
function streamed(decoder, bytes, places) {
    let [text, start] = ["", 0];
    for (const place of places) {
        text += decoder.decode(bytes.subarray(start, place), { stream: true });
        start = place;
    }
    return text + decoder.decode(bytes.subarray(start));
}

test("a stream that is cut anywhere gives what TextDecoder gives for the whole", () => {
    for (const order of ["le", "be"]) {
        for (const options of OPTIONS) {
            const platform = new TextDecoder(`utf-16${order}`, options);
            for (const bytes of inputs(order)) {
                const places = Array.from(bytes, (_, at) => at);
                const wanted = outcome(() => platform.decode(bytes));
                for (const cuts of [places, ...places.map((it) => [it])]) {
                    const decoder = dethrux.textDecoder(order, options);
                    const found = outcome(() => streamed(decoder, bytes, cuts));
                    equal(found, wanted, order, options, bytes, cuts);
                }
            }
        }
    }
});

test("a decoder to strings has the properties of TextDecoder, and begins a new stream", () => {
    const decoder = dethrux.textDecoder("be", { fatal: 1 });
    assert.deepEqual([decoder.encoding, decoder.fatal, decoder.ignoreBOM], ["utf-16be", true, false]);
    assert.equal(dethrux.textDecoder("le", { ignoreBOM: true }).ignoreBOM, true);
    for (let round = 0; round < 2; round += 1) {
        assert.equal(decoder.decode(be("\ufeffa\ud83d"), { stream: true }), "a");
        assert.equal(decoder.decode(be("\ude00\ufeff")), "\u{1f600}\ufeff");
        assert.equal(decoder.decode(), "");
    }
    const units = dethrux.textDecoder();
    assert.equal(units.decode(Uint16Array.of(0xd83d), { stream: true }), "");
    assert.equal(units.decode(Uint16Array.of(0xde00)), "\u{1f600}");
    assert.equal(units.decode(Uint16Array.of(0xd83d), { stream: true }) + units.decode(), "\ufffd");
    assert.equal(units.decode(Uint16Array.of(0x61, 0xd83d)) + units.decode(Uint16Array.of(0xde00)), "a\ufffd\ufffd");
});

test("a fatal error says where it is, in elements", () => {
    const fatal = true;
    for (const order of ["le", "be"]) {
        const bytes = BYTES[order];
        isIllFormed(() => dethrux.decode(bytes("\udc00a"), order, { fatal }), 0, 2);
        isIllFormed(() => dethrux.decode(bytes("\ufeffa\ud800b"), order, { fatal }), 4, 2);
        isIllFormed(() => dethrux.decode(bytes("ab\ud800"), order, { fatal }), 4, 2);
        isIllFormed(() => dethrux.decode(Uint8Array.of(...bytes("a\ud800"), 0), order, { fatal }), 2, 3);
        isIllFormed(() => dethrux.decode(bytes("a").subarray(0, 1), order, { fatal }), 0, 1);
        isIllFormed(() => dethrux.encode("\u00e9\udc00", order, { fatal }), 1, 1);
    }
    isIllFormed(() => dethrux.decode(unitsOf("ab\udc00"), { fatal }), 2, 1);
    isIllFormed(() => dethrux.decode(unitsOf("ab\ud800"), { fatal }), 2, 1);
    isIllFormed(() => dethrux.encode("ab\ud800", undefined, { fatal }), 2, 1);
    isIllFormed(() => dethrux.encodeInto("\ud800a", new Uint16Array(2), { fatal }), 0, 1);
});

test("an error in a stream of strings has its offset in the stream, and changes nothing", () => {
    const decoder = dethrux.textDecoder("le", { fatal: true });
    assert.equal(decoder.decode(le("ab\ud83d"), { stream: true }), "ab");
    isIllFormed(() => decoder.decode(le("a"), { stream: true }), 4, 2);
    isIllFormed(() => decoder.decode(), 4, 2);
    isIllFormed(() => decoder.decode(Uint8Array.of(0)), 4, 3);
    assert.equal(decoder.decode(le("\ude00")), "\u{1f600}");
    isIllFormed(() => decoder.decode(le("\ude00")), 0, 2);
});

test("encode gives what Buffer gives for a well-formed string", () => {
    for (const text of TEXTS) {
        const wanted = text.toWellFormed();
        for (const library of LIBRARIES) {
            const raw = () => (isNode ? Buffer.from(wanted, "utf16le") : le(wanted));
            const swapped = isNode ? raw().swap16() : be(wanted);
            assert.deepEqual(library.encode(text, "le"), new Uint8Array(raw()));
            assert.deepEqual(library.encode(text, "be"), new Uint8Array(swapped));
            assert.deepEqual(library.encode(text), unitsOf(wanted));
            const isWhole = outcome(() => library.encode(text, "be", { fatal: true })) !== "throws";
            assert.equal(isWhole, text.isWellFormed());
        }
    }
});

test("encodeInto writes the characters that fit", () => {
    for (const text of ["a\u{1f600}\ud800", "\u{1f600}b", "\ud800\ud83d\ude00", ""]) {
        const wanted = text.toWellFormed();
        for (let room = 0; room < 12; room += 1) {
            const [bytes, units] = [new Uint8Array(room).fill(9), new Uint16Array(room).fill(9)];
            const fitting = (most) => {
                const cut = wanted.slice(0, most);
                return cut.isWellFormed() ? cut : cut.slice(0, -1);
            };
            const [inBytes, inUnits] = [fitting(room >> 1), fitting(room)];
            assert.deepEqual(dethrux.encodeInto(text, bytes, "be"), { read: inBytes.length, written: inBytes.length * 2 });
            assert.deepEqual(bytes.subarray(0, inBytes.length * 2), be(inBytes));
            assert.ok(bytes.subarray(inBytes.length * 2).every((it) => it === 9));
            assert.deepEqual(dethrux.encodeInto(text, units), { read: inUnits.length, written: inUnits.length });
            assert.deepEqual(units.subarray(0, inUnits.length), unitsOf(inUnits));
            assert.ok(units.subarray(inUnits.length).every((it) => it === 9));
        }
    }
});

test("a long string, for which the memory grows", async () => {
    const text = "\u4e00\u{1f600}".repeat(400_000);
    for (const [order, run] of [["le", (it) => it()], ["be", (it) => it()], ["be", withoutBuffer]]) {
        const bytes = await run(async () => (await loadFresh()).encode(text, order));
        assert.ok(isSame(bytes, BYTES[order](text)));
        assert.ok((await run(async () => (await loadFresh()).decode(bytes, order))) === text);
    }
});
