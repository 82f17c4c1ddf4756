// Reads a file in slices, in a worker: guesses its byte order, finds its errors, and makes the file
// in UTF-8 and in repaired UTF-16. The binding comes before this text.

const SLICE = 4 << 20;
// How many bytes the guess of the byte order looks at.
const SAMPLE = 1 << 18;
// The most errors whose offsets are kept. All are counted.
const MOST_KEPT = 1_000_000;

// Costs of a code unit: 0 is what a text most often has. Random bytes cost about 6 in UTF-16.
const FROM = [
    [0x0000, 12],
    [0x0020, 0],
    [0x007f, 12],
    [0x00a0, 2],
    [0x1000, 5],
    [0x1e00, 2],
    [0x2c00, 5],
    [0x3000, 2],
    [0x3100, 5],
    [0x4e00, 4],
    [0xa000, 5],
    [0xac00, 4],
    [0xd800, 2],
    [0xe000, 16],
    [0xf900, 5],
    [0xff00, 2],
    [0xfff0, 16],
];
const IMPLAUSIBLE = 12;
// The cost of a byte that is left out because what follows is shifted, and of an odd byte at the
// end. A shift must make more than this better: about eight ASCII characters or 30 of Chinese.
const SHIFTED = 60;
const ODD = 10;

const COSTS = new Uint8Array(0x10000);
FROM.forEach(([first, cost]) => COSTS.fill(cost, first));
[0x09, 0x0a, 0x0d].forEach((it) => (COSTS[it] = 0));
COSTS[0xfffd] = 2;
// A code unit that ends with a zero byte is more often an ASCII character that is misread.
for (let unit = 0x100; unit < 0xd800; unit += 0x100) {
    COSTS[unit] += unit === 0x3000 ? 0 : 4;
}

/** What a code unit after another one costs: a change of the script is a bit less likely. */
function costOf(unit, before) {
    const isAfterLeading = (before & 0xfc00) === 0xd800;
    if (isAfterLeading !== ((unit & 0xfc00) === 0xdc00)) {
        return IMPLAUSIBLE;
    }
    return COSTS[unit] + (unit >> 8 === before >> 8 ? 0 : 1);
}

/**
 * Finds the cheapest reading of bytes in a byte order, and which bytes it leaves out. For each
 * length it keeps the least cost, which is that of two bytes less with a code unit, or that of one
 * byte less with a byte that is left out. Takes linear time.
 */
class Reading {
    #isLittle;
    #count = 0;
    // The last byte, and the code units that end with it and one byte before.
    #state = [0, 0, 0];
    // The least costs of the last two lengths, at first 0 and -1, with the bytes that are left out.
    #costs = [0, SHIFTED * 2];
    #left = [null, null];

    constructor(order) {
        this.#isLittle = order === "le";
    }

    add(bytes) {
        let [last, unit1, unit2] = this.#state;
        let [cost1, cost2] = this.#costs;
        let [left1, left2] = this.#left;
        for (let at = 0; at < bytes.length; at += 1) {
            const byte = bytes[at];
            const unit = this.#isLittle ? last | (byte << 8) : (last << 8) | byte;
            const cost = cost2 + costOf(unit, unit2);
            const isShift = cost1 + SHIFTED < cost;
            const left = isShift ? { at: this.#count + at, before: left1 } : left2;
            left2 = left1;
            left1 = left;
            cost2 = cost1;
            cost1 = isShift ? cost1 + SHIFTED : cost;
            unit2 = unit1;
            unit1 = unit;
            last = byte;
        }
        this.#count += bytes.length;
        this.#state = [last, unit1, unit2];
        this.#costs = [cost1, cost2];
        this.#left = [left1, left2];
    }

    /** Returns the cost of all, and the offsets that are left out, in their order. */
    end() {
        const isOdd = this.#costs[1] + ODD < this.#costs[0];
        const shifts = [];
        for (let it = this.#left[isOdd ? 1 : 0]; it; it = it.before) {
            shifts.push(it.at);
        }
        return { cost: isOdd ? this.#costs[1] + ODD : this.#costs[0], shifts: shifts.reverse() };
    }
}

function costIn(order, sample) {
    if (order !== "utf8") {
        const reading = new Reading(order);
        reading.add(sample);
        return reading.end().cost;
    }
    let cost = 0;
    for (const char of new TextDecoder().decode(sample)) {
        cost += char === "\ufffd" ? IMPLAUSIBLE : COSTS[Math.min(char.codePointAt(0), 0x4e00)];
    }
    return cost;
}

const readBytes = async (file, at, end) => new Uint8Array(await file.slice(at, end).arrayBuffer());

/** Returns the order that a BOM says and its length, or nothing. */
function bomOf(library, sample) {
    if (sample[0] === 0xef && sample[1] === 0xbb && sample[2] === 0xbf) {
        return { order: "utf8", len: 3 };
    }
    const { order, len, status } = library.detectBom(sample);
    return status === "present" ? { order, len } : undefined;
}

/** Decides how a file is read: as was wanted, else by its BOM, else by a guess. */
async function orderOf(library, file, wanted) {
    const sample = await readBytes(file, 0, SAMPLE);
    const bom = bomOf(library, sample);
    const rest = sample.subarray(bom?.len ?? 0);
    const costs = ["le", "be", "utf8"].map((order) => ({ order, cost: costIn(order, rest) }));
    const [best] = costs.sort((one, other) => one.cost - other.cost);
    const order = wanted ?? bom?.order ?? best.order;
    const own = costs.find((it) => it.order === order);
    const isSure = costs[1].cost > best.cost + SHIFTED;
    const why = wanted ? "wanted" : bom ? "bom" : isSure ? "guess" : "unsure";
    // A BOM of UTF-16 is a BOM in both byte orders, and the wrong one is an error.
    const isBom = bom && (bom.order === order || (bom.order !== "utf8" && order !== "utf8"));
    const better = own.cost > best.cost + SHIFTED ? best.order : undefined;
    const isWrongBom = isBom && bom.order !== order;
    return { order, why, better, from: isBom ? bom.len : 0, isWrongBom };
}

/** Returns the offsets of bytes after which the text is shifted by one byte. */
async function shiftsOf(file, { order, from }, tell) {
    const reading = new Reading(order);
    for (let at = from; at < file.size; at += SLICE) {
        reading.add(await readBytes(file, at, at + SLICE));
        tell(at / file.size / 2);
    }
    return reading.end().shifts.map((it) => from + it);
}

/** Returns arrays as one. */
function together(first, second) {
    const all = new Uint8Array(first.length + second.length);
    all.set(first);
    all.set(second, first.length);
    return all;
}

/** Returns where code units were replaced. */
function differences(bytes, repaired) {
    const units = (array) => new Uint16Array(array.buffer, 0, array.length / 2);
    const [before, after] = [units(bytes), units(repaired)];
    const found = [];
    before.forEach((unit, at) => unit !== after[at] && found.push(at * 2));
    return found;
}

/** Returns where UTF-8 is ill formed. Each call copies its window: short ones keep time linear. */
function illFormed(library, bytes) {
    const found = [];
    let [at, len] = [0, 64];
    while (at < bytes.length) {
        const { read, status, errorLen } = library.fromUtf8(bytes.subarray(at, at + len));
        at += read;
        len = Math.min(len * 2, 1 << 16);
        if (status === "ill-formed") {
            found.push(at);
            at += errorLen;
            len = 64;
        }
    }
    return found;
}

/** Converts a stretch without a shift: `made` returns both forms of whole characters and errors. */
function coderOf(library, order) {
    if (order === "utf8") {
        const made = (utf16, bytes) => {
            const text = library.toUtf8(utf16, "le").output;
            return { text, utf16, wrong: illFormed(library, bytes) };
        };
        return { stream: library.encoder("le"), made };
    }
    const made = (text, bytes) => {
        const utf16 = bytes.slice();
        library.makeWellFormed(utf16, order);
        return { text, utf16, wrong: differences(bytes, utf16) };
    };
    return { stream: library.decoder(order), made };
}

/** The two outputs and the errors. */
class Result {
    constructor(order) {
        this.isLittle = order !== "be";
        // What is converted, in blobs, and after that in arrays and texts.
        this.blobs = { text: [], utf16: [] };
        this.parts = { text: [], utf16: [] };
        this.errors = [];
        this.count = 0;
    }

    add(text, utf16) {
        this.parts.text.push(text);
        this.parts.utf16.push(utf16);
    }

    /** Moves what was added from the memory of the worker to blobs. */
    flush() {
        for (const [name, parts] of Object.entries(this.parts)) {
            this.blobs[name].push(new Blob(parts.splice(0)));
        }
    }

    addBom() {
        this.add("", Uint8Array.of(...(this.isLittle ? [0xff, 0xfe] : [0xfe, 0xff])));
    }

    addError(at) {
        this.count += 1;
        if (this.count <= MOST_KEPT) {
            this.errors.push(at);
        }
    }

    /** Adds an error at an offset, and U+FFFD for it. */
    addReplacement(at) {
        this.addError(at);
        this.add("\ufffd", Uint8Array.of(...(this.isLittle ? [0xfd, 0xff] : [0xff, 0xfd])));
    }

    message() {
        this.flush();
        const blob = (name, type) => new Blob(this.blobs[name], { type });
        const text = blob("text", "text/plain;charset=utf-8");
        const utf16 = blob("utf16", "application/octet-stream");
        return { text, utf16, errors: Float64Array.from(this.errors), count: this.count };
    }
}

/** Converts a file after its BOM. A stretch without a shift may be a few bytes, and cost as few. */
async function convert(library, file, { order, from }, shifts, result, tell) {
    const { stream, made } = coderOf(library, order);
    const add = (part, at) => {
        const bytes = together(stream.pending, part);
        const base = at + part.length - bytes.length;
        const output = stream.feed(part);
        const whole = bytes.subarray(0, bytes.length - stream.pending.length);
        const { text, utf16, wrong } = made(output, whole);
        wrong.forEach((it) => result.addError(base + it));
        result.add(text, utf16);
    };
    const endAt = (at) => {
        const { length } = stream.pending;
        if (length) {
            result.addReplacement(at - length);
        }
        stream.finish();
    };
    let next = 0;
    for (let at = from; at < file.size; at += SLICE) {
        const slice = await readBytes(file, at, at + SLICE);
        let start = 0;
        for (; shifts[next] < at + slice.length; next += 1) {
            add(slice.subarray(start, shifts[next] - at), at + start);
            endAt(shifts[next]);
            result.addReplacement(shifts[next]);
            start = shifts[next] - at + 1;
        }
        add(slice.subarray(start), at + start);
        result.flush();
        tell(0.5 + at / file.size / 2);
    }
    endAt(file.size);
}

async function check({ module, file, wanted, isAligning }) {
    const tell = (progress) => postMessage({ progress });
    const library = await dethrux.instantiate(module);
    const how = await orderOf(library, file, wanted);
    const isShiftable = isAligning && how.order !== "utf8";
    const shifts = isShiftable ? await shiftsOf(file, how, tell) : [];
    const result = new Result(how.order);
    if (how.isWrongBom) {
        result.addError(0);
    }
    if (how.from || how.order === "utf8") {
        result.addBom();
    }
    await convert(library, file, how, shifts, result, tell);
    postMessage({ found: { ...how, shifts, ...result.message() } });
}

onmessage = ({ data }) =>
    check(data).catch((error) => postMessage({ trouble: String(error.message ?? error) }));
