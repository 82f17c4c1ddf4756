// Characters and ill-formed sequences, as the library finds them by resuming after each error.

/** Returns the scalar values of the well-formed prefix, how long each is, and what ends it. */
function prefixOf(bytes, order) {
    if (order !== "utf8") {
        const found = library.toUtf32(bytes, order);
        return { ...found, points: [...found.output], lenOf: (it) => (it > 0xffff ? 4 : 2) };
    }
    const found = library.fromUtf8(bytes);
    const points = [...dethrux.stringOf(found.output)].map((it) => it.codePointAt(0));
    const lenOf = (it) => 1 + (it > 0x7f) + (it > 0x7ff) + (it > 0xffff);
    return { ...found, points, lenOf };
}

/** Returns the characters and ill-formed sequences of bytes, with their offsets and lengths. */
function itemsOf(bytes, order) {
    const items = [];
    let at = 0;
    while (at < bytes.length) {
        const { points, lenOf, read, status, errorLen } = prefixOf(bytes.subarray(at), order);
        let start = at;
        for (const point of points) {
            const len = lenOf(point);
            const kind = order !== "utf8" && len === 4 ? "pair" : "char";
            items.push({ kind, at: start, len, point });
            start += len;
        }
        at += read;
        const len = status === "ill-formed" ? errorLen : bytes.length - at;
        if (len > 0) {
            items.push({ kind: status, at, len, why: reason(bytes, order, at, len, status) });
        }
        at += len;
    }
    return items;
}

const unitAt = (bytes, order, at) =>
    order === "le" ? bytes[at] | (bytes[at + 1] << 8) : (bytes[at] << 8) | bytes[at + 1];

/** Says why a sequence is ill formed. */
function reason(bytes, order, at, len, status) {
    if (order === "utf8") {
        return status === "incomplete"
            ? "the text ends inside a character."
            : "these bytes do not make a character of UTF-8.";
    }
    if (status === "incomplete") {
        return len === 1
            ? "the text ends after one byte of a code unit."
            : "the text ends after a leading surrogate; the trailing one is missing.";
    }
    const unit = unitAt(bytes, order, at);
    if (unit >= 0xdc00) {
        return `${hex(unit, 4)} is a trailing surrogate, and there is no leading one before it.`;
    }
    const next = hex(unitAt(bytes, order, at + len), 4);
    return `${hex(unit, 4)} is a leading surrogate, and ${next} after it is not a trailing one.`;
}

const SHIFT = "a byte was lost or added here, as what follows is shifted by one byte (a guess).";

/** Says what a character looks like, or its name if it has no shape. */
function glyph({ point }) {
    if (point === undefined) {
        return REPLACEMENT;
    }
    const isControl = point < 0x20 || (point >= 0x7f && point < 0xa0);
    const names = { 0x09: "tab", 0x0a: "line", 0x0d: "return", 0x20: "space", 0xfeff: "BOM" };
    return names[point] ?? (isControl ? "control" : String.fromCodePoint(point));
}

const nameOf = ({ kind, point }) => (point === undefined ? kind : `U+${hex(point, 4)}`);

/** Returns where the stretch of a file without a shift that has this offset begins and ends. */
function stretchAt({ shifts, from, file }, at) {
    const before = shifts.findLast((it) => it < at);
    const end = shifts.find((it) => it >= at) ?? file.size;
    return { start: before === undefined ? from : before + 1, end };
}

/** Returns an offset of a file at or before this one where no character is cut. */
async function boundaryAt(found, at) {
    const { file, order } = found;
    const { start, end } = stretchAt(found, at);
    if (at <= start || at >= end) {
        return Math.min(Math.max(at, start), end);
    }
    if (order === "utf8") {
        const near = await readBytes(file, Math.max(start, at - 3), at + 1);
        const back = [...near].reverse().findIndex((it) => (it & 0xc0) !== 0x80);
        return at - Math.max(back, 0);
    }
    const far = at - start;
    const first = start + Math.max(0, far - (far % 2) - 2);
    const around = await readBytes(file, first, Math.min(first + 4, end));
    return start + library.floorCharBoundaryAround(around, order, far);
}

/**
 * Returns the items of the first `len` bytes, whose ends cut no character. What follows them says
 * why the last item is ill formed.
 */
function itemsBetween(start, bytes, len) {
    const inside = report.shifts.filter((it) => it >= start && it < start + len);
    const items = [];
    let from = 0;
    const add = (end) => {
        const found = itemsOf(bytes.subarray(from, end), report.order);
        const base = from;
        items.push(...found.map((it) => ({ ...it, at: it.at + base })));
    };
    for (const at of inside.map((it) => it - start)) {
        add(at);
        items.push({ kind: "shift", at, len: 1, why: SHIFT });
        from = at + 1;
    }
    add(bytes.length);
    const isStream = inside.length === 0 && report.order !== "utf8";
    return { items: items.filter((it) => it.at < len), isStream };
}

/** Returns the error at an offset: its bytes, and why it is one. */
async function errorAt(at) {
    const { file, order, from, shifts } = report;
    if (at < from) {
        const why = "the BOM says the other byte order.";
        return { at, why, bytes: await readBytes(file, 0, from), isBom: true };
    }
    const end = shifts.includes(at) ? at + 1 : Math.min(at + 4, stretchAt(report, at).end);
    const bytes = await readBytes(file, at, end);
    const { len, why } = shifts.includes(at) ? { len: 1, why: SHIFT } : itemsOf(bytes, order)[0];
    return { at, why, bytes: bytes.subarray(0, len) };
}
