// SPDX-License-Identifier: MIT OR Apache-2.0

const PAGE = 65536;
// The largest result, dethrux_inspection, has 32 bytes.
const RESULT_LEN = 32;
const STATUSES = ["done", "ill-formed", "incomplete", "no-space", "not-latin1"];
const REPERTOIRES = ["ascii", "latin1", "bmp", "unicode"];
const BOMS = ["absent", "present", "undecided"];
export const ORDERS = ["le", "be"];
// Makes the strings of well-formed code units where there is no Buffer, which is faster.
const UTF16LE = new TextDecoder("utf-16le", { ignoreBOM: true });

// The memory is below 4 GiB, so the low half of a length is all of it.
const word = (view, at) => view.getUint32(at, true);
const status = (view, at) => STATUSES[word(view, at)];

// How the structs that calls return are read, in the header's layout.
const STRUCTS = {
    progress: (view) => ({
        read: word(view, 0),
        written: word(view, 8),
        status: status(view, 16),
        errorLen: word(view, 20),
    }),
    validity: (view) => ({
        validUpTo: word(view, 0),
        status: status(view, 8),
        errorLen: word(view, 12),
    }),
    inspection: (view) => ({
        validUpTo: word(view, 0),
        chars: word(view, 8),
        repertoire: REPERTOIRES[word(view, 16)],
        status: status(view, 20),
        errorLen: word(view, 24),
    }),
    bom: (view) => ({
        len: word(view, 0),
        order: ORDERS[word(view, 8)],
        status: BOMS[word(view, 12)],
    }),
};
// What a call returns in a register.
const PLAIN = {
    nothing: () => undefined,
    number: (it) => it,
    truth: (it) => Boolean(it),
    // DETHRUX_NOT_FOUND is SIZE_MAX, and becomes -1, since the engine gives a signed number.
    size: Number,
    offset: (it) => BigInt.asUintN(64, it),
};

/** Bytes that a call reads and may change. Their length counts elements of the array. */
export const input = (array) => ({ bytes: bytesOf(array), len: array.length });
/** Room for what a call writes: this many elements of this many bytes. */
export const room = (len, width = 1) => ({ byteLength: len * width, len });
/** A struct that a call reads and changes. It is passed without a length. */
export const state = (bytes) => ({ bytes });

/** Returns the bytes of an array, without a copy. */
export function bytesOf(array) {
    return array instanceof Uint8Array
        ? array
        : new Uint8Array(array.buffer, array.byteOffset, array.byteLength);
}

/**
 * The module and its memory. Arguments and results lie above the module's own data, from the
 * address `__heap_base` on, and only during a call.
 */
export class Machine {
    #calls = {};
    #memory;
    #base;
    // The place of the UTF-16 that becomes a string, or of the string's UTF-16.
    #text;
    // The memory as bytes, as a Buffer if there are any, and where a struct is returned.
    #bytes;
    #buffer;
    #struct;

    constructor(exports) {
        for (const name of Object.keys(exports)) {
            this.#calls[name.replace("dethrux_", "")] = exports[name];
        }
        this.#memory = exports.memory;
        this.#base = aligned(Number(exports.__heap_base.value));
        this.#text = this.#base + RESULT_LEN;
        this.#look();
    }

    has(name) {
        return name in this.#calls;
    }

    /**
     * Makes a call. A part is a number of 32 bits, a bigint of 64 bits, or a place in the memory:
     * an input, a room or a state.
     */
    call(name, kind, parts) {
        const places = placesOf(parts, this.#base + RESULT_LEN);
        this.#reach(places[parts.length]);
        const read = STRUCTS[kind];
        const words = read ? [BigInt(this.#base)] : [];
        for (let at = 0; at < parts.length; at += 1) {
            this.#pass(parts[at], places[at], words);
        }
        const returned = this.#calls[name](...words);
        const result = read ? read(this.#struct) : PLAIN[kind](returned);
        return new Made(result, places, this.#bytes);
    }

    /** Puts UTF-16 where texts are: bytes, or a string in little endian. Returns its length. */
    putText(source) {
        const len = typeof source === "string" ? source.length * 2 : source.length;
        this.#reach(this.#text + len);
        if (typeof source !== "string") {
            this.#bytes.set(source, this.#text);
        } else if (this.#buffer) {
            this.#buffer.write(source, this.#text, "utf16le");
        } else {
            this.#writeUnits(source);
        }
        return len;
    }

    /**
     * Makes the text well formed, and swaps its bytes if the byte orders differ. If errors are
     * fatal, it returns the place and the length of the first one instead.
     */
    repairText(len, from, to, isFatal) {
        const [at, size] = [BigInt(this.#text), BigInt(len)];
        if (isFatal) {
            this.#calls.validate(BigInt(this.#base), from, at, size);
            const { validUpTo, status, errorLen } = STRUCTS.validity(this.#struct);
            if (status !== "done") {
                return { at: validUpTo, length: errorLen || len - validUpTo };
            }
        } else {
            this.#calls.make_well_formed(from, at, size);
        }
        if (from !== to) {
            this.#calls.swap_byte_order(at, size);
        }
        return undefined;
    }

    /** Returns the bytes of the text, which the next call changes. */
    textBytes(len) {
        return this.#bytes.subarray(this.#text, this.#text + len);
    }

    /** Returns the string of the text, which is well formed and in little endian. */
    textString(len) {
        try {
            return this.#buffer
                ? this.#buffer.toString("utf16le", this.#text, this.#text + len)
                : UTF16LE.decode(this.textBytes(len));
        } catch (error) {
            throw new RangeError(`dethrux: no string of ${len / 2} code units`, { cause: error });
        }
    }

    /** Makes the memory as long as this. */
    #reach(end) {
        const missing = end - this.#bytes.length;
        if (missing <= 0) {
            return;
        }
        try {
            this.#memory.grow(Math.ceil(missing / PAGE));
        } catch (error) {
            throw new RangeError(`dethrux: no memory for ${end} bytes`, { cause: error });
        }
        this.#look();
    }

    /** Sets the views of the memory, which has a new buffer after it has grown. */
    #look() {
        const { buffer } = this.#memory;
        this.#bytes = new Uint8Array(buffer);
        this.#buffer = globalThis.Buffer?.from(buffer);
        this.#struct = new DataView(buffer, this.#base, RESULT_LEN);
    }

    /** Copies a part to its address, and adds its arguments: itself, or the address and length. */
    #pass(part, at, words) {
        if (typeof part !== "object") {
            words.push(part);
            return;
        }
        if (part.bytes) {
            this.#bytes.set(part.bytes, at);
        }
        words.push(BigInt(at));
        if (part.len !== undefined) {
            words.push(BigInt(part.len));
        }
    }

    #writeUnits(text) {
        const view = new DataView(this.#memory.buffer, this.#text);
        for (let at = 0; at < text.length; at += 1) {
            view.setUint16(at * 2, text.charCodeAt(at), true);
        }
    }
}

/** What a call made: its result, and the first bytes of each part. */
class Made {
    #places;
    #bytes;

    constructor(result, places, bytes) {
        this.result = result;
        this.#places = places;
        this.#bytes = bytes;
    }

    /** Returns a copy of the bytes. */
    bytes(at, len) {
        return this.#bytes.slice(this.#places[at], this.#places[at] + len);
    }

    /** Returns the bytes, which the next call changes. */
    view(at, len) {
        return this.#bytes.subarray(this.#places[at], this.#places[at] + len);
    }
}

const aligned = (address) => Math.ceil(address / 8) * 8;
const sizeOf = ({ bytes, byteLength = bytes?.byteLength ?? 0 }) => byteLength;

/** Returns an address for each part, one after another from this one on, and last their end. */
function placesOf(parts, start) {
    const places = [start];
    let end = start;
    for (const part of parts) {
        end = aligned(end + sizeOf(part));
        places.push(end);
    }
    return places;
}
