// SPDX-License-Identifier: MIT OR Apache-2.0

import { bytesOf, input, ORDERS, room } from "./machine.js";

// Typed arrays are in the byte order of the machine, and so is the memory of the module.
const NATIVE = new Uint8Array(Uint16Array.of(1).buffer)[0] === 1 ? 0 : 1;

/** Whether a value is an array of this kind, also one of another window. */
export function isArray(value, kind) {
    return ArrayBuffer.isView(value) && value[Symbol.toStringTag] === kind;
}

function shown(value) {
    return typeof value === "object" && value !== null
        ? (value[Symbol.toStringTag] ?? "another object")
        : typeof value === "string"
          ? JSON.stringify(value)
          : String(value);
}

/** Takes an array of one kind from the front of the arguments. */
export function takeArray(words, kind) {
    const array = words.shift();
    if (!isArray(array, kind)) {
        throw new TypeError(`dethrux: give a ${kind}, not ${shown(array)}`);
    }
    return array;
}

/** Takes a byte order from the front of the arguments. */
export function takeOrder(words) {
    const order = ORDERS.indexOf(words[0]);
    if (order < 0) {
        throw new TypeError(`dethrux: the byte order is "le" or "be", not ${shown(words[0])}`);
    }
    words.shift();
    return order;
}

/** Takes UTF-16 from the front of the arguments: a byte order follows bytes, but not code units. */
export function takeUtf16(words) {
    const array = words.shift();
    if (isArray(array, "Uint16Array")) {
        return { part: input(bytesOf(array)), order: NATIVE, width: 2 };
    }
    if (isArray(array, "Uint8Array")) {
        return { part: input(array), order: takeOrder(words), width: 1 };
    }
    throw new TypeError(`dethrux: give a Uint8Array or a Uint16Array, not ${shown(array)}`);
}

/** Takes UTF-16 of which the byte order does not matter, as bytes. */
function takeAnyOrder(words) {
    return isArray(words[0], "Uint16Array")
        ? { array: bytesOf(words.shift()), width: 2 }
        : { array: takeArray(words, "Uint8Array"), width: 1 };
}

/** Takes what UTF-16 is written as: bytes in a byte order, or without one code units. */
export function takeForm(words) {
    if (words[0] === undefined) {
        words.shift();
        return { order: NATIVE, width: 2 };
    }
    return { order: takeOrder(words), width: 1 };
}

/** Takes a string from the front of the arguments. */
export function takeText(words) {
    const text = words.shift();
    if (typeof text !== "string") {
        throw new TypeError(`dethrux: give a string, not ${shown(text)}`);
    }
    return text;
}

/** Takes a number of elements from the front of the arguments. */
function takeCount(words, otherwise) {
    const count = words.shift() ?? otherwise;
    if (typeof count !== "number") {
        throw new TypeError(`dethrux: give a number, not ${shown(count)}`);
    }
    if (!Number.isSafeInteger(count) || count < 0) {
        throw new RangeError(`dethrux: give a whole number from 0 on, not ${count}`);
    }
    return count;
}

/** Takes an offset of a file, a number or a bigint below 2 to the power of 64, as a bigint. */
function takeOffset(words) {
    if (typeof words[0] !== "bigint") {
        return BigInt(takeCount(words));
    }
    const offset = words.shift();
    if (BigInt.asUintN(64, offset) !== offset) {
        throw new RangeError(`dethrux: give an offset below 2 ** 64, not ${offset}`);
    }
    return offset;
}

/** Takes a capacity. More than what suffices for every input has no effect. */
function takeCapacity(words, enough) {
    return Math.min(takeCount(words, enough), enough);
}

/** Fails if there are more arguments. */
export function end(words) {
    const extra = words.find((it) => it !== undefined);
    if (extra !== undefined) {
        throw new TypeError(`dethrux: there is an argument too many: ${shown(extra)}`);
    }
}

/** Takes the options, which are the last argument. */
export function takeOptions(words) {
    const options = words.shift() ?? {};
    if (typeof options !== "object") {
        throw new TypeError(`dethrux: give an object of options, not ${shown(options)}`);
    }
    end(words);
    return options;
}

/** Returns UTF-16 as bytes, or as code units. */
export const inWidth = (bytes, width) => (width === 2 ? new Uint16Array(bytes.buffer) : bytes);

/** Divides the lengths of UTF-16 among these fields by the width of an element. */
function counted(result, width, ...names) {
    for (const name of names.filter((it) => it in result)) {
        result[name] /= width;
    }
    return result;
}

/** From UTF-16 to an array of a kind, new or the caller's, with the capacity that suffices. */
function fromUtf16(call, words, isInto, enough, Kind = Uint8Array) {
    const utf16 = takeUtf16(words);
    const most = enough(utf16.part.len);
    const to = isInto && takeArray(words, Kind.name);
    const capacity = to ? Math.min(to.length, most) : takeCapacity(words, most);
    end(words);
    const width = Kind.BYTES_PER_ELEMENT;
    const made = call([utf16.order, utf16.part, room(capacity, width)]);
    counted(made.result, utf16.width, "read", "errorLen");
    const { read, written, status, errorLen } = made.result;
    if (to) {
        bytesOf(to).set(made.view(2, written * width));
        return { read, written, status, errorLen };
    }
    const output = made.bytes(2, written * width);
    return { output: width === 1 ? output : new Kind(output.buffer), read, status, errorLen };
}

/** To UTF-16, new or the caller's, from an array whose elements give at most `most` bytes each. */
function toUtf16(call, words, isInto, kind, most) {
    const array = takeArray(words, kind);
    const { part: to, order, width } = isInto ? takeUtf16(words) : takeForm(words);
    const enough = array.length * most;
    const capacity = to ? Math.min(to.len, enough) : takeCapacity(words, enough / width) * width;
    end(words);
    const made = call([order, input(array), room(capacity)]);
    const { read, written, status, errorLen } = made.result;
    if (to) {
        to.bytes.set(made.view(2, written));
        return { read, written: written / width, status, errorLen };
    }
    return { output: inWidth(made.bytes(2, written), width), read, status, errorLen };
}

/** What is asked of an array that is not UTF-16. */
function asked(call, words, kind) {
    const array = takeArray(words, kind);
    end(words);
    return call([input(array)]).result;
}

/** How long UTF-16 for an array is: in bytes with a byte order, else in code units. */
function measured(call, words, kind) {
    const array = takeArray(words, kind);
    const { width } = takeForm(words);
    end(words);
    return call([input(array)]).result / width;
}

// How the arguments of a function become the call's. Each takes the call, the arguments, and if it
// is a conversion whether the output goes into an array of the caller.
export const SHAPES = {
    nothing(call, words) {
        end(words);
        return call([]).result;
    },
    utf16(call, words) {
        const { part, order, width } = takeUtf16(words);
        end(words);
        const { result } = call([order, part]);
        return typeof result === "object" ? counted(result, width, "validUpTo", "errorLen") : result;
    },
    utf16At(call, words) {
        const { part, order, width } = takeUtf16(words);
        const at = takeCount(words);
        end(words);
        const { result } = call([order, part, BigInt(at * width)]);
        return typeof result === "number" ? result / width : result;
    },
    utf16Pair(call, words) {
        const first = takeUtf16(words);
        const second = takeUtf16(words);
        end(words);
        return call([first.order, first.part, second.order, second.part]).result;
    },
    utf16Search(call, words) {
        const { part, order, width } = takeUtf16(words);
        const pattern = takeArray(words, width === 2 ? "Uint16Array" : "Uint8Array");
        end(words);
        const { result } = call([order, part, input(bytesOf(pattern))]);
        return result < 0 ? result : result / width;
    },
    utf16ToUtf8(call, words, isInto) {
        return fromUtf16(call, words, isInto, (len) => Math.ceil(len / 2) * 3);
    },
    utf16ToLatin1(call, words, isInto) {
        return fromUtf16(call, words, isInto, (len) => Math.floor(len / 2));
    },
    utf16ToUtf32(call, words, isInto) {
        return fromUtf16(call, words, isInto, (len) => Math.ceil(len / 2), Uint32Array);
    },
    bytes(call, words) {
        return asked(call, words, "Uint8Array");
    },
    bytesToUtf16(call, words, isInto) {
        return toUtf16(call, words, isInto, "Uint8Array", 2);
    },
    utf32ToUtf16(call, words, isInto) {
        return toUtf16(call, words, isInto, "Uint32Array", 4);
    },
    utf32(call, words) {
        return asked(call, words, "Uint32Array");
    },
    bytesForUtf16(call, words) {
        return measured(call, words, "Uint8Array");
    },
    utf32ForUtf16(call, words) {
        return measured(call, words, "Uint32Array");
    },
    around(call, words) {
        const around = takeArray(words, "Uint8Array");
        const order = takeOrder(words);
        const isBig = typeof words[0] === "bigint";
        const at = takeOffset(words);
        end(words);
        const { result } = call([order, input(around), at]);
        return isBig ? result : Number(result);
    },
    offsets(call, words) {
        const isBig = typeof words[0] === "bigint";
        const offsets = [takeOffset(words), takeOffset(words), takeOffset(words)];
        end(words);
        const { result } = call(offsets);
        return isBig ? result : Number(result);
    },
    swapped(call, words) {
        const { array } = takeAnyOrder(words);
        end(words);
        array.set(call([input(array)]).view(0, array.length));
    },
    inAnyOrder(call, words) {
        const { array, width } = takeAnyOrder(words);
        end(words);
        return call([input(array)]).result / width;
    },
    repaired(call, words) {
        const array = words[0];
        const { part, order } = takeUtf16(words);
        end(words);
        const made = call([order, part]);
        bytesOf(array).set(made.view(1, part.len));
        return made.result;
    },
    start(call, words) {
        const array = takeArray(words, "Uint8Array");
        const order = words[0] === undefined ? ORDERS.indexOf("be") : takeOrder(words);
        end(words);
        // Only the first two bytes decide, and the stream may be long.
        return call([order, input(array.subarray(0, 2))]).result;
    },
};
