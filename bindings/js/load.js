// SPDX-License-Identifier: MIT OR Apache-2.0

import { CALLS } from "./calls.js";
import { Machine } from "./machine.js";
import {
    inWidth,
    SHAPES,
    takeArray,
    takeForm,
    takeOptions,
    takeText,
    takeUtf16,
} from "./shapes.js";
import { IllFormedError, LE, streams, Text } from "./streams.js";

// The version of the header that has these calls, as dethrux_version returns it.
const VERSION = 2000;
// A module of one function, which returns a vector of 128 bits, and nothing else.
const WITH_SIMD = Uint8Array.of(
    ...[0, 0x61, 0x73, 0x6d, 1, 0, 0, 0, 1, 5, 1, 0x60, 0, 1, 0x7b, 3, 2, 1, 0],
    ...[10, 8, 1, 6, 0, 0x41, 0, 0xfd, 15, 11],
);

/** Whether this engine can run the module. */
export function isSupported() {
    return typeof WebAssembly === "object" && WebAssembly.validate(WITH_SIMD);
}

/** Makes the functions from a compiled module or its bytes. */
export async function instantiate(source) {
    if (!isSupported()) {
        throw new Error(
            "dethrux: this engine has no WebAssembly with vectors of 128 bits (SIMD): use a later one",
        );
    }
    const isModule = source instanceof WebAssembly.Module;
    const module = isModule ? source : await WebAssembly.compile(source);
    const { exports } = await WebAssembly.instantiate(module);
    if (exports.dethrux_version?.() !== VERSION) {
        throw new Error("dethrux: the module has another version than this package");
    }
    return functionsOf(new Machine(exports));
}

/** Returns a function for each call that the module has. */
function functionsOf(machine) {
    const functions = {};
    for (const [name, [shape, kind]] of Object.entries(CALLS)) {
        if (machine.has(name) && shape !== "stream") {
            const made = (parts) => machine.call(name, kind, parts);
            functions[camelCase(name)] = (...words) => SHAPES[shape](made, words);
            if (kind === "progress") {
                const into = (...words) => SHAPES[shape](made, words, true);
                functions[`${camelCase(name)}Into`] = into;
            }
        }
    }
    return Object.freeze(Object.assign(functions, strings(machine), streams(machine, functions)));
}

/** Returns the functions for strings. */
function strings(machine) {
    /** Puts the UTF-16 of a string into the memory, and returns its length. */
    const put = (text, order, { fatal }) => {
        const len = machine.putText(text);
        const error = machine.repairText(len, LE, order, fatal);
        if (error) {
            throw new IllFormedError(error.at / 2, error.length / 2);
        }
        return len;
    };
    return {
        decode(...words) {
            const [utf16] = words;
            const form = takeUtf16(words);
            const options = takeOptions(words);
            if (options.stream) {
                throw new TypeError("dethrux: decode takes whole text: textDecoder takes a stream");
            }
            return new Text(machine, form, options).decode(utf16);
        },
        encode(...words) {
            const text = takeText(words);
            const { order, width } = takeForm(words);
            const len = put(text, order, takeOptions(words));
            return inWidth(machine.textBytes(len).slice(), width);
        },
        encodeInto(...words) {
            const text = takeText(words);
            const { part, order, width } = takeUtf16(words);
            const read = fitting(text, Math.floor(part.len / 2));
            const len = put(text.slice(0, read), order, takeOptions(words));
            part.bytes.set(machine.textBytes(len));
            return { read, written: len / width };
        },
    };
}

/** Returns how many code units of a string fit, without half of a surrogate pair at the end. */
function fitting(text, most) {
    return text.codePointAt(most - 1) > 0xffff ? most - 1 : Math.min(most, text.length);
}

function camelCase(name) {
    return name.replace(/_(\w)/g, (_, letter) => letter.toUpperCase());
}

/** Returns the code units of a string. */
export function unitsOf(text) {
    takeText([text]);
    const units = new Uint16Array(text.length);
    for (let at = 0; at < text.length; at += 1) {
        units[at] = text.charCodeAt(at);
    }
    return units;
}

/** Returns the string of code units. */
export function stringOf(units) {
    takeArray([units], "Uint16Array");
    const parts = [];
    for (let at = 0; at < units.length; at += 8192) {
        parts.push(String.fromCharCode(...units.subarray(at, at + 8192)));
    }
    return parts.join("");
}
