"use strict";

// What all parts of the page share. site/build.py joins them to one script, in its order.

const ORDER_NAMES = { le: "UTF-16, little endian", be: "UTF-16, big endian", utf8: "UTF-8" };
const REPLACEMENT = "\ufffd";

// The library and its compiled module, which workers share.
let library;
let module;
// The file that was dropped or chosen; nothing if the field is read.
let given;
// What the worker found in a file, with the file; nothing until it has read one.
let report;
// The window of the file that the strip shows: its offset, bytes, byte order and items, and
// whether it is one stream of UTF-16, which can be cut.
let shown = { start: 0, bytes: new Uint8Array(), order: "le", items: [], isStream: false };

const byId = (id) => document.getElementById(id);
const hex = (number, digits) => number.toString(16).toUpperCase().padStart(digits, "0");
const octets = (bytes) => Array.from(bytes, (it) => hex(it, 2)).join(" ");
const counted = (count) => count.toLocaleString("en");
const plural = (count, noun) => `${counted(count)} ${noun}${count === 1 ? "" : "s"}`;
const textOf = (utf8, stream = false) =>
    new TextDecoder("utf-8", { ignoreBOM: true }).decode(utf8, { stream });

/** Turns a button off or on. A button that is off keeps the focus. */
const turnOff = (id, isOff) => byId(id).setAttribute("aria-disabled", isOff);

const isOff = (button) => button.getAttribute("aria-disabled") === "true";

/** Returns the bytes of a file from one offset to another. */
const readBytes = async (file, at, end) => new Uint8Array(await file.slice(at, end).arrayBuffer());

/** Makes an element with a class, attributes and children, which are elements or texts. */
function element(name, { className, ...attributes } = {}, ...children) {
    const made = document.createElement(name);
    if (className) {
        made.className = className;
    }
    Object.entries(attributes).forEach(([key, value]) => made.setAttribute(key, value));
    made.append(...children);
    return made;
}
