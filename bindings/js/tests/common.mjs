// What the tests use, in Node and in a browser.
import assert from "node:assert/strict";
import { IllFormedError, unitsOf } from "dethrux";

export const utf8 = (text) => new TextEncoder().encode(text);
export const le = (text) => new Uint8Array(unitsOf(text).buffer);
export const be = (text) => le(text).map((_, at, bytes) => bytes[at ^ 1]);

/** The name of the function for a call of the header. */
export const camelCase = (name) => name.replace(/_(\w)/g, (_, letter) => letter.toUpperCase());

/** Whether this is Node, which has Buffer. */
export const isNode = "process" in globalThis;
/** A module of Node, and nothing in a browser. */
export const ofNode = (name) => (isNode ? process.getBuiltinModule(name) : {});

/** The bytes of a file, which a browser has from a server. */
export async function read(url) {
    if (isNode) {
        return ofNode("node:fs").readFileSync(url);
    }
    return new Uint8Array(await (await fetch(url)).arrayBuffer());
}

/** Arrays of bytes as one. */
export function together(chunks) {
    const whole = new Uint8Array(chunks.reduce((sum, it) => sum + it.length, 0));
    let at = 0;
    for (const chunk of chunks) {
        assert.ok(chunk instanceof Uint8Array);
        whole.set(chunk, at);
        at += chunk.length;
    }
    return whole;
}

/** Whether two arrays have the same elements, sooner than assert.deepEqual. */
export const isSame = (one, other) =>
    one.length === other.length && one.every((it, at) => it === other[at]);

/** Whether a call throws that something is ill formed there. */
export function isIllFormed(call, offset, length) {
    assert.throws(call, (error) => {
        assert.ok(error instanceof IllFormedError && error instanceof TypeError);
        assert.deepEqual([error.name, error.offset, error.length], ["IllFormedError", offset, length]);
        return error.message.includes(`offset ${offset}`);
    });
}

/** Makes a call while a method of a prototype is another one. */
export function replaced(prototype, name, method, call) {
    const before = prototype[name];
    prototype[name] = method(before);
    try {
        return call();
    } finally {
        prototype[name] = before;
    }
}
