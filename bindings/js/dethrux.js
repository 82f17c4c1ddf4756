// SPDX-License-Identifier: MIT OR Apache-2.0

import { instantiate } from "./load.js";

export { isSupported, stringOf, unitsOf } from "./load.js";
export { IllFormedError } from "./streams.js";

/** Loads the library: the module of the package, or another one at a URL or as bytes. */
export async function load(source = new URL("./dethrux.wasm", import.meta.url)) {
    if (typeof source === "string") {
        const base = globalThis.document?.baseURI ?? globalThis.location?.href;
        return instantiate(await bytesAt(new URL(source, base)));
    }
    return instantiate(source instanceof URL ? await bytesAt(source) : source);
}

async function bytesAt(url) {
    if (url.protocol === "file:" && globalThis.process?.versions?.node) {
        if (!process.getBuiltinModule) {
            throw new Error("dethrux: this needs Node 20.16, 22.3 or later, or the bytes of dethrux.wasm");
        }
        return process.getBuiltinModule("node:fs/promises").readFile(url);
    }
    const found = await fetch(url);
    if (!found.ok) {
        throw new Error(`dethrux: ${url} cannot be read: ${found.status}`);
    }
    return found.arrayBuffer();
}
