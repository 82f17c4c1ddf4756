// Stands for `node:test` in a browser: `run` makes the tests of a file in order, prints each that
// failed, and last 'N passed, M failed'. The name of each test goes to the console first, by which
// chromium.py names a test that does not end.

// The tests that a browser cannot make, and why.
const ONLY_IN_NODE = {
    "calls.test.mjs": {
        "each function is in the types, and no others": "it reads a file of the package",
        "the version is that of the tree": "it reads files of the tree and of the package",
        "a relative URL, and an engine without getBuiltinModule": "it gives Node what a page has",
        "a module from a server": "it starts a server; a browser has each file from one",
    },
};
const tests = new Map();

export function test(name, call) {
    if (tests.has(name)) {
        throw new Error(`two tests have the name ${name}`);
    }
    tests.set(name, call);
}

/** Makes the tests that the file with this name defined. */
export async function run(file) {
    const counts = { passed: 0, failed: 0 };
    const fail = (name, error) => {
        counts.failed += 1;
        console.log(`failed: ${name}\n${error?.stack ?? error}`);
    };
    for (const name of Object.keys(ONLY_IN_NODE[file] ?? {})) {
        if (!tests.delete(name)) {
            fail(name, "there is no such test");
        }
    }
    for (const [name, call] of tests) {
        console.debug(name);
        try {
            await call();
            counts.passed += 1;
        } catch (error) {
            fail(name, error);
        }
    }
    if (tests.size === 0) {
        fail(file, "it has no tests");
    }
    console.log(`${counts.passed} passed, ${counts.failed} failed`);
}
