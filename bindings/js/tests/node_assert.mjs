// Stands for `node:assert/strict` in a browser: the functions of it that the tests use. The same
// tests run in Node, which has the rules of `node:assert` itself.

/** What tells a value apart from others: its class, and what it has. */
function shown(value) {
    if (typeof value === "bigint" || Object.is(value, -0)) {
        return typeof value === "bigint" ? `${value}n` : "-0";
    }
    if (typeof value !== "object" || value === null) {
        return typeof value === "string" ? JSON.stringify(value) : String(value);
    }
    const fields = Object.keys(value).sort().map((it) => `${it}: ${shown(value[it])}`);
    return `${value.constructor?.name} { ${fields.join(", ")} }`;
}

/** Whether an error is of a class, satisfies a function, matches a pattern, or has properties. */
function isWanted(error, wanted) {
    if (typeof wanted !== "function") {
        return wanted instanceof RegExp
            ? wanted.test(String(error))
            : Object.keys(wanted).every((it) => shown(error[it]) === shown(wanted[it]));
    }
    const isClass = wanted === Error || Error.isPrototypeOf(wanted);
    return isClass ? error instanceof wanted : wanted(error) === true;
}

function ok(value, message = "it is not true") {
    if (!value) {
        throw message instanceof Error ? message : new Error(message);
    }
}

function equal(found, wanted, message = "") {
    const isEqual = Object.is(found, wanted);
    ok(isEqual, isEqual || `${message} ${shown(found)}, not ${shown(wanted)}`.slice(0, 900));
}

async function rejects(promise, wanted) {
    const [error] = await Promise.allSettled([promise]);
    ok(error.status === "rejected" && isWanted(error.reason, wanted), `not thrown: ${wanted}`);
}

export default {
    ok,
    equal,
    deepEqual: (found, wanted, message) => equal(shown(found), shown(wanted), message),
    match: (text, pattern) => ok(pattern.test(text), `${text} is not ${pattern}`),
    throws(call, wanted, message) {
        let error;
        try {
            call();
        } catch (thrown) {
            error = thrown;
        }
        ok(error !== undefined && isWanted(error, wanted), message ?? `not thrown: ${wanted}: ${error}`);
    },
    rejects,
};
