// What was pasted or typed, as bytes. What cannot be read throws an error that says why.

const FORM_NAMES = { hex: "bytes in hex", dump: "a dump", text: "text" };
// The most bytes that a dump may stand for: a line `*` can stand for any number.
const MOST_DUMPED = 1 << 26;
// A line of xxd; of hexdump -C or od -t x1; and what stands for repeated lines.
const DUMP_LINES = [
    /^[0-9a-f]{4,}: (?:[0-9a-f]{2})+(?: |$)/i,
    /^[0-9a-f]{6,}(?: {1,3}[0-9a-f]{2})* *(?:\||$)/i,
    /^\*$/,
];
// The first line of a dump that is not of single bytes, such as od -x and plain hexdump print.
const WORDS_LINE = /^0{6,7}(?: +[0-9a-f]{3,})+$/i;
// An array in C or Rust, also with the length after it that `xxd -i` writes; a registry value.
const LITERALS = [
    /^(?:[^=]*=)?\s*&?[{[]\s*(0x[^{}[\]=]*)[}\]][;\s]*(?:\w[\w ]*= \d+;\s*)?$/i,
    /^\s*(?:(?:@|".*")=)?hex(?:\([0-9a-f]+\))?:([0-9a-f][^=]*)$/i,
];

const linesOf = (text) => text.split("\n").map((it) => it.trim()).filter(Boolean);
const literalOf = (text) => LITERALS.map((it) => text.match(it)?.[1]).find(Boolean);
// A line of a registry value that is continued ends with a backslash.
const hexWords = (text) =>
    (literalOf(text)?.replace(/\\\n/g, " ") ?? text).split(/[\s,;:]+|0x|\\x/i).filter(Boolean);
const isBytes = (word) => /^(?:[0-9a-f]{2})+$/i.test(word);

/** Guesses what a text is. */
function guessedForm(text) {
    const [lines, words] = [linesOf(text), hexWords(text)];
    const isMost = (found, all) => 2 * found.length > all.length;
    const dumped = lines.filter((line) => DUMP_LINES.some((it) => it.test(line)));
    const isDump = dumped.some((it) => /[ :]/.test(it));
    if ((isDump && dumped.length === lines.length) || lines.some((it) => WORDS_LINE.test(it))) {
        return "dump";
    }
    if (literalOf(text) || words.every(isBytes)) {
        return "hex";
    }
    // With a slip, it is a dump if most lines are a dump's, and hex if most words are whole bytes
    // and most have a digit from 0 to 9. All else is text, such as `add 12 dead beef`.
    if (isDump && isMost(dumped, lines)) {
        return "dump";
    }
    const digits = words.filter((it) => /\d/.test(it));
    return isMost(words.filter(isBytes), words) && isMost(digits, words) ? "hex" : "text";
}

/** Returns the bytes of a text, in which \uD800 and \u{1F600} are written out. */
function bytesOfText(text, order) {
    const plain = (whole, point, unit) => {
        const number = parseInt(point ?? unit, 16);
        return number > 0x10ffff ? whole : String.fromCodePoint(number);
    };
    const units = dethrux.unitsOf(text.replace(/\\u(?:\{([0-9a-f]{1,6})\}|([0-9a-f]{4}))/gi, plain));
    const bytes = new Uint8Array(units.buffer);
    if (order === "be") {
        library.swapByteOrder(bytes);
    }
    return bytes;
}

function bytesOfHex(text) {
    const words = hexWords(text);
    const wrong = words.find((it) => !isBytes(it));
    if (wrong) {
        const isHalf = /^[0-9a-f]+$/i.test(wrong);
        throw new Error(`“${wrong}” ${isHalf ? "ends with half a byte" : "is not bytes in hex"}`);
    }
    return Uint8Array.from(words.join("").match(/../g) ?? [], (it) => parseInt(it, 16));
}

/** Returns the bytes of a dump, without its offsets and its column of text. */
function bytesOfDump(text) {
    const rows = [];
    let [first, len, isRepeated] = [undefined, 0, false];
    const add = (row) => {
        rows.push(row);
        len += row.length;
    };
    for (const line of linesOf(text)) {
        if (line === "*") {
            isRepeated = true;
            continue;
        }
        const [, offset, colon, rest] = line.match(/^([0-9a-f]+)(:?) *(.*)$/i) ?? [];
        if (offset === undefined) {
            throw new Error(`“${line.slice(0, 40)}” is not a line of a dump`);
        }
        if (!colon && /^[0-9a-f]{3}/i.test(rest)) {
            const why = "has words of more than two digits, in the order of the machine";
            throw new Error(`“${line.slice(0, 40)}” ${why}: use xxd, hexdump -C or od -t x1`);
        }
        // The offsets of od have 7 digits if they are octal.
        const at = parseInt(offset, offset.length === 7 ? 8 : 16);
        first ??= at;
        if (isRepeated && (at - first > MOST_DUMPED || !rows.at(-1)?.length)) {
            throw new Error("the dump leaves out too much");
        }
        while (isRepeated && len < at - first) {
            add(rows.at(-1));
        }
        if (at - first !== len) {
            throw new Error(`“${line.slice(0, 40)}” does not follow the line before it`);
        }
        isRepeated = false;
        // The column of text follows two spaces in a dump of xxd, and else a bar.
        add(bytesOfHex(rest.split(colon ? "  " : "|")[0]));
    }
    const bytes = new Uint8Array(len);
    rows.reduce((to, row) => (bytes.set(row, to), to + row.length), 0);
    return bytes;
}

/** Reads the field, and checks its bytes. */
function readField() {
    const text = byId("input").value;
    const isGuess = byId("form").value === "auto";
    const form = isGuess ? guessedForm(text) : byId("form").value;
    if (!text.trim()) {
        showNothing("Nothing to check yet.");
        return;
    }
    const order = byId("order").value === "be" ? "be" : "le";
    const read = { hex: bytesOfHex, dump: bytesOfDump, text: (it) => bytesOfText(it, order) }[form];
    try {
        const bytes = read(text);
        const size = plural(bytes.length, "byte");
        const guess = isGuess ? " That is a guess: choose another form if it is wrong." : "";
        byId("input-note").textContent = `Read as ${FORM_NAMES[form]}: ${size}.${guess}`;
        checkFile(new Blob([bytes]), "pasted", form === "text" ? order : undefined);
    } catch (error) {
        const [name, why] = [FORM_NAMES[form], error.message];
        const guess = `This looks like ${name}, but ${why}. If it is text, choose “text”.`;
        showNothing(isGuess ? guess : `This cannot be read as ${name}: ${why}.`);
    }
}
