// A proved program that ports/make compiled to WebAssembly, run in Node or in a browser. Nothing here decides a figure or a word: bytes are moved.
//
//     run(module, input, more) gives {output, remarks, status}
//
// module is a compiled WebAssembly.Module, input the bytes of standard input, more those of compare's second book. output and remarks are the bytes
// that went to standard output and standard error, status is the program's 0 or 1 (null of a program that has none: trials). Each run has an
// instance of its own. Where a program does not come to its end, run throws a ProgramError with one of these names:
//
//     StackExhausted   it ran out of stack
//     ProgramTrapped   it stopped at any other trap
//     NotProvided      it asked its machine for what is not here: a file, another descriptor, the text of an error
//     NoStatus         it ended without its status

const INPUT = 0, OUTPUT = 1, REMARKS = 2, STATUS = 3, MORE = 5;

export class ProgramError extends Error {
    constructor(name, message, cause) {
        super(message, { cause });
        this.name = name;
    }
}

function notProvided(what) {
    throw new ProgramError("NotProvided", `the program asks its machine for ${what}, which is not here`);
}

function exhausted(cause) {
    return new ProgramError("StackExhausted", "the program ran out of stack", cause);
}

// What is left of some bytes, so many at a time at most.
function source(bytes) {
    if (!(bytes instanceof Uint8Array)) {
        throw new TypeError("a program's input is a Uint8Array");
    }
    let at = 0;
    return (most) => {
        const part = bytes.subarray(at, at + most);
        at += part.length;
        return part;
    };
}

function joined(parts) {
    const whole = new Uint8Array(parts.reduce((length, part) => length + part.length, 0));
    let at = 0;
    for (const part of parts) {
        whole.set(part, at);
        at += part.length;
    }
    return whole;
}

// The stack is the one part of its memory that a proved program can leave.
function within(memory, place, count) {
    if (place + count > memory.byteLength) {
        throw exhausted();
    }
    return new Uint8Array(memory, place, count);
}

// What a program is given; counts are 64-bit numbers, places 32-bit ones. No read and no write fails. A program is started with one word, `status`, so
// that it writes its status. It asks its processor for what this machine does in its own way: here every answer is yes. No signal comes. The one file
// is the second book, by the name of its descriptor.
const WORDS = ["program", "status"].map((word) => new TextEncoder().encode(word));
const NO_SUCH = -1n, TOO_LONG = -2n, PAGE = 65536, LONGEST_NAME = 4096;

function given(sources, sinks, bytes, page) {
    let errno = 0;
    const write = (descriptor, place, count) => {
        const sink = sinks.get(descriptor) ?? notProvided(`room on descriptor ${descriptor}`);
        sink.push(bytes(place, Number(count)).slice());
        return count;
    };
    return {
        open(place) {
            const name = bytes(place, LONGEST_NAME);
            const file = new TextDecoder().decode(name.subarray(0, name.indexOf(0)));
            return file === `/dev/fd/${MORE}` && sources.has(MORE) ? MORE : notProvided(`the file ${file}`);
        },
        close: () => 0,
        read(descriptor, place, count) {
            const next = sources.get(descriptor) ?? notProvided(`bytes of descriptor ${descriptor}`);
            const part = next(Number(count));
            bytes(place, part.length).set(part);
            return BigInt(part.length);
        },
        write,
        __write: write,
        rattle_arg(index, place, count) {
            const word = WORDS[index];
            if (word === undefined) return NO_SUCH;
            const fits = word.subarray(0, Number(count));
            bytes(place, fits.length).set(fits);
            return fits.length < word.length ? TOO_LONG : BigInt(word.length);
        },
        rattle_errno: () => errno,
        rattle_set_errno(number) {
            errno = number;
        },
        __sysv_signal: () => 0n,
        __x86_get_cpuid_feature_leaf: page,
    };
}

// Each import of the module: what is not given says so when it is called.
function imports(module, functions) {
    const env = {};
    for (const wanted of WebAssembly.Module.imports(module)) {
        if (wanted.module !== "env" || wanted.kind !== "function") {
            notProvided(`${wanted.module}.${wanted.name}`);
        }
        env[wanted.name] = functions[wanted.name] ?? (() => notProvided(wanted.name));
    }
    return { env };
}

// An instance that is ready to run, and what it has written up to now: for run, and for the measuring of its stack.
export function prepare(module, input, more) {
    const sources = new Map([[INPUT, source(input)]]);
    if (more !== undefined) {
        sources.set(MORE, source(more));
    }
    const sinks = new Map([OUTPUT, REMARKS, STATUS].map((descriptor) => [descriptor, []]));
    const bytes = (place, count) => within(instance.exports.memory.buffer, place >>> 0, count);
    let yes; // a page of its own, behind all that the program has
    const page = () => {
        if (yes === undefined) {
            yes = instance.exports.memory.grow(1) * PAGE;
            bytes(yes, PAGE).fill(255);
        }
        return yes;
    };
    const env = imports(module, given(sources, sinks, bytes, page));
    const instance = new WebAssembly.Instance(module, env);
    return { instance, written: (descriptor) => joined(sinks.get(descriptor)), tellsStatus: "rattle_arg" in env.env };
}

// Engines say the same in their own words; calls have a stack of the engine's own too.
function named(error) {
    const trapped = error instanceof WebAssembly.RuntimeError;
    if ((trapped && /out of bounds/i.test(error.message)) || /call stack|recursion/i.test(error.message)) {
        return exhausted(error);
    }
    return trapped ? new ProgramError("ProgramTrapped", `the program stopped: ${error.message}`, error) : error;
}

// One byte, 0, 1 or 2, as the script of a program takes it: 2 is the status 1 of a program whose output is whole all the same.
export function statusOf(bytes) {
    const status = bytes.length === 1 ? bytes[0] - 48 : -1;
    if (![0, 1, 2].includes(status)) {
        throw new ProgramError("NoStatus", "the program ended without its status");
    }
    return Math.min(status, 1);
}

export function run(module, input, more) {
    const { instance, written, tellsStatus } = prepare(module, input, more);
    try {
        instance.exports.main();
    } catch (error) {
        throw named(error);
    }
    return { output: written(OUTPUT), remarks: written(REMARKS), status: tellsStatus ? statusOf(written(STATUS)) : null };
}
