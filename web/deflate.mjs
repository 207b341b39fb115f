// Deflate (RFC 1951) with its fixed codes, for the programs in the page: a browser takes it apart by DecompressionStream("deflate-raw"). It
// stands here since zlib's bytes differ from machine to machine, and the page has to be the same everywhere.
const WINDOW = 32768;
const CHAIN = 512; // places that are tried for a longer match
const LENGTHS = [[3, 0], [11, 1], [19, 2], [35, 3], [67, 4], [131, 5]];

// The bits of a stream, the lowest of a byte first; codes have their highest bit first.
class Bits {
    bytes = [];
    held = 0;
    count = 0;

    put(value, width) {
        for (let at = 0; at < width; at += 1) {
            this.held |= ((value >> at) & 1) << this.count;
            this.count += 1;
            if (this.count === 8) {
                this.bytes.push(this.held);
                [this.held, this.count] = [0, 0];
            }
        }
    }

    code(value, width) {
        for (let at = width - 1; at >= 0; at -= 1) {
            this.put((value >> at) & 1, 1);
        }
    }

    end() {
        while (this.count > 0) {
            this.put(0, 1);
        }
        return Uint8Array.from(this.bytes);
    }
}

function symbol(bits, value) {
    if (value < 144) {
        bits.code(48 + value, 8);
    } else if (value < 256) {
        bits.code(400 + value - 144, 9);
    } else if (value < 280) {
        bits.code(value - 256, 7);
    } else {
        bits.code(192 + value - 280, 8);
    }
}

// A length of 3 to 258 and a distance of 1 to 32768, each a code and some bits.
function match(bits, length, distance) {
    if (length === 258) {
        symbol(bits, 285);
    } else {
        const [base, extra] = LENGTHS.findLast(([from]) => from <= length);
        const group = LENGTHS.findIndex(([from]) => from === base);
        const step = (length - base) >> extra;
        symbol(bits, (group === 0 ? 257 : 261 + 4 * group) + step);
        bits.put((length - base) & ((1 << extra) - 1), extra);
    }
    const less = distance - 1;
    const high = less < 4 ? 0 : 31 - Math.clz32(less) - 1;
    bits.code(less < 4 ? less : 2 * high + (less >> high), 5);
    bits.put(less & ((1 << high) - 1), high);
}

// The longest match before a place among those that begin with the same three bytes.
function longest(bytes, at, before, previous) {
    const most = Math.min(258, bytes.length - at);
    let [length, distance] = [0, 0];
    for (let tried = 0, from = before; from >= 0 && at - from <= WINDOW && tried < CHAIN; tried += 1, from = previous[from]) {
        let same = 0;
        while (same < most && bytes[from + same] === bytes[at + same]) {
            same += 1;
        }
        if (same > length) {
            [length, distance] = [same, at - from];
        }
    }
    return length >= 3 ? { length, distance } : null;
}

export function deflated(bytes) {
    const bits = new Bits();
    const heads = new Map();
    const previous = new Int32Array(bytes.length).fill(-1);
    const key = (at) => (bytes[at] << 16) | (bytes[at + 1] << 8) | bytes[at + 2];
    const enter = (at) => {
        previous[at] = heads.get(key(at)) ?? -1;
        heads.set(key(at), at);
    };
    bits.put(1, 1);
    bits.put(1, 2);
    for (let at = 0; at < bytes.length;) {
        const found = longest(bytes, at, heads.get(key(at)) ?? -1, previous);
        const next = found && found.length < 32 ? longest(bytes, at + 1, heads.get(key(at + 1)) ?? -1, previous) : null;
        const taken = found && (!next || next.length <= found.length) ? found.length : 1;
        if (taken === 1) {
            symbol(bits, bytes[at]);
        } else {
            match(bits, found.length, found.distance);
        }
        for (let each = 0; each < taken; each += 1, at += 1) {
            enter(at);
        }
    }
    symbol(bits, 256);
    return bits.end();
}
