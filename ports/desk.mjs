// The herd desk (host/herd_desk.h) that ports/make compiled to WebAssembly, for Node and for browsers.
//
//     open(module) gives {desk(book, room), start(), call(image, part, room)}
//
// desk reads a whole book into room bytes of lines and gives {code, lines}. start gives the image of no record yet; call reads a part of a book on
// from an image and gives {code, taken, lines, image}, the image that the next call goes on from. The codes are those of the header.

const IMAGE_BYTES = 132, PAGE = 65536;

// The runs of bytes stand after the desk's own memory, each at a multiple of 8.
function laid(memory, base, lengths) {
    let end = base;
    const places = lengths.map((length) => {
        const place = end;
        end += Math.ceil(length / 8) * 8;
        return place;
    });
    const missing = end - memory.buffer.byteLength;
    if (missing > 0) {
        memory.grow(Math.ceil(missing / PAGE));
    }
    return places;
}

// A number is its code times 2^32, plus the bytes written.
function answer(number) {
    return { code: Number(number >> 32n), written: Number(number & 0xffffffffn) };
}

export function open(module) {
    const { memory, herd_desk, herd_start, herd_call } = new WebAssembly.Instance(module, {}).exports;
    const base = memory.buffer.byteLength;
    const put = (place, bytes) => new Uint8Array(memory.buffer).set(bytes, place);
    const take = (place, count) => new Uint8Array(memory.buffer, place, count).slice();
    return {
        desk(book, room) {
            const [bookAt, linesAt] = laid(memory, base, [book.length, room]);
            put(bookAt, book);
            const { code, written } = answer(herd_desk(bookAt, BigInt(book.length), linesAt, BigInt(room)));
            return { code, lines: take(linesAt, written) };
        },
        start() {
            const [imageAt] = laid(memory, base, [IMAGE_BYTES]);
            herd_start(imageAt, BigInt(IMAGE_BYTES));
            return take(imageAt, IMAGE_BYTES);
        },
        call(image, part, room) {
            const [imageAt, partAt, linesAt, takenAt] = laid(memory, base, [image.length, part.length, room, 8]);
            put(imageAt, image);
            put(partAt, part);
            const number = herd_call(imageAt, BigInt(image.length), partAt, BigInt(part.length), linesAt, BigInt(room), takenAt);
            const { code, written } = answer(number);
            const taken = Number(new DataView(memory.buffer).getBigUint64(takenAt, true));
            return { code, taken, lines: take(linesAt, written), image: take(imageAt, image.length) };
        },
    };
}
