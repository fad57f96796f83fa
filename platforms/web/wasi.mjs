// What a C program in WebAssembly asks of its surroundings (WASI, preview 1), as far as the project's programs do: no arguments, to read and write streams, and to end. The same in node and in a browser.

const SUCCESS = 0, BAD_DESCRIPTOR = 8, NOT_SUPPORTED = 58, CHARACTER_DEVICE = 2;

class Ended extends Error {
    constructor(status) {
        super(`ended with ${status}`);
        this.status = status;
    }
}

// The pieces of memory that a list of pointers and lengths names.
function* pieces(memory, list, count) {
    const words = new Uint32Array(memory.buffer, list, 2 * count);
    for (let i = 0; i < 2 * count; i += 2)
        yield new Uint8Array(memory.buffer, words[i], words[i + 1]);
}

// Goes through the pieces until one is not done whole, and tells how many bytes were done.
function through(memory, list, count, told, one) {
    let done = 0;
    for (const piece of pieces(memory, list, count)) {
        const n = one(piece);
        done += n;
        if (n < piece.length)
            break;
    }
    new DataView(memory.buffer).setUint32(told, done, true);
    return SUCCESS;
}

// Runs the program to its end and gives its status. `read(piece)` fills a piece of memory and tells how much of it, `write(descriptor, piece)` takes one.
export function run(module, read, write) {
    let memory;
    const zero = (at, length) => (new Uint8Array(memory.buffer, at, length).fill(0), SUCCESS);
    const imports = {
        args_sizes_get: (count, bytes) => zero(count, 4) || zero(bytes, 4),
        args_get: () => SUCCESS,
        fd_read: (fd, list, count, told) => (fd === 0 ? through(memory, list, count, told, read) : BAD_DESCRIPTOR),
        fd_write: (fd, list, count, told) => through(memory, list, count, told, piece => (write(fd, piece), piece.length)),
        fd_close: () => SUCCESS,
        fd_seek: () => NOT_SUPPORTED,
        fd_prestat_get: () => BAD_DESCRIPTOR, // no folder
        fd_fdstat_get: (fd, at) => zero(at, 24) || (new Uint8Array(memory.buffer)[at] = CHARACTER_DEVICE, SUCCESS),
        proc_exit: status => { throw new Ended(status); },
    };
    const others = { get: (known, name) => known[name] ?? (() => NOT_SUPPORTED) };
    const instance = new WebAssembly.Instance(module, { wasi_snapshot_preview1: new Proxy(imports, others) });
    memory = instance.exports.memory;
    try {
        instance.exports._start();
    } catch (error) {
        if (!(error instanceof Ended))
            throw error;
        return error.status;
    }
    return 0;
}
