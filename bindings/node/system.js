// What the program ct_tool asks of an operating system (page/system.c), over a host that does it. Each function here stands alone, so that
// its text can be that of a worker.

// Runs the program of a module over a host, an object with the functions of `held` below: its status.
export function run(module, host) {
  const NUMBERS = { ENOENT: 2, EIO: 5, EBADF: 9, EACCES: 13, ENOTDIR: 20, EISDIR: 21, EMFILE: 24, ENOSPC: 28, EPIPE: 32, ENOSYS: 38 };
  const [NO_WORD, NO_ROOM] = [-1n, -2n];
  const [WRITING, APPENDING] = [3, 0o2000];
  class End {
    constructor(status) {
      this.status = status;
    }
  }
  let calls = null;
  const bytes = (place, size) => new Uint8Array(calls.memory.buffer, Number(place), Number(size));
  const name = (place, size) => new TextDecoder().decode(bytes(place, size));

  // The answer of a call or, of one that throws a fault with a code, Linux's number of that.
  const answered = (call) => (...given) => {
    try {
      return BigInt(call(...given));
    } catch (error) {
      if (error.code === undefined) throw error;
      return BigInt(-(NUMBERS[error.code] ?? NUMBERS.EIO));
    }
  };
  const put = (text, place, room) => {
    if (text === undefined) return NO_WORD;
    const part = typeof text === "string" ? new TextEncoder().encode(text) : text;
    bytes(place, room).set(part.subarray(0, Number(room)));
    return BigInt(part.length) <= room ? BigInt(part.length) : NO_ROOM;
  };
  const system = {
    word: (number, place, room) => put(host.words[Number(number)], place, room),
    variable: (letters, length, place, room) => put(host.variable(name(letters, length)), place, room),
    open: answered((place, length, how) => host.open(name(place, length), how & WRITING ? (how & APPENDING ? "a" : "w") : "r")),
    read: answered((file, place, room) => host.read(file, bytes(place, room))),
    write: answered((file, place, size) => host.write(file, bytes(place, size))),
    close: answered((file) => host.close(file) ?? 0),
    stat: answered((file, place, length, known) => {
      const { mode, ino, size, dev } = host.stat(file, name(place, length));
      new BigUint64Array(calls.memory.buffer, Number(known), 4).set([mode, ino, size, dev].map(BigInt));
      return 0;
    }),
    is_terminal: (file) => Number(host.isTerminal(file)),
    clock: () => host.clock(),
    sleep: (millis) => host.sleep(millis),
    end(status) {
      throw new End(status);
    },
  };
  calls = new WebAssembly.Instance(module, { system }).exports;
  try {
    return calls.main(0, 0n);
  } catch (error) {
    if (error instanceof End) return error.status;
    throw error;
  }
}

// A host with these words, this text as standard input and these files, each a name and bytes; no other can be read, and none made. It
// keeps what is written on standard output and error; `told` hears of the latter as of a terminal's.
export function held({ words, input = "", files = [] }, told = null) {
  const written = { 1: [], 2: [] };
  const readers = new Map([[0, { bytes: new TextEncoder().encode(input), at: 0 }]]);
  const fault = (code) => Object.assign(new Error(code), { code });
  let next = 3; // behind the standard streams
  return {
    words,
    variable: () => undefined,
    open(name, how) {
      const found = files.find((it) => it.name === name);
      if (how !== "r" || !found) throw fault(how === "r" ? "ENOENT" : "EACCES");
      readers.set(next, { bytes: found.bytes, at: 0 });
      return next++;
    },
    read(file, room) {
      const it = readers.get(file);
      if (!it) throw fault("EBADF");
      const part = it.bytes.subarray(it.at, it.at + room.length);
      room.set(part);
      it.at += part.length;
      return part.length;
    },
    write(file, bytes) {
      written[file].push(bytes.slice());
      if (file === 2) told?.(new TextDecoder().decode(bytes));
      return bytes.length;
    },
    close: (file) => { readers.delete(file); },
    stat() {
      throw fault("ENOSYS");
    },
    isTerminal: (file) => file === 2 && told !== null,
    clock: () => performance.now() * 1e6,
    sleep() {},
    written: (file) => new Blob(written[file]).text(),
  };
}
