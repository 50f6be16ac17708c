// The proved library as a WebAssembly module: its calls (bindings/ct.h), its memory, and rooms in it.

const encoder = new TextEncoder();
const decoder = new TextDecoder();
const FIRST_ROOM = 1 << 16;
const HANDLE_BYTES = 16;

// What ct.h says of places where there is nothing.
const NONE = 0xffffffffffffffffn;

export class Library {
  static usual = null; // that of worlds and sessions for which none is named

  // The library of the bytes of its module.
  static async load(bytes) {
    const { instance } = await WebAssembly.instantiate(bytes, {});
    return new Library(instance.exports);
  }

  constructor(calls) {
    this.calls = calls;
    this.renew();
    this.rooms = { in: this.room(FIRST_ROOM), out: this.room(FIRST_ROOM) };
    this.told = this.room(FIRST_ROOM).place; // what calls write that answer a struct
    this.toldWord = Number(this.told) / 4;
    this.forgotten = new FinalizationRegistry(({ at, close }) => this.giveBack(at, close));
  }

  // Looks at the memory anew: it has grown.
  renew() {
    const { buffer } = this.calls.memory;
    this.view = new DataView(buffer);
    this.all = new Uint8Array(buffer);
    this.words = new Uint32Array(buffer);
  }

  // Room of so many bytes, of zeros, at a multiple of 16.
  room(size) {
    const place = this.calls.page_room(BigInt(size));
    if (place === 0n) throw new Error("out of memory");
    return { place, size };
  }

  // The room of a handle, which this call closes when nobody has the object any more.
  handle(owner, close) {
    const at = this.room(HANDLE_BYTES).place;
    this.forgotten.register(owner, { at, close });
    return at;
  }

  giveBack(at, close) {
    this.calls[close](at);
    this.calls.page_room_back(at);
  }

  // The room of this name, with so many bytes at least.
  wide(name, size) {
    if (this.rooms[name].size >= size) return this.rooms[name].place;
    this.calls.page_room_back(this.rooms[name].place);
    this.rooms[name] = this.room(2 * size);
    return this.rooms[name].place;
  }

  // The bytes at a place, as they are now.
  bytes(place, size) {
    if (this.all.length === 0) this.renew();
    return this.all.subarray(Number(place), Number(place) + size);
  }

  // The memory, as it is now.
  now() {
    if (this.all.length === 0) this.renew();
    return this.view;
  }

  // The elements that a call writes, each of so many bytes, or null where it says that there is no such list.
  list(size, element, call) {
    const most = BigInt(Math.floor(this.rooms.out.size / size));
    const count = BigInt.asUintN(64, call(this.rooms.out.place, most));
    if (count === NONE) return null;
    if (count > most) call(this.wide("out", Number(count) * size), count);
    const view = this.now();
    return Array.from({ length: Number(count) }, (_, i) => element(view, Number(this.rooms.out.place) + i * size));
  }

  // Puts a text into the room for what is told: its place and length.
  put(text) {
    const most = 3 * text.length;
    const place = this.wide("in", most);
    const { written } = encoder.encodeInto(text, this.bytes(place, most));
    return [place, BigInt(written)];
  }

  text(place, size) {
    return decoder.decode(this.bytes(place, size));
  }
}
