// A list of whole numbers that grows.

export class Ints {
  constructor() {
    this.all = new Int32Array(1024);
    this.length = 0;
  }

  push(value) {
    this.room(1);
    this.all[this.length++] = value;
  }

  // Makes room for so many more.
  room(more) {
    if (this.length + more <= this.all.length) return;
    const wider = new Int32Array(2 * (this.length + more));
    wider.set(this.all);
    this.all = wider;
  }

  at(place) {
    return this.all[place];
  }

  // Sets one, also behind the end: what lies between is 0.
  set(place, value) {
    if (place >= this.length) {
      this.room(place + 1 - this.length);
      this.length = place + 1;
    }
    this.all[place] = value;
  }
}
