"use strict";
// The module: bytes in, bytes out. It runs in a worker of the page, and under node for the tests. A station is opened
// once and kept; then each question goes to the export of its name. What the codes mean is said at the exports of
// crates/page_judge. Their contracts hold for a caller who keeps to this: a desk is all zeros before page_open, is read
// and written by nobody else, and is asked only after page_open has answered 0.
const ROOM = 10, DESK = 16, TOLD = 16, FIRST_ROOM = 1 << 18;

class Judge {
  constructor(compiled, drawing) {
    this.compiled = compiled;
    this.drawing = drawing;
  }

  // A fresh instance in which the drawing is opened; nothing is left of what an earlier one did. The answer of page_open.
  async start() {
    this.run = (await WebAssembly.instantiate(this.compiled, {})).exports;
    this.desk = this.zeros(DESK);
    this.told = this.zeros(TOLD);
    this.room = null;
    this.widen(FIRST_ROOM);
    this.opened = { code: -1, texts: [] };
    const drawing = this.put(this.drawing);
    this.opened = this.answered(this.run.page_open(this.desk, ...drawing, this.told), false);
    this.run.desk_free(drawing[0]);
    return this.opened;
  }

  alloc(n) {
    const at = this.run.desk_alloc(BigInt(n || 1));
    if (at === 0n) throw new Error("there was not enough memory");
    return at;
  }

  bytes(at, n) {
    return new Uint8Array(this.run.memory.buffer, Number(at), n);
  }

  zeros(n) {
    const at = this.alloc(n);
    this.bytes(at, n).fill(0);
    return at;
  }

  put(bytes) {
    const at = this.alloc(bytes.length);
    this.bytes(at, bytes.length).set(bytes);
    return [at, BigInt(bytes.length)];
  }

  widen(size) {
    if (this.room) this.run.desk_free(this.room[0]);
    this.room = null;
    this.room = [this.alloc(size), BigInt(size)];
  }

  length() {
    return Number(new DataView(this.run.memory.buffer, Number(this.told), TOLD).getBigUint64(0, true));
  }

  // What a code says, with what is told beside it.
  answered(code, hasText) {
    const told = new DataView(this.run.memory.buffer, Number(this.told), TOLD);
    if (code === 5 || code === 6) return { code, texts: [], number: told.getUint32(8, true), place: told.getUint32(12, true) };
    if (code > 1 || !hasText) return { code, texts: [] };
    return { code, texts: [new TextDecoder().decode(this.bytes(this.room[0], this.length()).slice())] };
  }

  // Asks an export about the station; where the room is too small, again with room enough.
  call(name, words) {
    const held = words.map((word) => (word instanceof Uint8Array ? this.put(word) : [word]));
    try {
      for (;;) {
        const code = this.run[name](this.desk, ...held.flat(), ...this.room, this.told);
        if (code !== ROOM) return this.answered(code, true);
        this.widen(2 * this.length());
      }
    } finally {
      for (const word of held) if (word.length > 1) this.run.desk_free(word[0]);
    }
  }

  // The texts of `check` and of `state`; or that of `explain`, of `why` or of `order`.
  ask(question) {
    if (this.opened.code !== 0) return this.opened;
    const bytes = (text) => (text instanceof Uint8Array ? text : new TextEncoder().encode(text));
    const positions = bytes(question.positions);
    if (question.asks === "order") return this.call("page_order", [positions, bytes(question.steps)]);
    const operation = () => [positions, Number(question.closes), bytes(question.path)];
    if (question.asks === "explain") return this.call("page_explain", operation());
    if (question.asks === "why") return this.call("page_why", operation());
    const check = this.call("page_check", [positions]);
    if (check.code !== 0) return check;
    const state = this.call("page_state", [positions]);
    return state.code === 0 ? { code: 0, texts: [...check.texts, ...state.texts] } : state;
  }

  // After a trap the instance is dropped.
  async answer(question) {
    try {
      return this.ask(question);
    } catch (error) {
      await this.start();
      return { code: -1, texts: [], error: String(error) };
    }
  }
}

if (typeof module !== "undefined") module.exports = { Judge };
