/** The board as a device: the module vip.wasm, as include/vip_device.h describes it. */

import { BYTES, refuse } from '../common/base.js';

// The sizes of the structs and the places of their fields, in bytes. docs/C.md has the structs.
const SIZE = 9424, STATE = 570, BOARD_STATE = 6195;
/** The size of a saved state of a game. That of the board is larger. */
export const GAME_STATE = 4147;
const AT = { cycle: 0, pictures: 8, frame: 16, turns: 24, turnCount: 1048, kind: 1052, place: 1053, registers: 1056, picture: 1104, ram: 3280, rom: 7376 };
const MOST_TURNS = 128, PAGE = 65536;

/** Why a call stopped, by its number. */
const REASONS = {
  0: 'limit', 1: 'picture', 2: 'place', 3: 'idle', 4: 'dispatch', 21: 'move', 22: 'move', 23: 'move', 24: 'move',
};
/** The names of the stops of a game. */
const STOPS = {
  11: 'MachineCall', 12: 'Unknown', 13: 'FetchOutside', 14: 'ReadOutside', 15: 'WriteOutside', 16: 'StackFull', 17: 'StackEmpty',
};
/** What an error means, in a sentence for the reader. */
const ERRORS = {
  '-1': 'This file has the wrong size.', '-2': 'These bytes don’t fit into memory.', '-3': 'A number is out of its range.',
  '-4': 'This file is no saved state of vip.', '-5': 'This saved state names no variant.', '-6': 'This saved state has a cycle that it can’t have.',
  '-7': 'This saved state has registers that it can’t have.', '-8': 'The board runs no game.',
};

/**
 * Makes the functions that make devices.
 * @param {Uint8Array} bytes The module.
 * @returns {Promise<() => Device>}
 */
export async function loadModule(bytes) {
  const { instance } = await WebAssembly.instantiate(bytes, {});
  const calls = /** @type {any} */ (instance.exports), base = Number(calls.__heap_base.value);
  // One device, and after it room for what a call reads or writes.
  const wanted = base + SIZE + PAGE, has = calls.memory.buffer.byteLength;
  if (has < wanted) calls.memory.grow(BigInt(Math.ceil((wanted - has) / PAGE)));
  if (Number(calls.vip_device_size()) !== SIZE) refuse('The module has a device of another size than this page.');
  return () => new Device(calls, base + 7 & ~7);
}

export class Device {
  /** @param {any} calls @param {number} base The address of the struct. */
  constructor(calls, base) {
    this.calls = calls;
    this.base = base;
    this.pointer = BigInt(base);
    this.rest = base + SIZE + 8;
    this.view = new DataView(calls.memory.buffer, base, SIZE);
    this.bytes = new Uint8Array(calls.memory.buffer, base, SIZE);
    this.buffer = new Uint8Array(calls.memory.buffer, this.rest, PAGE - 64);
    /** The name of the stop of a game, if the last call ended at one. */
    this.stopName = '';
  }

  get cycle() { return Number(this.view.getBigUint64(AT.cycle, true)); }
  get pictures() { return Number(this.view.getBigUint64(AT.pictures, true)); }
  get isGame() { return this.view.getUint8(AT.kind) > 0; }
  get isTall() { return this.view.getUint8(AT.kind) === 2; }
  /** @returns {Uint8Array} The last finished picture: 128 lines of 8 bytes. It changes with the next call. */
  get picture() { return this.bytes.subarray(AT.picture, AT.picture + BYTES); }
  get ram() { return this.bytes.subarray(AT.ram, AT.ram + 4096); }
  get place() { return this.view.getUint8(AT.place); }
  get latchedKey() { return this.view.getUint8(AT.registers + 42); }

  /** @returns {number[]} The cycles at which Q changed in the last call. */
  get turns() {
    const count = Math.min(MOST_TURNS, this.view.getUint32(AT.turnCount, true));
    return Array.from({ length: count }, (_, at) => Number(this.view.getBigUint64(AT.turns + 8 * at, true)));
  }

  get q() { return this.view.getUint8(AT.registers + 37); }

  // Puts bytes where a call reads them. Answers the two parameters of a slice.
  slice(bytes) {
    this.buffer.set(bytes);
    return [BigInt(this.rest), BigInt(bytes.length)];
  }

  // What a call that can't stop answers: 0 or a length, or an error, which is thrown as a sentence.
  done(result) {
    if (result < 0) refuse(ERRORS[result] ?? `error ${result}`);
    return result;
  }

  // Why a call that runs the board stopped.
  reason(result) {
    this.stopName = STOPS[result] ?? '';
    return this.stopName ? 'stop' : REASONS[this.done(result)];
  }

  game(bytes, isTall) { this.done(this.calls.vip_device_game(this.pointer, ...this.slice(bytes), isTall ? 1 : 0)); }
  reset(rom, isLatched) { this.done(this.calls.vip_device_reset(this.pointer, ...this.slice(rom), isLatched ? 1 : 0)); }
  write(address, bytes) { this.done(this.calls.vip_device_write(this.pointer, address, ...this.slice(bytes))); }
  load(bytes) { this.done(this.calls.vip_device_load(this.pointer, ...this.slice(bytes))); }

  run(keys, limit) { return this.reason(this.calls.vip_device_run(this.pointer, keys, BigInt(limit))); }
  frame(keys, limit) { return this.reason(this.calls.vip_device_frame(this.pointer, keys, BigInt(limit))); }
  opcode(keys, limit) { return this.reason(this.calls.vip_device_opcode(this.pointer, keys, BigInt(limit))); }
  move(keys, limit) { return this.reason(this.calls.vip_device_move(this.pointer, keys, BigInt(limit))); }

  /** @param {{address: number, p: number}[]} places At most 8. A P of 255 is any. */
  runTo(keys, limit, places) {
    const bytes = places.flatMap(({ address, p }) => [address & 0xFF, address >> 8, p, 0]);
    this.buffer.set(bytes);
    return this.reason(this.calls.vip_device_run_to(this.pointer, keys, BigInt(limit), BigInt(this.rest), BigInt(places.length)));
  }

  /** @returns {Uint8Array} Bytes as the processor reads them. */
  read(address, length) {
    const count = Math.min(length, 0x10000 - address);
    this.done(this.calls.vip_device_read(this.pointer, address, BigInt(this.rest), BigInt(count)));
    return this.buffer.slice(0, count);
  }

  /** The processor, the switches of the board and the latched key. */
  registers() {
    const at = AT.registers, byte = offset => this.view.getUint8(at + offset);
    const [d, df, p, x, t, q, ie, idle, latch, display, key] = Array.from({ length: 11 }, (_, offset) => byte(32 + offset));
    return { r: Array.from({ length: 16 }, (_, number) => this.view.getUint16(at + 2 * number, true)), d, df, p, x, t, q, ie, idle, latch, display, key };
  }

  /** The CHIP-8 state of a game. */
  state() {
    this.done(this.calls.vip_device_state(this.pointer, BigInt(this.rest)));
    const view = new DataView(this.calls.memory.buffer, this.rest, STATE), byte = offset => view.getUint8(offset), word = offset => view.getUint16(offset, true);
    return {
      pc: word(0), i: word(2), opcode: word(4), ticks: word(6), stack: Array.from({ length: byte(35) }, (_, at) => word(8 + 2 * at)),
      hasOpcode: byte(34) === 1, v: Array.from({ length: 16 }, (_, at) => byte(36 + at)), dt: byte(52), st: byte(53), tone: byte(54),
      isAtPoint: byte(56) === 1, stop: STOPS[byte(57)] ?? '',
    };
  }

  // The text that a call wrote.
  text(length) {
    return String.fromCharCode(...this.buffer.subarray(0, this.done(length)));
  }

  opcodeText(opcode) { return this.text(this.calls.vip_device_opcode_text(opcode, BigInt(this.rest), 16n)); }
  instructionText(address) { return this.text(this.calls.vip_device_instruction_text(this.pointer, address, BigInt(this.rest), 16n)); }

  /** @returns {Uint8Array} A saved state: of a game at a dispatch point in format 1, else in format 2. */
  save() {
    const call = (format, length) => this.calls.vip_device_save(this.pointer, format, BigInt(this.rest), BigInt(length));
    const short = this.isGame ? call(1, GAME_STATE) : -8;
    return this.buffer.slice(0, short > 0 ? short : this.done(call(2, BOARD_STATE)));
  }

  snapshot() { return this.bytes.slice(); }
  restore(snapshot) { this.bytes.set(snapshot); }
}
