/** The keys of a run, by the machine cycle: what was pressed so far, and what is still to come after going back. */

import { KEYS, MOST, hex } from '../common/base.js';

/** @typedef {{cycle: number, mask: number}} Change From this cycle on exactly these keys are down, a bit for each. */

export class Tape {
  constructor() {
    /** @type {Change[]} */
    this.changes = [];
  }

  /** @param {number} cycle @returns {number} How many changes come at or before this cycle. */
  countUntil(cycle) {
    let low = 0, high = this.changes.length;
    while (low < high) {
      const middle = low + high >> 1;
      if (this.changes[middle].cycle <= cycle) low = middle + 1; else high = middle;
    }
    return low;
  }

  /** @param {number} cycle @returns {number} The keys that are down in this cycle. */
  maskAt(cycle) {
    return this.changes[this.countUntil(cycle) - 1]?.mask ?? 0;
  }

  /** @param {number} cycle @returns {number} The cycle of the first change after this cycle, or Infinity. */
  nextAfter(cycle) {
    return this.changes[this.countUntil(cycle)]?.cycle ?? Infinity;
  }

  /** @returns {number} The cycle of the last change, or 0. */
  get end() {
    return this.changes.at(-1)?.cycle ?? 0;
  }

  /** Holds these keys from a cycle on. What was on the tape at and after this cycle is overwritten. */
  record(cycle, mask) {
    this.changes.length = this.countUntil(cycle - 1);
    if (this.maskAt(cycle) !== mask) this.changes.push({ cycle, mask });
  }

  /** @returns {{cycle: number, isDown: boolean, key: string}[]} What goes down and up, in the order of a key script. */
  events() {
    const events = [];
    let before = 0;
    for (const { cycle, mask } of this.changes) {
      for (let key = 0; key < 16; key++) {
        if ((before ^ mask) >> key & 1) events.push({ cycle, isDown: Boolean(mask >> key & 1), key: hex(key, 1) });
      }
      before = mask;
    }
    return events;
  }

  /** @param {number} [until] @returns {string} The key script of what is on the tape before this cycle. */
  script(until = Infinity) {
    const events = this.events().filter(({ cycle }) => cycle < until);
    return events.map(({ cycle, isDown, key }) => `${cycle} ${isDown ? 'down' : 'up'} ${key}\n`).join('');
  }

  /**
   * Puts the events of a key script on an empty tape.
   * @param {{cycle: number, isDown: boolean, key: string}[]} events
   * @returns {Tape}
   */
  static of(events) {
    const tape = new Tape();
    let mask = 0;
    for (const { cycle, isDown, key } of events) {
      const bit = 1 << parseInt(key, 16);
      mask = isDown ? mask | bit : mask & ~bit;
      tape.record(cycle, mask);
    }
    return tape;
  }
}

/** The keys of a mask as they are written in a sentence. @param {number} mask @returns {string} */
export const keysOf = mask => [...KEYS].filter(key => mask >> parseInt(key, 16) & 1).sort().join(' ');

/** The number of keys down that a key script can name at most, and its last cycle. */
export const LAST_CYCLE = MOST;
