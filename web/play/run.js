/**
 * A run that can go back. It keeps snapshots of the device, the cycle at which each picture was finished, and the keys
 * by the cycle. So it reaches every earlier point again by the same calls.
 */

import { CLOCK, END, FRAME, MOST } from '../common/base.js';
import { Tape } from './tape.js';

/** How many pictures lie between two snapshots, and how many of the last pictures stay reachable: ten minutes. */
const APART = 30, REACH = 10 * 60 * 60;
/** How far a run to a place may go, in cycles: one minute. A step is over sooner, except one that waits for a key. */
const LOOK = 60 * CLOCK, STEP = 8 * FRAME;
/** How long after a picture a stretch of the run ends that looks for something. */
const AFTER = 64;

export class Run {
  /**
   * @param {import('./device.js').Device} device A device that was set up, at the cycle where the run begins.
   * @param {Tape} [tape] Keys that are pressed in it.
   */
  constructor(device, tape = new Tape()) {
    this.device = device;
    this.tape = tape;
    // The cycle of the beginning, and then of each finished picture. The snapshots are of every thirtieth of them.
    this.marks = [device.cycle];
    this.snapshots = [device.snapshot()];
    /** Called after each call of the device, with the cycle where it began. */
    this.watch = null;
    /** Why the run can't go on: `idle`, `stop`, or nothing. */
    this.ending = '';
    // Whether live keys replace what is on the tape.
    this.isLive = tape.changes.length === 0;
  }

  get cycle() { return this.device.cycle; }
  get start() { return this.marks[0]; }
  /** @returns {number} How many pictures were finished before the present cycle. */
  get frame() { return this.markAt(this.cycle); }
  /** @returns {number} How many pictures the run had so far, with those that were gone back over. */
  get frames() { return this.marks.length - 1; }
  /** @returns {number} The first picture that can still be gone back to. */
  get first() { return Math.max(0, this.frames - REACH); }

  // How many pictures were finished at or before a cycle.
  markAt(cycle) {
    let low = 0, high = this.marks.length;
    while (high - low > 1) {
      const middle = low + high >> 1;
      if (this.marks[middle] <= cycle) low = middle; else high = middle;
    }
    return low;
  }

  /** Holds these keys from the present cycle on. What was played after it before is overwritten. */
  hold(mask) {
    const cycle = this.cycle;
    if (this.isLive && this.tape.maskAt(cycle) === mask && this.tape.nextAfter(cycle) === Infinity) return;
    const mark = this.markAt(cycle);
    this.marks.length = mark + 1;
    this.snapshots.length = Math.floor(mark / APART) + 1;
    this.tape.record(cycle, mask);
    this.isLive = true;
  }

  // Makes one call of the device with the keys of the tape, up to the next change of keys at most, or to a limit.
  call(make, limit) {
    const before = this.cycle, change = this.tape.nextAfter(before), until = Math.min(limit, change, MOST);
    const pictures = this.device.pictures, reason = make(this.tape.maskAt(before), until);
    this.watch?.(before, this.cycle);
    if (this.device.pictures !== pictures && this.cycle > this.marks.at(-1)) this.mark();
    this.ending = reason === 'idle' || reason === 'stop' ? reason : this.cycle >= MOST - FRAME ? 'limit' : '';
    // (a limit that is only the next change of keys isn't the end of the call)
    return reason === 'limit' && until === change && change < limit ? 'keys' : reason;
  }

  // Notes that a picture was finished.
  mark() {
    this.marks.push(this.cycle);
    const number = this.frames;
    if (number % APART !== 0) return;
    this.snapshots.push(this.device.snapshot());
    const old = Math.floor((number - REACH) / APART) - 1;
    if (old > 0) this.snapshots[old] = null;
  }

  // Repeats a call as long as only a change of keys stops it.
  repeat(make, limit) {
    let reason = 'keys';
    while (reason === 'keys') reason = this.call(make, limit);
    return reason;
  }

  // A call that may pass the end of a picture is made up to a little after each one in turn, so that each is noted.
  repeatByFrames(make, limit) {
    for (;;) {
      const until = Math.min(limit, this.afterPicture()), reason = this.repeat(make, until);
      if (reason !== 'limit' || until === limit || this.ending) return reason;
    }
  }

  // A cycle after the next end of a picture and before the one after that.
  afterPicture() {
    return (Math.floor((this.cycle - END) / FRAME) + 1) * FRAME + END + AFTER;
  }

  /**
   * Runs to the next finished picture, or if the display is off for about a frame.
   * @returns {string} Why it stopped: `picture`, `idle`, `stop` or `limit`.
   */
  runFrame() {
    return this.asPicture(this.repeat((keys, limit) => this.device.frame(keys, limit), this.afterPicture()));
  }

  // The end of a frame counts as that of a picture.
  asPicture(reason) { return reason === 'limit' && !this.ending ? 'picture' : reason; }

  /**
   * Runs for about a frame, and stops at a place if one comes.
   * @param {{address: number, p: number}[]} places
   * @returns {string}
   */
  runFrameTo(places) {
    return this.asPicture(this.repeat((keys, limit) => this.device.runTo(keys, limit, places), this.afterPicture()));
  }

  /**
   * Runs a game for about a frame, opcode by opcode.
   * @param {(state: any) => void} look Called with the language state at each dispatch point.
   * @returns {string}
   */
  runFrameLooking(look) {
    const until = this.afterPicture();
    for (;;) {
      const reason = this.repeat((keys, limit) => this.device.opcode(keys, limit), until);
      if (reason !== 'dispatch') return this.asPicture(reason);
      look(this.device.state());
    }
  }

  /** Runs up to a cycle. @param {number} until @returns {string} */
  runUntil(until) {
    let reason = 'picture';
    while (reason === 'picture' && this.cycle < until) reason = this.repeat((keys, limit) => this.device.frame(keys, limit), until);
    return reason;
  }

  /** Runs to a place, for a minute at most. @param {{address: number, p: number}[]} places @returns {string} */
  runTo(places) {
    return this.repeatByFrames((keys, limit) => this.device.runTo(keys, limit, places), this.cycle + LOOK);
  }

  /** Steps on. @param {'frame' | 'opcode' | 'instruction'} unit @returns {string} */
  step(unit) {
    // (what is known comes again at the same cycle)
    if (unit === 'frame' && this.frame < this.frames) return this.go(this.marks[this.frame + 1]);
    if (unit === 'frame') return this.runFrame();
    if (unit === 'opcode' && this.device.isGame) return this.repeatByFrames((keys, limit) => this.device.opcode(keys, limit), this.cycle + STEP);
    return this.stepInstruction();
  }

  // Runs to the next instruction: DMA cycles, an interrupt and idle cycles belong to the step before it.
  stepInstruction() {
    let reason = this.repeat((keys, limit) => this.device.move(keys, limit), this.cycle + LOOK);
    while (reason === 'move' && !this.isAtInstruction()) reason = this.repeat((keys, limit) => this.device.move(keys, limit), this.cycle + LOOK);
    return reason;
  }

  isAtInstruction() { return !this.device.registers().idle; }

  /** Goes to a cycle of the run, back or on, by the nearest snapshot before it. @returns {string} Why it stopped there. */
  go(cycle) {
    const target = Math.max(this.start, cycle);
    if (target < this.cycle || target > this.cycle + APART * FRAME) this.restoreBefore(target);
    const reason = this.runUntil(target);
    return this.ending ? reason : 'picture';
  }

  // Takes the last snapshot at or before a cycle.
  restoreBefore(cycle) {
    let at = Math.floor(this.markAt(cycle) / APART);
    while (at > 0 && !this.snapshots[at]) at--;
    this.device.restore(this.snapshots[at]);
    this.ending = '';
  }

  /** Goes to the end of a picture. @param {number} frame Its number from the beginning of the run. */
  goFrame(frame) {
    this.go(this.marks[Math.max(0, Math.min(frame, this.frames))]);
  }

  /** Steps back. @param {'frame' | 'opcode' | 'instruction'} unit */
  back(unit) {
    const here = this.cycle;
    if (here <= this.start) return;
    if (unit === 'frame' || unit === 'opcode' && !this.device.isGame) {
      const frame = this.frame;
      this.goFrame(this.marks[frame] === here ? frame - 1 : frame);
      return;
    }
    // (the last point before this one is found by going on from a place some way before, farther each time)
    for (let away = unit === 'opcode' ? FRAME : 64; ; away *= 8) {
      this.go(here - away);
      const found = this.lastBefore(here, unit);
      if (found !== null || this.cycle <= this.start || here - away <= this.start) {
        this.go(found ?? this.start);
        return;
      }
    }
  }

  // The cycle of the last step before a cycle, from the present point on.
  lastBefore(here, unit) {
    let found = null;
    if (this.isStep(unit) && this.cycle < here) found = this.cycle;
    while (this.cycle < here) {
      const reason = this.step(unit);
      // (an opcode that waits for a key isn't over yet)
      if (reason === 'limit' && !this.ending) continue;
      if (this.cycle < here) found = this.cycle;
      if (reason === 'idle' || reason === 'stop' || reason === 'limit') break;
    }
    return found;
  }

  // Whether a step of this unit can begin at the present point.
  isStep(unit) {
    return this.cycle === this.start || (unit === 'opcode' ? this.device.state().isAtPoint : this.isAtInstruction());
  }
}
