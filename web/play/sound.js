/** The tone: a square wave while Q is 1, from the cycle of each change on. */

import { CLOCK } from '../common/base.js';

/** The frequency of the tone (our choice), and its loudness. */
const TONE = 1400, LOUDNESS = 0.12;
/** How long before it is heard a stretch of sound is handed over, in seconds, and how long it may be. */
const AHEAD = 0.06, LONGEST = 0.2;

/**
 * The samples of a stretch of a run.
 * @param {number} from @param {number} to Its first cycle, and the one after its last.
 * @param {number} q Q at its beginning, 0 or 1.
 * @param {number[]} turns The cycles at which Q changes.
 * @param {number} rate Samples per second.
 * @returns {Float32Array} Sample n is of cycle from + n * CLOCK / rate.
 */
export function samplesOf(from, to, q, turns, rate) {
  const samples = new Float32Array(Math.round((to - from) * rate / CLOCK));
  let at = 0, isOn = q;
  for (let sample = 0; sample < samples.length; sample++) {
    const cycle = from + sample * CLOCK / rate;
    while (at < turns.length && turns[at] <= cycle) { isOn ^= 1; at++; }
    if (isOn) samples[sample] = cycle * 2 * TONE / CLOCK % 2 < 1 ? LOUDNESS : -LOUDNESS;
  }
  return samples;
}

export class Sound {
  constructor() {
    this.isOn = false;
    this.context = null;
    this.next = 0;
  }

  /** Switches the sound on or off. A browser allows it only after a click or a key. */
  toggle() {
    this.isOn = !this.isOn;
    if (this.isOn) this.context ??= new AudioContext({ latencyHint: 'interactive' });
    if (this.isOn) this.context.resume(); else this.context?.suspend();
    this.next = 0;
    return this.isOn;
  }

  /** Plays a stretch of the run after the one before it. The parameters are those of samplesOf. */
  play(from, to, q, turns) {
    if (!this.isOn || to - from > LONGEST * CLOCK || to <= from) return;
    const { context } = this, samples = samplesOf(from, to, q, turns, context.sampleRate);
    if (samples.length === 0) return;
    const buffer = context.createBuffer(1, samples.length, context.sampleRate), source = context.createBufferSource();
    buffer.copyToChannel(samples, 0);
    Object.assign(source, { buffer }).connect(context.destination);
    const earliest = context.currentTime + 0.005;
    // (after a pause, and if the page was late, the sound begins anew a little ahead)
    if (this.next < earliest || this.next > context.currentTime + 4 * AHEAD) this.next = context.currentTime + AHEAD;
    source.start(this.next);
    this.next += samples.length / context.sampleRate;
  }
}
