/** The screen: the last finished picture, in colours, with afterglow. */

import { BYTES, LINES, get } from '../common/base.js';
import { fit, isLit } from '../common/picture.js';

/** The colours to choose from: a name, that of an unlit dot, and that of a lit one. */
export const COLOURS = [
  ['White', '#000000', '#ffffff'], ['Green', '#02130a', '#5dff8f'], ['Amber', '#140a00', '#ffb547'], ['Blue', '#0b1f4b', '#b9d6ff'], ['Paper', '#e9e5d8', '#1d1c19'],
];

const parse = colour => [1, 3, 5].map(at => parseInt(colour.slice(at, at + 2), 16));

// How many shades an afterglow has between an unlit and a lit dot.
const SHADES = 64;

export class Screen {
  constructor() {
    this.canvas = get('picture');
    this.context = this.canvas.getContext('2d');
    this.dots = new ImageData(64, LINES);
    this.pixels = new Uint32Array(this.dots.data.buffer);
    this.light = new Uint8Array(64 * LINES);
    this.shades = new Uint32Array(SHADES + 1);
    this.drawn = new Uint8Array(BYTES);
    this.isSettled = false;
    this.glow = 0;
    this.alike = 4;
    this.setColours(0);
    new ResizeObserver(() => this.fit()).observe(get('screen'));
  }

  setColours(number) {
    const [, dark, lit] = COLOURS[number] ?? COLOURS[0], bytes = new Uint8ClampedArray(this.shades.buffer);
    this.dark = parse(dark);
    this.lit = parse(lit);
    for (let shade = 0; shade <= SHADES; shade++) {
      const mixed = this.dark.map((channel, at) => channel + (this.lit[at] - channel) * shade / SHADES);
      bytes.set([...mixed, 255], 4 * shade);
    }
    this.isSettled = false;
    get('screen').style.background = dark;
  }

  /** Makes the picture as large as there is room for. @param {number} [alike] How many lines are alike: 4, 2 or 1. */
  fit(alike = this.alike) {
    this.alike = alike;
    const { clientWidth, clientHeight } = get('screen'), { paddingLeft, paddingTop } = getComputedStyle(get('screen'));
    fit(this.canvas, clientWidth - 2 * parseFloat(paddingLeft), clientHeight - 2 * parseFloat(paddingTop), alike);
  }

  /** Draws a picture. @param {Uint8Array} bytes @param {boolean} isNext Whether it comes after the one that was drawn last. */
  draw(bytes, isNext) {
    const { light, pixels, shades, drawn } = this, glow = isNext ? this.glow : 0;
    if (this.isSettled && bytes.every((byte, at) => byte === drawn[at])) return;
    let isGlowing = false;
    for (let at = 0, dot = 0; at < BYTES; at++) {
      const byte = bytes[at];
      for (let bit = 0x80; bit; bit >>= 1, dot++) {
        const now = byte & bit ? SHADES : Math.floor(glow * light[dot]);
        if (now > 0 && now < SHADES) isGlowing = true;
        light[dot] = now;
        pixels[dot] = shades[now];
      }
    }
    drawn.set(bytes);
    this.isSettled = !isGlowing;
    this.context.putImageData(this.dots, 0, 0);
  }

  /** @param {Uint8Array} bytes @returns {Promise<Blob>} The picture as PNG, a dot as a square of eight points. */
  png(bytes) {
    const canvas = new OffscreenCanvas(512, 256), context = canvas.getContext('2d'), colour = channels => `rgb(${channels.join(' ')})`;
    context.fillStyle = colour(this.dark);
    context.fillRect(0, 0, 512, 256);
    context.fillStyle = colour(this.lit);
    for (let dot = 0; dot < 64 * LINES; dot++) if (isLit(bytes, dot)) context.fillRect(dot % 64 * 8, (dot >> 6) * 2, 8, 2);
    return canvas.convertToBlob({ type: 'image/png' });
  }
}
