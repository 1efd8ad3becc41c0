/** The picture of the video chip: 128 lines of 64 dots, in which two or four lines after each other may be alike. */

import { LINES } from './base.js';

/**
 * Makes a picture as large as there is room for, in whole steps of the display's own points. A dot is four lines wide.
 * @param {HTMLCanvasElement} canvas
 * @param {number} width @param {number} height The room, in points of the page.
 * @param {number} linesAlike How many lines after each other are alike: 4, 2 or 1. The fewer they are, the larger a step is.
 */
export function fit(canvas, width, height, linesAlike) {
  const ratio = devicePixelRatio, step = 4 / linesAlike, most = Math.min(width * ratio / 64, height * ratio / 32);
  const dot = Math.max(step, Math.floor(most / step) * step) / ratio;
  Object.assign(canvas.style, { width: `${64 * dot}px`, height: `${32 * dot}px` });
}

/** @param {Uint8Array} bytes @param {number} dot @returns {number} 1 if the dot is lit. */
export const isLit = (bytes, dot) => bytes[dot >> 3] >> 7 - dot % 8 & 1;

/** Draws a picture in white on black. @param {HTMLCanvasElement} canvas @param {Uint8Array} bytes */
export function drawDots(canvas, bytes) {
  const dots = new ImageData(64, LINES), colours = new Uint32Array(dots.data.buffer);
  for (let dot = 0; dot < colours.length; dot++) colours[dot] = isLit(bytes, dot) ? 0xFFFFFFFF : 0xFF000000;
  canvas.getContext('2d').putImageData(dots, 0, 0);
}

/** @param {Uint8Array} bytes @returns {string} The dots as text: a line of it for four lines that are alike throughout, or for two, or for each. */
export function dotsAsText(bytes) {
  const digits = line => Array.from(bytes.subarray(8 * line, 8 * line + 8), byte => byte.toString(2).padStart(8, '0')).join('');
  const lines = Array.from({ length: LINES }, (_, line) => digits(line));
  const height = [4, 2, 1].find(height => lines.every((line, at) => line === lines[at - at % height]));
  return lines.filter((_, at) => at % height === 0).join('\n').replaceAll('0', '.').replaceAll('1', '#');
}
