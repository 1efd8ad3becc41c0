/** A run in the address of the player's page: what is played, its keys, and the cycle to begin at. */

import { pipe } from './base.js';

const toBase64 = bytes => btoa(Array.from(bytes, byte => String.fromCharCode(byte)).join('')).replaceAll('+', '-').replaceAll('/', '_').replace(/=+$/, '');

/**
 * The parts of a page's address that say what is played.
 * @param {{kind: string, name: string, bytes: Uint8Array, isTall?: boolean}} game
 * @param {string} script The key script.
 * @param {number} [at] The machine cycle to begin at.
 * @returns {Promise<string>} The fragment, without its `#`.
 */
export async function fragmentOf(game, script, at = 0) {
  const packed = bytes => pipe(bytes, new CompressionStream('deflate-raw')).then(toBase64), parts = [`game=${await packed(game.bytes)}`, `name=${encodeURIComponent(game.name)}`];
  if (game.kind !== 'game') parts.push(`kind=${game.kind}`);
  if (game.isTall) parts.push('tall');
  if (script) parts.push(`keys=${await packed(new TextEncoder().encode(script))}`);
  if (at > 0) parts.push(`at=${at}`);
  return parts.join('&');
}

/** @param {string} text @returns {Promise<Uint8Array>} The bytes of a part of an address. */
export function unpackPart(text) {
  const letters = atob(text.replaceAll('-', '+').replaceAll('_', '/'));
  return pipe(Uint8Array.from(letters, letter => letter.charCodeAt(0)), new DecompressionStream('deflate-raw'));
}
