/** What the pages share: elements, numbers, files, and the board's times. */

/** The length of a frame, and the places in it where its picture begins and ends, in machine cycles. */
export const FRAME = 3668, BEGIN = 1092, END = 2912;
/** Machine cycles per second, and the highest cycle that a key script and a limit may name. */
export const CLOCK = 60 * FRAME, MOST = 4000000000;
/** A picture as the video chip shows it: its lines, its bytes, and what comes before them in a file. */
export const LINES = 128, BYTES = 8 * LINES, HEAD = 'P4\n64 128\n', PICTURE = HEAD.length + BYTES;
/** The keys in the order in which they are on the keypad. */
export const KEYS = '123C456D789EA0BF';

/** @param {string} id @returns {any} The element of this id. */
export const get = id => document.getElementById(id);

/** @param {number} number @returns {string} The number with commas between thousands. */
export const group = number => number.toLocaleString('en');

/** @param {number} number @param {string} thing @returns {string} "1 line", "2 lines". */
export const many = (number, thing) => `${group(number)} ${thing}${number === 1 ? '' : 's'}`;

/** @param {number} number @param {number} [digits] @returns {string} The number in upper-case hexadecimal digits. */
export const hex = (number, digits = 2) => number.toString(16).toUpperCase().padStart(digits, '0');

/** Ends what is under way with a sentence for the reader. @param {string} sentence @returns {never} */
export const refuse = sentence => { throw new Error(sentence); };

const escapeLetter = letter => `\\x${hex(letter.charCodeAt(0))}`;

/** @param {string} text @returns {string} The text in quotes, without control characters, at most 200 letters of it. */
export const quote = text => `“${text.slice(0, 200).replace(/[\0-\x1F\x7F\uFEFF\uFFFD]/g, escapeLetter)}${text.length > 200 ? '…' : ''}”`;

/**
 * Makes an element.
 * @param {string} tag
 * @param {object} [properties]
 * @param {...(Node | string)} children
 * @returns {any}
 */
export function make(tag, properties = {}, ...children) {
  const made = Object.assign(document.createElement(tag), properties);
  made.append(...children);
  return made;
}

/**
 * Shows a number on a slider, whose track is filled up to it.
 * @param {HTMLInputElement} slider
 * @param {{least: number, most: number, value: number, text: string}} shown The text is for screen readers.
 */
export function setSlider(slider, { least, most, value, text }) {
  Object.assign(slider, { min: least, max: most, value, ariaValueText: text });
  slider.style.setProperty('--at', `${100 * (value - least) / Math.max(1, most - least)}%`);
}

/** Hands bytes or a text to the reader as a file. @param {string} name @param {BlobPart} content */
export function download(name, content) {
  const link = make('a', { download: name, href: URL.createObjectURL(new Blob([content])) });
  link.click();
  setTimeout(() => URL.revokeObjectURL(link.href), 60000);
}

/** @param {string} text @returns {Uint8Array} The bytes that a text in base64 stands for. */
export const fromBase64 = text => /** @type {any} */ (Uint8Array).fromBase64?.(text) ?? Uint8Array.from(atob(text), letter => letter.charCodeAt(0));

/**
 * Sends bytes through a stream that packs or unpacks them.
 * @param {Uint8Array} bytes
 * @param {GenericTransformStream} stream
 * @returns {Promise<Uint8Array>}
 */
export async function pipe(bytes, stream) {
  const writer = stream.writable.getWriter(), whole = new Response(stream.readable).arrayBuffer();
  await Promise.all([writer.write(bytes), writer.close(), whole]);
  return new Uint8Array(await whole);
}

/** @typedef {{cycle: number, isDown: boolean, key: string}} KeyEvent A key that goes down or up at a machine cycle. */

/**
 * Reads a key script.
 * @param {string} text
 * @param {string} name What to call it in a sentence.
 * @returns {{text: string, events: KeyEvent[]}}
 */
export function readKeys(text, name) {
  const events = [];
  text.split('\n').forEach((line, at) => {
    if (/^\s*(#|$)/.test(line)) return;
    const [, cycle, way, key] = /^[ \t]*(\d+)[ \t]+(down|up)[ \t]+([0-9A-Fa-f])[ \t]*\r?$/.exec(line) || [], last = events.at(-1)?.cycle ?? 0;
    if (!key || +cycle > MOST) refuse(`${name} is no key script of vip: its line ${group(at + 1)} is ${quote(line)}`);
    if (+cycle < last) refuse(`${name} is no key script of vip: its line ${group(at + 1)} comes before the one above it`);
    events.push({ cycle: +cycle, isDown: way === 'down', key: key.toUpperCase() });
  });
  return { text, events };
}
