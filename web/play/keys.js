/** The sixteen keys, from a keyboard, from touch and mouse, and from a gamepad. */

import { KEYS, get, make } from '../common/base.js';

/** The usual block of a keyboard, by the places of its keys, in the order of the keypad. */
const BLOCK = ['Digit1', 'Digit2', 'Digit3', 'Digit4', 'KeyQ', 'KeyW', 'KeyE', 'KeyR', 'KeyA', 'KeyS', 'KeyD', 'KeyF', 'KeyZ', 'KeyX', 'KeyC', 'KeyV'];
/** How long a key stays marked after the game read it, in milliseconds. */
const READ_MARKED = 1000;
/** The button of a gamepad beyond which a stick counts as pushed. */
const PUSHED = 0.5;

/** The key of a keyboard event: with Shift by its name, else by its place in the block or on the number pad. */
function keyOf(event) {
  if (event.ctrlKey || event.altKey || event.metaKey) return -1;
  const digit = /^Numpad([0-9])$/.exec(event.code)?.[1] ?? (event.shiftKey ? /^(?:Digit([0-9])|Key([A-F]))$/.exec(event.code)?.slice(1).find(Boolean) : undefined);
  if (digit !== undefined) return parseInt(digit, 16);
  const at = event.shiftKey ? -1 : BLOCK.indexOf(event.code);
  return at < 0 ? -1 : parseInt(KEYS[at], 16);
}

export class Keys {
  /** @param {() => void} changed Called whenever a key went down or up. */
  constructor(changed) {
    this.changed = changed;
    // What holds keys down: each keyboard key and each finger, by its name.
    this.holders = new Map();
    this.readAt = new Float64Array(16).fill(-Infinity);
    // The keys for up, right, down and left on a gamepad.
    this.directions = '2684';
    this.buttons = new Map();
    this.build();
    this.listen();
  }

  /** @returns {number} The keys that are held down, a bit for each. */
  get mask() {
    let mask = 0;
    for (const key of this.holders.values()) mask |= 1 << key;
    return mask;
  }

  build() {
    for (const name of KEYS) {
      const key = parseInt(name, 16), button = make('button', { type: 'button', textContent: name, ariaPressed: 'false' });
      button.setAttribute('aria-label', `Key ${name}`);
      button.dataset.key = String(key);
      this.buttons.set(key, button);
      get('keypad').append(button);
    }
  }

  listen() {
    const pad = get('keypad');
    pad.addEventListener('pointerdown', event => this.point(event, true));
    pad.addEventListener('pointermove', event => this.holders.has(`pointer ${event.pointerId}`) && this.point(event, true));
    for (const kind of ['pointerup', 'pointercancel']) addEventListener(kind, event => this.point(event, false));
    pad.addEventListener('contextmenu', event => event.preventDefault());
    pad.addEventListener('keydown', event => this.pressFocused(event, true));
    pad.addEventListener('keyup', event => this.pressFocused(event, false));
    addEventListener('keydown', event => this.type(event, true));
    addEventListener('keyup', event => this.type(event, false));
    addEventListener('blur', () => this.releaseAll());
    document.addEventListener('visibilitychange', () => document.hidden && this.releaseAll());
  }

  // A finger or the mouse on the keypad: it holds the key under it.
  point(event, isDown) {
    const holder = `pointer ${event.pointerId}`;
    if (!isDown) return this.set(holder, -1);
    const under = document.elementFromPoint(event.clientX, event.clientY)?.closest('[data-key]');
    event.preventDefault();
    return this.set(holder, under ? +under.dataset.key : -1);
  }

  // Enter on a key of the keypad that has the focus presses it.
  pressFocused(event, isDown) {
    if (event.key !== 'Enter' || !event.target.dataset.key) return;
    event.preventDefault();
    this.set('focus', isDown ? +event.target.dataset.key : -1);
  }

  type(event, isDown) {
    const holder = `keyboard ${event.code}`;
    if (!isDown) return this.set(holder, -1);
    if (event.repeat || event.target.matches?.('input[type=text], select, textarea')) return undefined;
    const key = keyOf(event);
    if (key < 0) return undefined;
    event.preventDefault();
    return this.set(holder, key);
  }

  /** Takes the buttons of the gamepads. It is called once for each frame. */
  poll() {
    const pads = navigator.getGamepads?.() ?? [], [up, right, down, left] = [...this.directions].map(key => parseInt(key, 16));
    let isUp = false, isRight = false, isDown = false, isLeft = false, first = false, second = false;
    for (const pad of pads) {
      if (!pad) continue;
      const [x = 0, y = 0] = pad.axes, on = at => pad.buttons[at]?.pressed;
      isUp ||= on(12) || y < -PUSHED; isDown ||= on(13) || y > PUSHED; isLeft ||= on(14) || x < -PUSHED; isRight ||= on(15) || x > PUSHED;
      first ||= on(0); second ||= on(1);
    }
    const set = (name, is, key) => this.set(`gamepad ${name}`, is ? key : -1);
    set('up', isUp, up); set('right', isRight, right); set('down', isDown, down); set('left', isLeft, left);
    set('first', first, this.directions === '2684' ? 5 : 6); set('second', second, 0);
  }

  set(holder, key) {
    if ((this.holders.get(holder) ?? -1) === key) return;
    if (key < 0) this.holders.delete(holder); else this.holders.set(holder, key);
    this.changed();
  }

  releaseAll() {
    this.holders.clear();
    this.changed();
  }

  /** Notes that the game reads a key. */
  note(key) { this.readAt[key] = performance.now(); }

  /** Shows which keys are down, and which ones the game reads. @param {number} mask */
  show(mask) {
    const now = performance.now(), read = this.readAt.reduce((bits, at, key) => (now - at < READ_MARKED ? bits | 1 << key : bits), 0);
    if (mask === this.shown && read === this.shownRead) return;
    Object.assign(this, { shown: mask, shownRead: read });
    for (const [key, button] of this.buttons) {
      button.setAttribute('aria-pressed', String(Boolean(mask >> key & 1)));
      button.classList.toggle('read', Boolean(read >> key & 1));
    }
  }
}
