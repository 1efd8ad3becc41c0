/** What is inside the board: the language state, the processor, memory, and the place in the frame. */

import { BEGIN, END, FRAME, get, hex, make } from '../common/base.js';

/** How many bytes of memory are shown, how many stand in a row, and how long a changed byte stays marked, in pictures. */
const BYTES_SHOWN = 128, ROW_BYTES = 8, BYTE_MARKED = 20;
/** The interrupt of a frame comes at this cycle of it. The interpreter's routine is then at work up to the end of the picture. */
const INTERRUPT = BEGIN - 28;

export class Inside {
  constructor() {
    this.before = new Map();
    this.memory = { from: -1, bytes: new Uint8Array(0), marked: new Map() };
    this.draws = 0;
    const [interrupt, window, here] = get('position').children, place = (part, from, to) =>
      Object.assign(part.style, { left: `${100 * from / FRAME}%`, width: `${100 * (to - from) / FRAME}%` });
    place(interrupt, INTERRUPT, END);
    place(window, BEGIN, END);
    this.here = here;
    get('to-p').append(...Array.from({ length: 16 }, (_, p) => make('option', { value: String(p) }, hex(p, 1))));
  }

  /** @returns {boolean} Whether the panel is open. */
  get isOpen() { return !get('inside').hidden; }

  /** Shows the board. @param {import('./device.js').Device} device */
  show(device) {
    if (!this.isOpen) return;
    this.draws++;
    this.showPosition(device.cycle % FRAME);
    get('language').hidden = !device.isGame;
    if (device.isGame) this.showLanguage(device);
    this.showProcessor(device);
    this.showMemory(device);
  }

  showPosition(cycle) {
    this.here.style.left = `${100 * cycle / FRAME}%`;
    const part = cycle >= BEGIN && cycle < END ? 'while the picture is sent' : cycle >= INTERRUPT && cycle < BEGIN ? 'just before the picture' : 'outside the picture';
    get('position').setAttribute('aria-label', `Cycle ${cycle} of 3,668 of the frame, ${part}`);
  }

  // Shows names with values, and marks those that differ from the last time.
  cells(place, values) {
    const parent = get(place);
    while (parent.childElementCount > values.length) parent.lastChild.remove();
    values.forEach(([name, value], at) => {
      let cell = parent.children[at];
      if (!cell) parent.append(cell = make('span', {}, make('b'), make('span')));
      const known = `${place} ${name}`, was = this.before.get(known);
      cell.firstChild.textContent = name;
      cell.lastChild.textContent = value;
      cell.classList.toggle('changed', was !== undefined && was !== value);
      this.before.set(known, value);
    });
  }

  showLanguage(device) {
    const state = device.state();
    get('opcode').textContent = `${hex(state.pc, 4)}  ${state.hasOpcode ? hex(state.opcode, 4) : '----'}`;
    get('opcode-words').textContent = state.hasOpcode ? device.opcodeText(state.opcode) : 'outside game memory';
    this.cells('variables', state.v.map((value, at) => [`V${hex(at, 1)}`, hex(value)]));
    this.cells('language-rest', [['I', hex(state.i, 4)], ['DT', hex(state.dt)], ['ST', hex(state.st)], ['pc', hex(state.pc, 4)],
      ...Array.from({ length: 12 }, (_, at) => [`S${hex(at, 1)}`, at < state.stack.length ? hex(state.stack[at], 4) : '····'])]);
  }

  showProcessor(device) {
    const { r, d, df, p, x, t, q, ie, idle, latch, display, key } = device.registers();
    get('instruction').textContent = hex(r[p], 4);
    get('instruction-words').textContent = idle ? 'idle' : device.instructionText(r[p]);
    this.cells('registers', r.map((value, at) => [`R${hex(at, 1)}`, hex(value, 4)]));
    this.cells('flags', [['D', hex(d)], ['DF', String(df)], ['P', hex(p, 1)], ['X', hex(x, 1)], ['T', hex(t)], ['Q', String(q)], ['IE', String(ie)], ['key', hex(key, 1)],
      ['boot', String(latch)], ['disp', String(display)]]);
  }

  showMemory(device) {
    const from = Math.min(0x10000 - BYTES_SHOWN, parseInt(get('memory-at').value, 16) & 0xFFF8 || 0), bytes = device.read(from, BYTES_SHOWN), { memory } = this;
    if (memory.from !== from) { memory.from = from; memory.marked.clear(); memory.bytes = bytes; }
    bytes.forEach((byte, at) => { if (byte !== memory.bytes[at]) memory.marked.set(at, this.draws); });
    memory.bytes = bytes;
    const rows = Array.from({ length: BYTES_SHOWN / ROW_BYTES }, (_, row) => {
      const cells = Array.from({ length: ROW_BYTES }, (_, column) => {
        const at = row * ROW_BYTES + column, isMarked = this.draws - (memory.marked.get(at) ?? -Infinity) < BYTE_MARKED;
        return [' ', isMarked ? make('mark', {}, hex(bytes[at])) : hex(bytes[at])];
      });
      return [hex(from + row * ROW_BYTES, 4), ...cells.flat(), '\n'];
    });
    get('memory').replaceChildren(...rows.flat());
  }

  /** Forgets what was shown, so that nothing is marked next. */
  clear() {
    this.before.clear();
    this.memory.from = -1;
  }
}
