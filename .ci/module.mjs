/** Boards and games through vip.wasm. `.ci/module` says what is compared. */

import { createHash } from 'node:crypto';
import { readFileSync } from 'node:fs';

// The size of the device, and the places of its fields and of those of a state (include/vip_device.h).
const SIZE = 9424, REGISTERS = 44, PAGE = 65536;
const AT = { cycle: 0, pictures: 8, shown: 1054, registers: 1056, picture: 1104, ram: 3280 };
const LIMIT = 0, PICTURE = 1, DISPATCH = 4, FIRST_STOP = 11, FRAME = 3668, INTERRUPT = 1092;
const STOPS = ['MachineCall', 'Unknown', 'FetchOutside', 'ReadOutside', 'WriteOutside', 'StackFull', 'StackEmpty'];

const module = new WebAssembly.Module(readFileSync(process.argv[2]));
if (WebAssembly.Module.imports(module).length > 0) throw new Error('the module has imports');
const calls = new WebAssembly.Instance(module, {}).exports;
const base = Number(calls.__heap_base.value) + 7 & ~7, rest = base + SIZE;
const missing = rest + PAGE - calls.memory.buffer.byteLength;
if (missing > 0) {
  const pages = Math.ceil(missing / PAGE);
  // (node 20 takes a number, later ones a BigInt)
  try { calls.memory.grow(BigInt(pages)); } catch { calls.memory.grow(pages); }
}
const device = BigInt(base), buffer = BigInt(rest);
const view = new DataView(calls.memory.buffer), bytes = new Uint8Array(calls.memory.buffer);

let bad = 0;
const fail = text => { bad++; if (bad <= 20) console.log(`module: ${text}`); };
const hex = (number, digits) => number.toString(16).toUpperCase().padStart(digits, '0');
const cycle = () => Number(view.getBigUint64(base + AT.cycle, true));

/** Puts bytes where a call reads them, and returns the two parameters of a slice. */
function slice(content) {
  bytes.set(content, rest);
  return [buffer, BigInt(content.length)];
}

/** The blocks of a file of vectors: a name, and the words of each line. */
function blocks(path, word) {
  return readFileSync(path, 'utf8').split(`\n${word} `).slice(1).map(block => {
    const [name, ...lines] = block.split('\n').filter(line => !line.startsWith('#'));
    return { name, rows: lines.map(line => line.trim().split(/ +/)).filter(([first]) => first) };
  });
}

/** The keys that change, by the cycle: pairs of a cycle and the keys from then on, a bit for each. */
function changesOf(events) {
  const changes = [];
  let mask = 0;
  for (const [at, way, key] of events) {
    const bit = 1 << parseInt(key, 16);
    mask = way === 'down' ? mask | bit : mask & ~bit;
    if (changes.at(-1)?.[0] === +at) changes.at(-1)[1] = mask; else changes.push([+at, mask]);
  }
  return changes;
}

/**
 * Runs up to a limit under changes of keys.
 * @param {(mask: number, limit: bigint) => number} call A function of the device.
 * @param {(reason: number) => void} each Called whenever it returns for a reason of its own.
 * @returns {number} LIMIT, or the reason why it makes no further move.
 */
function runUnder(changes, limit, call, each) {
  let mask = 0, next = 0;
  for (;;) {
    while (next < changes.length && changes[next][0] <= cycle()) mask = changes[next++][1];
    const until = Math.min(limit, changes[next]?.[0] ?? limit), reason = call(mask, BigInt(until));
    if (reason === PICTURE || reason === DISPATCH) each(reason);
    else if (reason !== LIMIT || until === limit) return reason;
    else mask = changes[next++][1];
  }
}

// ---- boards

function runBoard({ name, rows }) {
  const all = word => rows.filter(([first]) => first === word).map(([, ...rest]) => rest), one = word => all(word)[0];
  const rom = new Uint8Array(2048).fill(parseInt(one('fill')?.[0] ?? '0', 16));
  for (const [place, digits] of all('rom')) rom.set(Buffer.from(digits, 'hex'), parseInt(place, 16));
  calls.vip_device_reset(device, ...slice(rom), 1);
  for (const [place, digits] of all('ram')) calls.vip_device_write(device, parseInt(place, 16), ...slice(Buffer.from(digits, 'hex')));
  const from = one('from');
  if (from) {
    const registers = new Uint8Array(REGISTERS);
    new DataView(registers.buffer).setUint16(6, 0x300, true);
    Object.assign(registers, { 34: 3, 35: 2, 38: 1, 41: 1, 42: 5 });
    calls.vip_device_set_registers(device, slice(registers)[0]);
    view.setBigUint64(base + AT.cycle, BigInt(from[0]), true);
    view.setUint8(base + AT.shown, +from[0] % FRAME <= INTERRUPT ? 1 : 0);
  }
  const changes = changesOf(all('keys'));
  const register = offset => view.getUint8(base + AT.registers + offset), compare = (what, found, wanted) => {
    if (String(found).toUpperCase() !== String(wanted).toUpperCase()) fail(`board ${name}: ${what} is ${found}, and expected is ${wanted}`);
  };
  for (const [first, a, b] of rows) {
    switch (first) {
      case 'fill': case 'rom': case 'ram': case 'keys': case 'from': break;
      case 'to': runUnder(changes, +a, (mask, limit) => calls.vip_device_run(device, mask, limit), () => {}); break;
      case 'now': compare('the cycle', cycle(), a); break;
      case 'pictures': compare('the number of pictures', view.getBigUint64(base + AT.pictures, true), a); break;
      case 'line': compare(`line ${a}`, Buffer.from(bytes.slice(base + AT.picture + 8 * a, base + AT.picture + 8 * a + 8)).toString('hex'), b); break;
      case 'on': compare('the display', register(41), a); break;
      case 'idle': compare('idle', register(39), a); break;
      case 'latch': compare('the boot latch', register(40), a); break;
      case 'q': compare('Q', register(37), a); break;
      case 'key': compare('the latched key', hex(register(42), 1), a); break;
      case 'r': compare(`R(${a})`, hex(view.getUint16(base + AT.registers + 2 * parseInt(a, 16), true), 4), b); break;
      case 'byte':
        calls.vip_device_read(device, parseInt(a, 16), buffer, 1n);
        compare(`the byte at ${a}`, hex(bytes[rest], 2), b);
        break;
      default: fail(`board ${name}: unknown word ${first}`);
    }
  }
}

// ---- games

function lineOfTrace() {
  calls.vip_device_state(device, buffer);
  const byte = offset => view.getUint8(rest + offset), word = offset => view.getUint16(rest + offset, true);
  const variables = Array.from({ length: 16 }, (_, at) => hex(byte(36 + at), 2)).join(' ');
  const stack = Array.from({ length: byte(35) }, (_, at) => ` ${hex(word(8 + 2 * at), 4)}`).join('');
  return `${hex(word(0), 4)} ${byte(34) ? hex(word(4), 4) : '----'} V ${variables} I ${hex(word(2), 4)} DT ${hex(byte(52), 2)} ST ${hex(byte(53), 2)}`
    + ` Q ${byte(54)} S${stack} N ${hex(word(6), 4)} AT ${cycle()}\n`;
}

function screenText() {
  const size = view.getUint16(rest + 32, true), rows = [];
  for (let at = 0; at < size; at += 8) {
    const dots = Array.from(bytes.slice(rest + 58 + at, rest + 66 + at), byte => byte.toString(2).padStart(8, '0')).join('');
    rows.push(`${dots.replaceAll('0', '.').replaceAll('1', '#')}\n`);
  }
  return rows.join('');
}

const sha = (...parts) => parts.reduce((hash, part) => hash.update(part), createHash('sha256')).digest('hex');

function runGame({ name, rows }) {
  const all = word => rows.filter(([first]) => first === word).map(([, ...rest]) => rest), isTall = all('tall').length;
  const game = Buffer.from(all('bytes').flat().join(''), 'hex'), changes = changesOf(all('key')), limit = +all('limit')[0][0];
  const lines = [], pictures = [];
  let screen = '';
  calls.vip_device_game(device, ...slice(game), isTall);
  const reason = runUnder(changes, limit, (mask, until) => calls.vip_device_opcode(device, mask, until), () => {
    lines.push(lineOfTrace());
    screen = screenText();
  });
  const pc = lines.at(-1)?.slice(0, 4), opcode = lines.at(-1)?.slice(5, 9), name_ = STOPS[reason - FIRST_STOP];
  const report = reason === LIMIT ? `done ${limit}` : `stopped ${name_}${opcode === '----' ? '' : ` ${opcode}`} at ${pc}`;
  calls.vip_device_game(device, ...slice(game), isTall);
  runUnder(changes, limit, (mask, until) => calls.vip_device_frame(device, mask, until), () => {
    pictures.push(Buffer.concat([Buffer.from('P4\n64 128\n'), bytes.slice(base + AT.picture, base + AT.picture + 1024)]));
  });
  const compare = (what, found, wanted) => { if (String(found) !== wanted) fail(`game ${name}: ${what} is ${found}, and expected is ${wanted}`); };
  compare('the message', report, all('report')[0].join(' '));
  compare('the number of points', lines.length, all('points')[0][0]);
  compare('the number of pictures', pictures.length, all('pictures')[0][0]);
  for (const row of all('trace')) compare(`trace ${row[0].slice(0, 6)}`, row.length === 2 ? sha(...lines.slice(0, +row[0])) : sha(...lines, screen), row.at(-1));
  for (const row of all('play')) compare(`play ${row[0].slice(0, 6)}`, sha(...(row.length === 2 ? pictures.slice(0, +row[0]) : pictures)), row.at(-1));
}

const boards = blocks('crates/test_machine/data/boards.txt', 'board'), games = blocks('vectors/games.txt', 'game');
boards.forEach(runBoard);
games.forEach(runGame);

// ---- speed: a key that is decided at each frame
calls.vip_device_game(device, ...slice(Buffer.from(games[0].rows.filter(([first]) => first === 'bytes').flat().filter(word => word !== 'bytes').join(''), 'hex')), 0);
calls.vip_device_game(device, ...slice(Buffer.from([0xA2, 0x0A, 0x60, 0x05, 0xE0, 0x9E, 0x12, 0x02, 0x12, 0x02, 0xFF])), 0);
const FRAMES = 20000, began = process.hrtime.bigint();
for (let frame = 0; frame < FRAMES; frame++) calls.vip_device_frame(device, bytes[base + AT.picture] & 1 ? 1 << 5 : 0, BigInt(cycle() + 2 * FRAME));
const seconds = Number(process.hrtime.bigint() - began) / 1e9;
console.log(`module: ${boards.length} boards and ${games.length} games, ${bad} faults; ${Math.round(FRAMES / seconds)} frames a second`);
process.exit(bad ? 1 : 0);
