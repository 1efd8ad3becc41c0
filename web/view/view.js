/** The page of a run: its lines, its pictures, its keys, and its source. */

import { BEGIN, BYTES, END, FRAME, KEYS, LINES, MOST, HEAD, PICTURE, download, fromBase64, get, group, hex, make, many, pipe, quote, readKeys, refuse, setSlider } from '../common/base.js';
import { fragmentOf } from '../common/link.js';
import { dotsAsText, drawDots, fit } from '../common/picture.js';

// The machine cycles of a raster line, and the number of the first one that is shown.
const RASTER = 14, WINDOW = 80;
// The last frame that a run of so many cycles has.
const LAST = Math.floor(MOST / FRAME);
// How many lines are listed, beside a source too, and how many columns the plot has at most.
const ROWS = 27, ROWS_BESIDE = 15, COLUMNS = 1000, BYTES_SHOWN = 8;

const run = { words: '', game: null, trace: null, film: null, keys: null, listing: null, memory: null, first: 0, begin: 0, frames: 1, pictures: null, counts: null, isSure: true };
const place = { line: 0, frame: 0, cycle: 0 };

// (of a text that is too long for it a browser may make an empty one)
const decode = bytes => new TextDecoder('utf-8', { ignoreBOM: true }).decode(bytes)
  || (bytes.length ? refuse(`A text of ${group(bytes.length)} bytes is too long for this browser: take fewer CYCLES, or go on from a saved state`) : '');

// ---- Reading

// The lines of a trace, H being a hexadecimal digit: a game's; an instruction of a program, its other moves, and a label.
const expandHex = columns => columns.replace(/H/g, '[0-9A-F]');
const TIME = expandHex('(?: N (HHHH) AT (\\d{1,10}))');
// (what the lines of a source's run end with)
const SOURCE = '(?:  \\| (\\d+): (.*))?';
const GAME = expandHex(`(HHHH) (HHHH|----) V(${' HH'.repeat(16)}) I (HHHH) DT (HH) ST (HH) Q ([01]) S((?: HHHH)*)${TIME}?(?:  ; (.*?))?`) + SOURCE;
const INSTRUCTION = expandHex('(?=[ \\d]{10} )( *\\d+) (HHHH) ([0-9A-F ]{6}) (.{11}) P (H) X (H) D (HH) DF ([01]) Q ([01])  RX (HHHH) (HH)'
  + '(?:  (RH|EF[1-4]|BUS) (HHHH HH|HH|[01]))?') + SOURCE;
const STRETCH = expandHex('(?=[ \\d]{10} )( *\\d+) (IDLE|INT T|DMA R0) (\\d+|HH|HHHH(?: HH){1,8})'), LABEL = '()([A-Za-z_]\\w*:)()';
const REPORT = /(?<=^|\n)(done (\d+)|stopped \w+(?: [0-9A-F]{4})? at [0-9A-F]{4}|idle at [0-9A-F]{4})\n$/;
// (what is only tested captures nothing and looks for no shortest part, which takes a fifth of the time)
const lineOf = (...forms) => new RegExp(`(?:${forms.join('|')})\n`.replace(/\((?!\?)/g, '(?:').replaceAll('.*?', '.*'), 'y');
const TIMED = lineOf(GAME.replace(`${TIME}?`, TIME)), UNTIMED = lineOf(GAME.replace(`${TIME}?`, ''));
const INSTRUCTION_LINE = lineOf(INSTRUCTION), PROGRAM = lineOf(INSTRUCTION, STRETCH, LABEL);

const fits = (form, text, at) => { form.lastIndex = at; return form.test(text); };

// A trace: where each line starts, and its cycle, labels aside; the labels before a line; what DMA fetched in each frame; and the report, if it follows the
// last line.
function readTrace(text, name) {
  const form = [TIMED, UNTIMED].find(form => fits(form, text, 0)) || PROGRAM, report = REPORT.exec(text.slice(-80));
  const starts = [], cycles = [], labels = new Map(), fetched = new Map(), end = text.length - (report ? report[0].length : 0);
  let names = [];
  for (let at = 0, last = 0, number = 1; at < end; at = form.lastIndex, number++) {
    const isFitting = fits(form, text, at);
    if (isFitting && form === PROGRAM && text.charCodeAt(at) > 57) {
      names.push(text.slice(at, form.lastIndex - 2));
      continue;
    }
    const cycle = form === UNTIMED ? 0 : parseInt(form === TIMED ? text.slice(text.indexOf(' AT ', at + 84) + 4).slice(0, 10) : text.slice(at, at + 10), 10);
    if (!isFitting || cycle < last) {
      const line = text.slice(at).split('\n', 1)[0], is = number > 1 && at + line.length >= end ? 'is cut off:' : 'is';
      refuse(isFitting ? `${name} is no trace of one run: line ${group(number)} has an earlier cycle than the line before it: ${quote(line)}`
        : `${name} is no ${number > 1 ? 'whole trace' : 'trace, film or key script'} of vip: its line ${group(number)} ${is} ${quote(line)}`);
    }
    if (text.startsWith('DMA', at + 11)) keep(fetched, cycle, text.slice(at + 23, form.lastIndex - 1));
    if (names.length) labels.set(starts.length, names);
    names = [];
    starts.push(at);
    cycles.push(last = cycle);
  }
  if (names.length) refuse(`${name} is no whole trace of vip: its last line is a label`);
  const trace = { text, starts, cycles, labels, fetched, report, count: starts.length, isTimed: form !== UNTIMED, isGame: form !== PROGRAM };
  // (an address has none of the words for moves that are no instructions)
  const isStep = at => form !== PROGRAM || !['IDL', 'INT', 'DMA'].includes(text.slice(starts[at] + 11, starts[at] + 14));
  return Object.assign(trace, { isStep, lineAt: at => text.slice(starts[at], text.indexOf('\n', starts[at])) });
}

// A listing: the lines of the source, which line gave the byte at each address, and the names with their values.
function readListing(text, name) {
  const [body, tail = ''] = text.split(/\n\n(?=(?:\w+ (?:[0-9A-F]{4}|V[0-9A-F])\n)+$)/), lines = [], bytes = new Map();
  body.replace(/\n$/, '').split('\n').forEach((line, at) => {
    const [, more, moreBytes] = /^ {6}([0-9A-F]{4}) ((?:[0-9A-F]{2})+)$/.exec(line) || [];
    const [, number, value, digits, source] = /^ {0,4}(\d+) ([0-9A-F]{4}|V[0-9A-F] {2}) ([0-9A-F ]{6}) (.*)$/.exec(line) || [];
    if (number) lines.push({ number: +number, text: source, size: 0, address: parseInt(value, 16) });
    else if (!more || !lines.length) refuse(`${name} is no listing of vip: its line ${group(at + 1)} is ${quote(line)}`);
    const from = parseInt(more ?? value, 16);
    (moreBytes ?? digits.trim()).match(/../g)?.forEach((byte, offset) => {
      bytes.set(from + offset & 0xFFFF, { number: lines.at(-1).number, byte });
      lines.at(-1).size++;
    });
  });
  return { text, lines, bytes, names: new Map(tail.trim().split('\n').filter(Boolean).map(line => line.split(' '))) };
}

// Keeps the bytes of a raster line, of which those that DMA didn't fetch are 00.
function keep(fetched, cycle, bytes) {
  const frame = Math.floor(cycle / FRAME), row = Math.floor(cycle % FRAME / RASTER) - WINDOW;
  if (!fetched.has(frame)) fetched.set(frame, new Uint8Array(BYTES));
  if (row >= 0 && row < LINES) fetched.get(frame).set(bytes.split(' ').map(byte => parseInt(byte, 16)), 8 * row);
}

function readFilm(bytes, name) {
  const count = bytes.length / PICTURE, picture = at => bytes.subarray(at * PICTURE + HEAD.length, (at + 1) * PICTURE);
  for (let at = 0; at < count; at++) {
    const isWhole = at + 1 <= count && [...HEAD].every((letter, byte) => bytes[at * PICTURE + byte] === letter.charCodeAt(0));
    if (!isWhole) refuse(`${name} is no whole film of vip: its picture ${group(at + 1)} is cut off, or isn’t one of 64 by 128 dots`);
  }
  return { bytes, count, picture };
}

// ---- What belongs together

// The frame of a cycle: that of the first picture that is finished after it.
const frameOf = cycle => Math.floor((cycle + FRAME - END) / FRAME);

// The frames of a program's pictures. Its display may be off, so each is found by the bytes that DMA fetched in its frame.
function framesFetched(film, trace, isFromEnd) {
  const limit = +(trace.report?.[2] ?? Infinity), pictures = [...Array(film.count).keys()], found = [];
  const frames = [...trace.fetched.keys()].filter(frame => frame * FRAME + END <= limit);
  if (isFromEnd) [frames, pictures].forEach(list => list.reverse());
  for (const picture of pictures) {
    const dots = film.picture(picture), at = frames.findIndex(frame => trace.fetched.get(frame).every((byte, at) => byte === dots[at]));
    if (at < 0) refuse(`The film isn’t of this run: the bytes of its picture ${group(picture + 1)} were fetched in no frame of the trace`);
    found[picture] = frames[at];
    frames.splice(0, at + 1);
  }
  return found;
}

// Those of a game's pictures follow each other, from a frame that is given, or else so that they end with the lines. A stop comes within a frame of its line.
function framesInTurn(film, trace, given) {
  const last = frameOf(trace?.cycles.at(-1) ?? 0), all = trace?.report?.[2], isStopped = trace?.report && !all, end = all ? frameOf(+all) : last;
  const first = given ?? Math.max(0, Math.min(frameOf(trace?.cycles[0] ?? 0), end - film.count)), due = Math.max(0, end - first);
  if (all ? film.count !== due : film.count < due || isStopped && film.count > due + 1) {
    refuse(`The film isn’t of this run: it has ${many(film.count, 'picture')}, and the run ${many(due, 'whole frame')}`);
  }
  return [first, Array.from({ length: film.count }, (_, picture) => first + picture)];
}

// Puts the pictures to their frames, and counts the lines of each frame. A run from a saved state begins in the frame of its first picture.
function relate({ trace, film, keys, listing = null }, given) {
  const isTied = trace?.isTimed && trace.count > 0, isProgram = isTied && !trace.isGame, opens = isTied && !isProgram ? frameOf(trace.cycles[0]) : 0;
  const [first, frames] = !film ? [opens, []] : isProgram ? [0, framesFetched(film, trace, true)] : framesInTurn(film, trace, given);
  const isSure = !isProgram || !film || framesFetched(film, trace, false).every((frame, picture) => frame === frames[picture]);
  const begin = isTied ? Math.min(first, opens) : first, last = Math.max(begin, isTied ? frameOf(trace.cycles.at(-1)) : 0, frames.at(-1) ?? 0);
  Object.assign(run, { trace, film, keys, listing, memory: null, first, begin, isSure, frames: last + 1, pictures: new Int32Array(last + 1).fill(-1) });
  frames.forEach((frame, picture) => { run.pictures[frame] = picture; });
  run.counts = isTied ? new Uint32Array(run.frames) : null;
  if (isTied) trace.cycles.forEach((cycle, at) => { run.counts[frameOf(cycle)] += trace.isStep(at); });
}

// ---- Places

const lineCount = () => run.trace?.count ?? 0;
const clamp = (number, count, least = 0) => Math.max(least, Math.min(number || 0, count - 1));

// The last line at or before a cycle, or the first one; and the line of the place, where lines have no cycles.
function lineAtCycle(cycle) {
  if (!run.counts) return place.line;
  let low = 0, high = lineCount();
  while (high - low > 1) {
    const middle = low + high >> 1;
    if (run.trace.cycles[middle] <= cycle) low = middle; else high = middle;
  }
  return low;
}

function goLine(number) {
  const line = clamp(number, lineCount()), cycle = run.counts ? run.trace.cycles[line] : place.cycle;
  go({ line, cycle, frame: run.counts ? frameOf(cycle) : place.frame });
}

const goCycle = cycle => go({ cycle, frame: clamp(frameOf(cycle), run.frames, run.begin), line: lineAtCycle(cycle) });
const goFrame = number => goCycle(clamp(number, run.frames, run.begin) * FRAME + BEGIN);

// What a line has in the place of a pc, or of an instruction's address; and the next line that has it, or the previous one.
const pcColumn = () => run.trace?.isGame ? 0 : 11;
const padPc = pc => pc.toUpperCase().padStart(4, '0');
const pcHere = () => /^(?:[ \d]{10} )?(\w+) /.exec(lineCount() ? run.trace.lineAt(place.line) : '')?.[1];

// Goes to the next line, or the previous one, of which something is so.
function goWhere(isSo, step, words, from = place.line) {
  let line = from + step;
  while (line >= 0 && line < lineCount() && !isSo(line)) line += step;
  if (line >= 0 && line < lineCount()) goLine(line); else say(words);
}

function goPc(pc, step, from, name) {
  const hasPc = line => run.trace.text.startsWith(`${pc} `, run.trace.starts[line] + pcColumn()) || name && run.trace.labels.get(line)?.includes(name);
  goWhere(line => pc && hasPc(line), step,
    pc ? `No line ${from === undefined ? step > 0 ? 'after' : 'before' : 'of'} this ${from === undefined ? 'one' : 'run'} has ${name ? `${name}, which is ` : ''}${pc}.`
      : 'This line has no pc.', from);
}

// Goes to a pc as it is written: a name of the source that stands for a number, which wins, or else up to four hexadecimal digits.
function goWritten(word, step, from) {
  const name = word.replace(/^:/, ''), value = run.listing?.names.get(name) ?? labelled().get(name);
  if (/^[0-9A-F]{4}$/.test(value)) goPc(value, step, from, name);
  else if (/^[0-9A-Fa-f]{1,4}$/.test(word)) goPc(padPc(word), step, from);
  else say(`${quote(word)} is no name ${run.listing ? 'of the source that stands for a number' : 'of a label in these lines'}, and no pc of up to four hexadecimal digits.`);
}

// The addresses of the labels in a trace.
const labelled = () => new Map([...run.trace?.labels ?? []].flatMap(([line, names]) => names.map(name => [name, run.trace.lineAt(line).slice(11, 15)])));

// ---- The source

// The line of the source that gave the bytes of an instruction: as the trace says it, or else the listing, where they stand there at its address or, read
// through the boot latch, 8000 further on.
function sourceAt(line) {
  if (!run.listing || !lineCount()) return 0;
  const text = run.trace.lineAt(line), [, number] = / {2}\| (\d+): /.exec(text) || [];
  if (run.trace.isFromSource ??= / {2}\| \d+: /.test(run.trace.text)) return +number || 0;
  const [, pc, code] = (run.trace.isGame ? /^(\w{4}) (\w{4}) / : /^[ \d]{10} ([0-9A-F]{4}) ([0-9A-F]+)/).exec(text) || [];
  const given = from => code?.match(/../g).every((byte, at) => run.listing.bytes.get(from + at & 0xFFFF)?.byte === byte) && run.listing.bytes.get(from).number;
  return given(parseInt(pc, 16)) || !run.trace.isGame && given(parseInt(pc, 16) + 0x8000) || 0;
}

const sourceText = number => run.listing?.lines[number - 1]?.text.trim() ?? '';

function goSource(number) {
  const words = `Line ${group(number)} of the source doesn’t run after this line.`;
  goWhere(line => sourceAt(line) === number, 1, words);
}

function drawSource() {
  get('source-pane').hidden = !run.listing;
  get('source').replaceChildren(...(run.listing?.lines ?? []).map(({ number, text, size }) => {
    const made = make('li', { className: size ? '' : 'never' }, text);
    Object.assign(made.dataset, { number: group(number), source: number }, size ? { runs: '' } : {});
    return made;
  }));
  get('names').replaceChildren(...[...run.listing?.names ?? labelled()].map(([name]) => make('option', { value: name })));
}

function showSource() {
  const list = get('source'), marked = list.querySelector('[aria-current]'), here = list.children[sourceAt(place.line) - 1];
  marked?.removeAttribute('aria-current');
  here?.setAttribute('aria-current', true);
  if (here) list.scrollTop = here.offsetTop - list.offsetTop - list.clientHeight / 2;
}

// What each named byte had from which line on. Three instructions store a byte that their line shows: STR, STXD and INP.
function readMemory() {
  const values = new Map(), note = (address, line, value) => {
    const known = values.get(address) || values.set(address, []).get(address);
    if (known.at(-1)?.value !== value) known.push({ line, value });
  };
  const form = RegExp(INSTRUCTION, 'y');
  for (let line = 0; line < lineCount(); line++) {
    form.lastIndex = run.trace.starts[line];
    const [, , , bytes, , , , d, , , rx, atRx, name, value] = form.exec(run.trace.text) || [];
    if (!bytes) continue;
    const code = parseInt(bytes.slice(0, 2), 16), [to, there] = value?.split(' ') ?? [];
    note(rx, line, atRx);
    if (there) note(to, line, there);
    if (code >> 4 === 5) note(to, line + 1, d);
    if (code === 0x73) note(rx, line + 1, d);
    if (code > 0x68 && code < 0x70) note(rx, line + 1, value);
  }
  const named = [];
  for (const { address, text, size } of run.listing.lines) {
    const [, name, word] = /^\s*(\w+):\s*(DS|EQU)\b/.exec(text) || [];
    if (word === 'DS') for (let at = 0; at < Math.min(size, BYTES_SHOWN); at++) named.push([at ? `${name}+${at}` : name, hex(address + at, 4)]);
    if (word === 'EQU' && values.has(hex(address, 4))) named.push([name, hex(address, 4)]);
  }
  return { values, named };
}

function memoryAt(line) {
  if (!run.listing || run.trace?.isGame !== false) return [];
  run.memory ??= readMemory();
  return run.memory.named.map(([name, address]) => {
    const known = run.memory.values.get(address) ?? [];
    return [name, known.findLast(value => value.line <= line)?.value ?? run.listing.bytes.get(parseInt(address, 16))?.byte ?? '00'];
  });
}

// ---- The fields of a line

const FOLLOWS = { IDLE: 'how many cycles', 'INT T': 'T', 'DMA R0': 'R0, and the bytes' };
// What a line says, as names and values: of the line itself; of a game's state beside its variables; and of those, or of the processor.
function fieldsOf(line) {
  const match = form => RegExp(`^${form}$`).exec(line), present = (...fields) => fields.filter(([, value]) => value !== undefined);
  const nameOf = variable => [...run.listing?.names ?? []].filter(([, value]) => value === variable).map(([name]) => name).join(' ');
  let found = match(GAME);
  if (found) {
    const [, pc, opcode, variables, index, delay, sound, tone, stack, ticks, cycle, words] = found;
    return [present(['pc', pc], ['opcode', opcode], ['in words', words], ['cycle', cycle]),
      present(['I', index], ['DT', delay], ['ST', sound], ['tone', tone], ['stack', stack.trim() || 'empty'], ['ticks', ticks]),
      variables.trim().split(' ').map((value, at) => [`V${hex(at, 1)}`, value, nameOf(`V${hex(at, 1)}`)])];
  }
  if ((found = match(INSTRUCTION))) {
    const [, cycle, address, bytes, words, p, x, d, df, q, rx, atRx, name, value] = found, [first, second] = value?.split(' ') ?? [];
    return [[['cycle', cycle.trim()], ['address', address], ['bytes', bytes.trim()], ['instruction', words.trim()]], [],
      present(['P', p], ['X', x], ['D', d], ['DF', df], ['Q', q], ['R(X)', rx], ['byte there', atRx], [name, first], [`byte at ${name}`, second])];
  }
  const [, cycle, kind, what] = match(STRETCH) || [];
  return [kind ? [['cycle', cycle.trim()], ['no instruction', kind], [FOLLOWS[kind], what]] : [], [], []];
}

// The line before, and of a program that of the instruction before, or -1.
function lineBefore(line) {
  do line--; while (line >= 0 && !run.trace.isGame && !fits(INSTRUCTION_LINE, run.trace.text, run.trace.starts[line]));
  return line;
}

// ---- Showing

// How many fields stand side by side: as many as there are, but where the page is narrow.
const fieldsInRow = () => matchMedia('(max-width: 40rem)').matches ? 4 : 16;

// A table of fields: a row of names, one of what the line before has, and one of this line's, the changed ones marked. Answers the changed ones.
function fillTable(table, caption, fields, before, unmarked) {
  const old = new Map(before), changed = new Map(fields.filter(([name, value]) => !unmarked.includes(name) && (old.get(name) ?? value) !== value));
  const cells = (title, each) => make('tr', {}, title === null ? make('td') : make('th', { scope: 'row' }, title), ...each), parts = [];
  for (let from = 0; from < fields.length; from += fieldsInRow()) {
    const part = fields.slice(from, from + fieldsInRow());
    parts.push(cells(null, part.map(([name, , more]) => make('th', { scope: 'col' }, name, ...(more ? [make('small', {}, ` ${more}`)] : [])))),
      cells('before', part.map(([name]) => make('td', { className: 'quiet' }, old.get(name) ?? ''))),
      cells('here', part.map(([name, value]) => Object.assign(make('td', { className: changed.has(name) ? 'changed' : '' }, value), { title: name }))));
  }
  table.hidden = fields.length === 0;
  table.replaceChildren(make('caption', {}, caption), make('tbody', {}, ...parts));
  return [...changed];
}

function showTables() {
  const at = line => fieldsOf(lineCount() && line >= 0 ? run.trace.lineAt(line) : '');
  const [line, state, variables] = at(place.line), [then, stateThen, variablesThen] = at(lineCount() ? lineBefore(place.line) : -1);
  return [...fillTable(get('line-table'), 'The line', [...line, ...state], [...then, ...stateThen], line.map(([name]) => name)),
    ...fillTable(get('variables-table'), run.trace?.isGame ? 'Variables' : 'Registers', variables, variablesThen, []),
    ...fillTable(get('memory-table'), 'Memory by name', memoryAt(place.line), place.line > 0 ? memoryAt(lineBefore(place.line)) : [], [])];
}

// A line as it is listed: what stands before its words, these, the line of the source, and the rest.
const LISTED_GAME = /^(.{4} .{4})( V .*?)(?: {2}; (.*?))?(?: {2}\| (.*))?$/, LISTED_PROGRAM = /^(.{10} [0-9A-F]{4} [0-9A-F ]{6}) (.{11})( P .*?)(?: {2}\| (.*))?$/;
function partsOf(line) {
  const text = run.trace.lineAt(line), number = sourceAt(line), game = LISTED_GAME.exec(text), program = LISTED_PROGRAM.exec(text);
  const [front, words, rest, said] = run.trace.isGame ? [game[1], game[3], game[2], game[4]] : program ? [program[1], program[2], program[3], program[4]] : [text, '', '', ''];
  return { front, words: words?.trim() ?? '', source: said ?? (number ? `${number}: ${sourceText(number)}` : ''), rest };
}

function showLines() {
  const count = lineCount(), most = run.listing ? ROWS_BESIDE : ROWS, top = Math.max(0, Math.min(place.line - (most >> 1), count - most)), rows = [];
  const frameAt = line => run.counts && line >= 0 ? frameOf(run.trace.cycles[line]) : -1, part = (className, text) => make('span', { className }, text);
  for (let line = top; line < Math.min(top + most, count); line++) {
    const same = hasDisplay() && frameAt(line) === place.frame ? 'same ' : '', classes = same + (hasDisplay() && frameAt(line) !== frameAt(line - 1) ? 'opens' : '');
    const state = { id: `line-${line}`, role: 'option', ariaSelected: line === place.line, ariaPosInSet: line + 1, ariaSetSize: count, className: classes };
    const { front, words, source, rest } = partsOf(line);
    for (const name of run.trace.labels.get(line) ?? []) rows.push(make('li', { role: 'none', className: `${same}label` }, `${name}:`));
    rows.push(make('li', state, front, ...(words || rest ? [part('words', words)] : []), ...(source || run.listing ? [part('source', source)] : []), part('', rest)));
    Object.assign(rows.at(-1).dataset, { line, number: group(line + 1) });
  }
  if (top + most >= count) rows.push(make('li', { role: 'none', className: 'end' }, run.trace?.report?.[1] ?? 'the end of these lines'));
  // (labels take the place of other lines, so that the list stays as high as it is)
  const here = rows.findIndex(row => row.ariaSelected === 'true'), from = Math.max(0, Math.min(here - (most >> 1), rows.length - most - 1));
  get('lines').replaceChildren(...rows.slice(from, from + most + 1));
  get('lines').setAttribute('aria-activedescendant', `line-${place.line}`);
}

// Whether there is a picture to show: a program without one may have the display off throughout.
const hasDisplay = () => !!run.film && (run.trace?.isGame !== false || run.film.count > 0 || run.trace.fetched.size > 0);

// The picture of the frame; where there is none, the one before, dimmed.
function showPicture() {
  let frame = place.frame;
  while (frame > run.begin && run.pictures[frame] < 0) frame--;
  const isOwn = run.pictures[place.frame] >= 0, bytes = run.pictures[frame] < 0 ? new Uint8Array(BYTES) : run.film.picture(run.pictures[frame]);
  drawDots(get('picture'), bytes);
  get('picture').className = isOwn ? '' : 'before';
  get('picture').ariaLabel = isOwn ? `The picture of frame ${group(frame)}, below as text` : 'This frame has no picture';
  if (get('text').open) get('as-text').textContent = dotsAsText(bytes);
  get('remark').textContent = !hasDisplay() && run.film ? '' : !run.film ? 'There is no film.' : isOwn ? run.isSure ? '' : 'Some pictures fit more than one frame; each is shown with the last.'
    : !run.trace?.isGame ? 'This frame has no picture.' : `The run ends before this picture is whole${run.film.count ? '; dimmed, the last one' : ''}.`;
}

function showKeys() {
  const down = new Set(), events = run.keys?.events ?? [];
  for (let at = 0; at < events.length && events[at].cycle <= place.cycle; at++) down[events[at].isDown ? 'add' : 'delete'](events[at].key);
  get('keypad').replaceChildren(...Array.from(KEYS, key => make('span', { className: down.has(key) ? 'down' : '' }, key)));
  get('keypad').ariaLabel = get('keys-are').textContent = !run.keys ? 'No key script' : down.size ? `Down: ${[...down].sort().join(' ')}` : 'No key down';
}

// The most and the least lines of the frames that share a column.
function drawPlot() {
  const counts = (run.counts ?? new Uint32Array(run.frames)).slice(run.begin), all = counts.length, columns = Math.min(all, COLUMNS);
  const top = counts.reduce((a, b) => Math.max(a, b), 1), bars = pick => Array.from({ length: columns }, (_, column) => {
    const shared = counts.slice(Math.floor(column * all / columns), Math.floor((column + 1) * all / columns));
    return `M${column} 100V${100 - 96 * shared.reduce((a, b) => pick(a, b)) / top}h${columns > 400 ? 1 : 0.9}V100z`;
  }).join('');
  get('plot').setAttribute('viewBox', `0 0 ${columns} 100`);
  [Math.max, Math.min].forEach((pick, at) => get('plot').children[at].setAttribute('d', bars(pick)));
  get('plot').dataset.top = group(top);
}

function showPlace() {
  const { frame, line, cycle } = place, count = lineCount(), all = run.frames - run.begin, column = (frame - run.begin + 0.5) * Math.min(all, COLUMNS) / all;
  get('frame-of').textContent = `${group(frame)} of ${group(run.begin)} to ${group(run.frames - 1)}`;
  get('line-of').textContent = count ? `${group(line + 1)} of ${group(count)}` : 'none';
  setSlider(get('frame'), { least: run.begin, most: run.frames - 1, value: frame, text: get('frame-of').textContent });
  setSlider(get('line'), { least: 0, most: Math.max(0, count - 1), value: line, text: get('line-of').textContent });
  get('frame-is').textContent = `Picture of frame ${group(frame)}: cycle ${group(frame * FRAME + BEGIN)} to ${group(frame * FRAME + END)}`;
  get('line-is').textContent = !count ? 'There are no lines.' : !run.counts ? 'These lines have no cycles (--at), so no pictures.'
    : `Line ${group(line + 1)}: cycle ${group(run.trace.cycles[line])}`;
  const counted = run.counts ? `${group(run.counts[frame])} here, ${get('plot').dataset.top} at most` : '';
  get('plot').ariaLabel = get('plot-is').textContent = counted && `${run.trace.isGame ? 'Dispatch points' : 'Instructions'} a frame: ${counted}`;
  for (const end of ['x1', 'x2']) get('plot').children[2].setAttribute(end, column);
  get('link').href = run.counts && run.trace.cycles[line] === cycle ? `#line=${line + 1}` : `#frame=${frame}`;
}

// What the status line says comes once nothing has moved for a while, so that a reader of the screen isn't flooded.
let saying = 0;
function say(words) {
  clearTimeout(saying);
  saying = setTimeout(() => { get('said').textContent = words; }, 250);
}

function go(where) {
  Object.assign(place, where);
  [showPicture, showPlace, showKeys, showLines, showSource].forEach(show => show());
  const changed = showTables().map(([name, value]) => `${name} ${value}`).join(', ') || 'no field';
  const nameOf = line => run.trace.lineAt(line).replace(/^[ \d]{10} | V(?: ..){16} I .*?(?=  ; |$)|  ;| P . X .*?(?=  \| |$)/g, '').replace(/ +/g, ' ').trim();
  const before = lineCount() ? lineBefore(place.line) : -1, line = lineCount() && `line ${group(place.line + 1)}: ${nameOf(place.line)}`;
  if (since === null) say(`${[hasDisplay() && `frame ${group(place.frame)}`, line].filter(Boolean).join(', ').replace(/^./, letter => letter.toUpperCase())}.${before < 0 ? '' : ` Changed since ${nameOf(before)}: ${changed}.`}`);
}

// ---- Playing

// Since when the frame on show is due, in milliseconds, while it plays.
let since = null;

function play() {
  if (since === null && place.frame === run.frames - 1) goFrame(run.begin);
  since = since === null ? performance.now() : null;
  get('play').ariaLabel = since === null ? 'Play' : 'Pause';
  get('play-icon').setAttribute('href', since === null ? '#i-play' : '#i-pause');
  if (since === null) goFrame(place.frame); else requestAnimationFrame(playOn);
}

function playOn(now) {
  if (since === null) return;
  const each = 1000 / document.querySelector('[name=speed]:checked').value, moved = Math.max(0, Math.floor((now - since) / each));
  since += moved * each;
  if (moved) goFrame(place.frame + moved);
  if (place.frame === run.frames - 1) play(); else requestAnimationFrame(playOn);
}

// ---- Taking files, and what this page was made with

// The bytes of a file, or what gzip packed in them.
async function unpack(bytes, name) {
  if (bytes[0] !== 0x1F || bytes[1] !== 0x8B) return bytes;
  return pipe(bytes, new DecompressionStream('gzip')).catch(() => refuse(`${name} is cut off or damaged: gzip can’t unpack it`));
}

// What a file is, and its contents. How it begins shows what it is.
async function readFile(file) {
  const name = quote(file.name), bytes = await unpack(new Uint8Array(await file.arrayBuffer()), name), start = decode(bytes.subarray(0, 200));
  if (start.startsWith('P4')) return ['film', readFilm(bytes, name)];
  if (/^\s*(#|\d+\s+(down|up)\s)/.test(start)) return ['keys', readKeys(decode(bytes), name)];
  if (/^ {0,4}1 [0-9AV][0-9A-F][0-9A-F ]{2} [0-9A-F ]{6} /.test(start)) return ['listing', readListing(decode(bytes), name)];
  return ['trace', start ? readTrace(decode(bytes), name) : refuse(`${name} is empty`)];
}

// Takes all of these files, or none of them. Of the run before all is let go for a new trace and film, or for a new trace whose run isn't that of the film.
async function take(files) {
  const read = await Promise.all([...files].map(readFile)), found = Object.fromEntries(read), given = found.trace || found.film ? undefined : run.first;
  if (read.length > Object.keys(found).length) refuse('These are two files of one kind; a run has one trace, one film, one key script and one listing');
  try {
    relate({ ...(found.trace && found.film ? {} : run), ...found }, given);
  } catch (fault) {
    if (found.film || !found.trace) throw fault;
    relate(found, given);
  }
  Object.assign(run, { words: '', game: null });
  openRun();
}

async function attempt(work) {
  get('fault').textContent = '';
  await work.catch(fault => { get('fault').textContent = `${fault.message}.`; get('fault').scrollIntoView({ block: 'nearest' }); });
}

// The bytes that are in this page under a name.
const readEmbedded = async id => unpack(fromBase64(get(id).textContent), 'The page');

async function openOwn() {
  const bytesOf = id => readEmbedded(id).catch(() => refuse('This page is cut off or damaged')), textOf = async id => decode(await bytesOf(id));
  get('asks').hidden = true;
  get('words').textContent = run.words = (await textOf('run-words')).trim();
  const trace = readTrace(await textOf('run-trace'), 'The trace'), film = readFilm(await bytesOf('run-film'), 'The film');
  const keys = get('run-keys') && readKeys(await textOf('run-keys'), 'The key script');
  const listing = get('run-listing') && readListing(await textOf('run-listing'), 'The listing');
  relate({ trace, film, keys, listing }, frameOf(+await textOf('run-from')));
  // (what the player needs: its page, and what was run)
  run.game = get('run-game') && { bytes: await bytesOf('run-game'), about: (await textOf('run-player')).split('\n') };
  openRun();
}

// The player's page with this run at the place that is shown. On a page from a disk it is the one that ./view found,
// else one beside this page.
async function playerLink() {
  const { bytes, about: [kind, name, page] } = run.game, isTall = kind === 'tall';
  const fragment = await fragmentOf({ kind: isTall ? 'game' : kind, name, bytes, isTall }, run.keys?.text ?? '', place.cycle);
  return `${(location.protocol === 'file:' && page) || 'play.html'}#${fragment}`;
}

// Shows a run that was read.
function openRun() {
  const { trace, film, keys, words, first } = run, steps = run.counts?.reduce((sum, count) => sum + count, 0) ?? trace?.count;
  const isShown = { viewer: trace || film, asks: !trace || !film, begins: film && !words && trace?.isGame !== false, plot: run.counts,
    'save-trace': trace, 'save-film': film, 'save-keys': keys, 'play-here': run.game };
  for (const id of Object.keys(isShown)) get(id).toggleAttribute('hidden', !isShown[id]);
  for (const part of document.querySelectorAll('.display, #picture, #frame-is, #text, #plot, #plot-is')) part.toggleAttribute('hidden', !hasDisplay());
  // (a program without a display has the picture's space for its registers)
  get(hasDisplay() ? 'right' : 'left').append(get('line-table'), get('variables-table'), get('memory-table'));
  for (const side of ['left', 'right']) get(side).hidden = !get(side).firstElementChild;
  get('keypad').parentNode.hidden = !hasDisplay() && !keys;
  get('first').value = first;
  get('words').textContent = words;
  document.title = words ? `vip ${words}` : 'A run of vip';
  get('ending').textContent = [trace?.report?.[1], trace && many(trace.count, 'line'), steps !== trace?.count && many(steps, 'instruction'), film && many(film.count, 'picture'),
    keys && many(keys.events.length, 'key event'), !trace && !film && 'the lines or the pictures of the run are still missing'].filter(Boolean).join(' · ');
  fitPicture();
  drawPlot();
  drawSource();
  goFrame(run.begin);
  goLine(0);
  goHash();
  get('lines').focus({ preventScroll: true });
}

// Each line as high as each other.
const fitPicture = () => fit(get('picture'), get('around').clientWidth, Infinity, 1);

// Goes to the place that the page's address names, as in run.html#line=120, or #pc=hitbat.
function goHash() {
  const [, what, where, pc] = /^#(?:(line|frame|cycle)=(\d+)|pc=(.+))$/.exec(location.hash) || [];
  if (what) ({ line: () => goLine(where - 1), frame: () => goFrame(+where), cycle: () => goCycle(+where) })[what]();
  else if (pc) goWritten(decodeURIComponent(pc), 1, -1);
  else if (location.hash.length > 1) say(`${quote(location.hash)} names no place: line, frame and cycle take digits, pc up to four hexadecimal ones or a name.`);
}

// ---- What is pressed

const ACTIONS = {
  'first-frame': () => goFrame(run.begin), 'frame-back': () => goFrame(place.frame - 1), 'frame-on': () => goFrame(place.frame + 1),
  'last-frame': () => goFrame(run.frames), 'first-line': () => goLine(0), 'line-back': () => goLine(place.line - 1), 'line-on': () => goLine(place.line + 1),
  'last-line': () => goLine(lineCount()), 'same-on': () => goPc(pcHere(), 1), play,
  'play-here': () => attempt(playerLink().then(link => { open(link, '_blank'); })),
  'save-trace': () => download('run.trace', run.trace.text), 'save-film': () => download('run.pbm', run.film.bytes), 'save-keys': () => download('run.keys', run.keys.text),
};
const PRESSED = {
  ArrowLeft: ACTIONS['frame-back'], ArrowRight: ACTIONS['frame-on'], ArrowUp: ACTIONS['line-back'], ArrowDown: ACTIONS['line-on'], ' ': play,
  ShiftArrowUp: () => goPc(pcHere(), -1), ShiftArrowDown: ACTIONS['same-on'],
};
const ON_LINES = { Home: ACTIONS['first-line'], End: ACTIONS['last-line'], PageUp: () => goLine(place.line - ROWS), PageDown: () => goLine(place.line + ROWS) };

addEventListener('keydown', event => {
  const key = (event.shiftKey ? 'Shift' : '') + event.key, action = PRESSED[key] || event.target === get('lines') && ON_LINES[key];
  const isTaken = event.target.matches(key === ' ' ? 'input:not([type=range]), select, summary, button, a' : 'input, select, summary');
  if (!action || isTaken || event.altKey || event.ctrlKey || event.metaKey || get('viewer').hidden) return;
  event.preventDefault();
  action();
});
const on = (id, kind, does) => get(id).addEventListener(kind, does, { passive: false });
for (const id of Object.keys(ACTIONS)) on(id, 'click', ACTIONS[id]);
on('frame', 'input', () => goFrame(+get('frame').value));
on('line', 'input', () => goLine(+get('line').value));
on('lines', 'click', event => { const line = event.target.closest('[data-line]')?.dataset.line; if (line) goLine(+line); });
on('source', 'click', event => { if ('runs' in event.target.dataset) goSource(+event.target.dataset.source); });
on('lines', 'wheel', event => {
  const line = clamp(place.line + 3 * Math.sign(event.deltaY), lineCount());
  if (line === place.line || event.ctrlKey) return;
  event.preventDefault();
  goLine(line);
});
for (const kind of ['pointerdown', 'pointermove']) on('plot', kind, event => {
  if (event.buttons) goFrame(run.begin + Math.floor(event.offsetX / get('plot').getBoundingClientRect().width * (run.frames - run.begin)));
});
addEventListener('submit', event => {
  event.preventDefault();
  const button = event.submitter.id;
  if (button === 'to-cycle') goCycle(+get('cycle').value.replace(/[ ,]/g, '')); else goWritten(get('pc').value.trim(), button === 'pc-on' ? 1 : -1);
});
on('text', 'toggle', showPicture);
on('first', 'change', () => attempt((async () => {
  const { value } = get('first'), most = LAST - run.film.count;
  get('first').value = run.first;
  if (!/^\d{1,9}$/.test(value) || +value > most) refuse(`The first picture is of a frame from 0 to ${group(most)}, in digits alone, and not ${quote(value)}`);
  relate(run, +value);
  openRun();
})()));
on('files', 'change', () => attempt(take(get('files').files)));
// (so that a file that was made anew can be taken again)
on('files', 'click', () => { get('files').value = ''; });
for (const kind of ['dragover', 'dragleave', 'drop']) addEventListener(kind, event => {
  event.preventDefault();
  document.body.classList.toggle('over', kind === 'dragover');
  if (kind === 'drop' && event.dataTransfer.files.length) attempt(take(event.dataTransfer.files));
});
addEventListener('resize', () => { fitPicture(); if (!get('viewer').hidden) showTables(); });
addEventListener('hashchange', goHash);
addEventListener('DOMContentLoaded', async () => {
  if (get('run-words')) await attempt(openOwn());
  get('loading').hidden = true;
  requestAnimationFrame(() => setTimeout(() => performance.mark('usable')));
});
