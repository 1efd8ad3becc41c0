/** The player: what runs, how fast, and what the controls do. */

import { CLOCK, MOST, fromBase64, get, group, hex, make, pipe, quote, readKeys, refuse, setSlider } from '../common/base.js';
import { unpackPart } from '../common/link.js';
import { loadModule } from './device.js';
import { Inside } from './inside.js';
import { Keys } from './keys.js';
import { Recording } from './record.js';
import { Run } from './run.js';
import { COLOURS, Screen } from './screen.js';
import { Sound } from './sound.js';
import { Tape } from './tape.js';

/** The sizes that a game may have at most, in bytes, and those of a saved state. */
const MOST_BYTES = [3232, 2976], STATES = [4147, 6195];
/** What a picture takes of real time, and what is given to running fast, in milliseconds. */
const PICTURE_TIME = 1000 / 60, BUSY = 14;
/** A wait that is longer than this isn't made up for. */
const LATE = 250;
/** Every so many pictures the opcodes that read keys are looked for. */
const LOOKED = 8;
const NEEDS = 'This browser can’t run the player. It needs 64-bit memory in WebAssembly: Chrome or Edge 133 and later, or Firefox 134 and later.';
/** The unlit page of the browser that can't run it shows this maze: a bit for each of its 8 × 16 tiles. */
const MAZE = 'b4e1962d5a3c8f70d21e6b9483a57cf0';

export class Player {
  /** @param {() => import('./device.js').Device} makeDevice */
  constructor(makeDevice) {
    this.makeDevice = makeDevice;
    this.screen = new Screen();
    this.sound = new Sound();
    this.inside = new Inside();
    this.keys = new Keys(() => this.keysChanged());
    this.recording = new Recording(this);
    this.isRunning = false;
    this.speed = 1;
    this.owed = 0;
    this.last = 0;
    this.q = 0;
    this.breaks = [];
    this.game = null;
    this.run = null;
    this.fail = error => { get('fault').textContent = error.message; };
    this.buildControls();
  }

  // ---- What runs

  /**
   * Starts a game, a saved state, a program at 0000 or 8000, or a board with dumps.
   * @param {{kind: 'game' | 'state' | 'program' | 'rom' | 'dumps', name: string, bytes: Uint8Array, isTall?: boolean, parts?: any}} game
   * @param {Tape} [tape]
   */
  start(game, tape) {
    const device = this.makeDevice();
    this.setUp(device, game);
    Object.assign(this, { game, run: new Run(device, tape), q: device.q, owed: 0 });
    this.run.watch = (from, to) => this.hear(from, to);
    this.inside.clear();
    this.screen.fit(device.isTall ? 2 : 4);
    get('title').textContent = game.name;
    get('subtitle').textContent = device.isGame ? `COSMAC VIP, CHIP-8, 64 × ${device.isTall ? 64 : 32}` : 'COSMAC VIP, a program for the CDP1802';
    document.title = `${game.name} · vip player`;
    get('fault').textContent = '';
    this.say(tape?.changes.length ? 'The keys of the recording are pressed. Press a key to take over.' : '');
    this.setRunning(true);
    this.show(false);
  }

  setUp(device, game) {
    if (game.kind === 'game') {
      const most = MOST_BYTES[game.isTall ? 1 : 0], { length } = game.bytes;
      if (length === 0) refuse(`${quote(game.name)} is empty.`);
      if (length > most) refuse(`${quote(game.name)} has ${group(length)} bytes. A game has at most ${group(most)}.`);
      device.game(game.bytes, game.isTall);
    } else if (game.kind === 'state') {
      device.load(game.bytes);
    } else {
      const { rom, ram } = game.parts ?? (game.kind === 'rom' ? { rom: game.bytes, ram: [] } : { rom: null, ram: [{ address: 0, bytes: game.bytes }] });
      device.reset(rom ?? new Uint8Array(1), rom !== null);
      for (const { address, bytes } of ram) device.write(address, bytes);
    }
  }

  /** Opens files: a game or a state, a key script, or both. @param {File[]} files */
  async open(files) {
    let game = null, keys = null;
    for (const file of files) {
      const bytes = new Uint8Array(await file.arrayBuffer());
      if (/\.(keys|txt)$/i.test(file.name)) keys = readKeys(new TextDecoder().decode(bytes), quote(file.name)).events;
      else game = this.recognise(file.name, bytes);
    }
    if (!game && !this.game) refuse('Open a game with its key script.');
    this.start(game ?? this.game, keys ? Tape.of(keys) : undefined);
  }

  // What a file is, by its first bytes and its size.
  recognise(name, bytes) {
    const starts = (...first) => first.every((byte, at) => bytes[at] === byte);
    if (starts(0x89, 0x50, 0x4E, 0x47)) refuse(`${quote(name)} is a PNG picture and no game.`);
    if (starts(0xFF, 0xD8, 0xFF)) refuse(`${quote(name)} is a JPEG picture and no game.`);
    if (starts(0x50, 0x4B, 3, 4)) refuse(`${quote(name)} is a ZIP archive. Unpack the game first.`);
    if (STATES.includes(bytes.length) && starts(0x56, 0x49, 0x50)) return { kind: 'state', name, bytes };
    const isTall = document.querySelector('[name=variant]:checked').value === '1';
    return { kind: 'game', name, bytes, isTall };
  }

  // ---- Time

  setRunning(isRunning) {
    this.isRunning = isRunning && Boolean(this.run);
    get('run-icon').setAttribute('href', this.isRunning ? '#i-pause' : '#i-play');
    get('run').setAttribute('aria-label', this.isRunning ? 'Pause' : 'Play');
    this.last = performance.now();
    this.owed = 0;
    if (this.isRunning) this.schedule();
    else if (this.run) this.show(false);
  }

  schedule() {
    if (this.isScheduled) return;
    this.isScheduled = true;
    requestAnimationFrame(now => { this.isScheduled = false; if (this.isRunning) this.tick(now); });
  }

  // Runs as many pictures as real time asks for. A wait of a hidden page isn't made up for.
  tick(now) {
    const passed = now - this.last;
    this.last = now;
    this.keys.poll();
    if (this.speed >= 100) this.runFast();
    else {
      this.owed = passed > LATE ? 1 : this.owed + this.speed * passed / PICTURE_TIME;
      // (a display of 60 Hz is a little early or late each time)
      const due = Math.floor(this.owed + 0.1);
      this.owed -= due;
      for (let count = 0; count < due && this.isRunning; count++) this.runPicture();
    }
    if (this.isRunning) this.schedule();
  }

  runFast() {
    const until = performance.now() + BUSY;
    while (this.isRunning && performance.now() < until) for (let count = 0; count < 8 && this.isRunning; count++) this.runPicture(false);
    if (this.run) this.show(true);
  }

  // Runs to the next picture, with the keys that are held now, and shows it.
  runPicture(isShown = true) {
    const { run } = this;
    this.takeKeys();
    const isLooked = isShown && run.device.isGame && run.frame % LOOKED === 0;
    const reason = this.breaks.length ? run.runFrameTo(this.breaks) : isLooked ? run.runFrameLooking(state => this.noteRead(state)) : run.runFrame();
    if (!run.device.isGame) this.keys.note(run.device.latchedKey);
    if (reason === 'place') this.pauseWith(`Breakpoint at ${hex(this.breaks[run.device.place].address, 4)}.`);
    else if (reason !== 'picture') this.pauseAtEnd(reason);
    if (isShown) this.show(true);
  }

  pauseWith(sentence) {
    this.setRunning(false);
    this.say(sentence);
  }

  pauseAtEnd(reason) {
    const { run } = this, { stopName } = run.device;
    const where = run.device.isGame ? ` at ${hex(run.device.state().pc, 4)}` : '';
    if (reason === 'stop') this.pauseWith(stopName === 'MachineCall' ? `The game ended with a machine call${where}.` : `The game stopped: ${stopName}${where}.`);
    else if (reason === 'idle') this.pauseWith('The processor is idle, and the display is off. Nothing can wake it.');
    else this.pauseWith(`This is cycle ${group(MOST)}, the last one that a key script can name.`);
  }

  // The keys go to the run, unless a recording is pressed and nobody touched a key.
  takeKeys() {
    const { mask } = this.keys;
    if (this.run.isLive || mask !== 0) this.run.hold(mask);
  }

  keysChanged() {
    if (!this.run) return;
    if (this.keys.mask !== 0) this.run.isLive = true;
    this.keys.show(this.keys.mask);
  }

  noteRead({ opcode, hasOpcode, v }) {
    if (!hasOpcode) return;
    if ((opcode & 0xF0FF) === 0xE09E || (opcode & 0xF0FF) === 0xE0A1) this.keys.note(v[opcode >> 8 & 0xF] & 0xF);
    if ((opcode & 0xF0FF) === 0xF00A) for (let key = 0; key < 16; key++) this.keys.note(key);
  }

  hear(from, to) {
    const { turns } = this.run.device;
    if (this.isRunning && this.speed === 1) this.sound.play(from, to, this.q, turns);
    this.q = this.run.device.q;
  }

  get unit() { return document.querySelector('[name=unit]:checked').value; }

  stepOn() {
    this.setRunning(false);
    if (this.run.ending) return this.pauseAtEnd(this.run.ending);
    this.takeKeys();
    const reason = this.run.step(this.unit);
    this.q = this.run.device.q;
    this.show(true);
    if (reason === 'limit' && !this.run.ending) return this.say('The opcode isn’t over yet. It waits for a key: hold one and step again.');
    this.say('');
    return ['idle', 'stop', 'limit'].includes(reason) ? this.pauseAtEnd(reason) : undefined;
  }

  stepBack() {
    this.setRunning(false);
    this.run.back(this.unit);
    this.settle();
  }

  goFrame(frame) {
    this.run.goFrame(frame);
    // (what differs after a jump wasn't changed just now)
    this.inside.clear();
    this.settle();
  }

  // After a jump: what was played after here comes again, until a key is pressed.
  settle() {
    this.run.isLive = this.run.cycle >= this.run.marks.at(-1) && this.run.cycle >= this.run.tape.end;
    this.q = this.run.device.q;
    this.show(false);
  }

  // ---- Showing

  say(sentence) { get('said').textContent = sentence; }

  show(isNext) {
    const { run } = this, frame = run.frame;
    this.screen.draw(run.device.picture, isNext);
    this.keys.show(run.isLive ? this.keys.mask : run.tape.maskAt(run.cycle));
    this.inside.show(run.device);
    // (what is only read is shown ten times a second while the run goes on)
    if (this.isRunning && isNext && frame % 6 !== 0 && this.speed <= 1) return;
    this.showTime(frame);
    if (!this.isRunning || frame % 30 === 0) this.recording.show();
  }

  showTime(frame) {
    const { run } = this, { frames, first } = run, seconds = (run.cycle - run.start) / CLOCK, set = (id, text) => { if (get(id).textContent !== text) get(id).textContent = text; };
    setSlider(get('timeline'), { least: first, most: Math.max(frames, 1), value: frame, text: `${seconds.toFixed(1)} seconds` });
    set('time', `${Math.floor(seconds / 60)}:${(seconds % 60).toFixed(2).padStart(5, '0')}`);
    set('cycle', `cycle ${group(run.cycle)}`);
    set('where', frame < frames ? 'replaying' : run.isLive ? '' : 'recording plays');
    for (const [id, isOff] of [['step-back', run.cycle <= run.start], ['to-end', frame >= frames], ['restart', run.cycle <= run.start]]) get(id).disabled = isOff;
  }

  // ---- Controls

  buildControls() {
    const on = (id, act, kind = 'click') => get(id).addEventListener(kind, event => {
      try { act(event); } catch (error) { this.fail(error); }
    });
    on('run', () => { if (this.run?.ending) this.pauseAtEnd(this.run.ending); else this.setRunning(!this.isRunning); });
    on('step-on', () => this.stepOn());
    on('step-back', () => this.stepBack());
    on('restart', () => { this.setRunning(false); this.goFrame(0); });
    on('to-end', () => this.goFrame(this.run.frames));
    on('timeline', () => { this.setRunning(false); this.goFrame(+get('timeline').value); }, 'input');
    on('sound', () => this.toggleSound());
    this.choose('speed', value => { this.speed = +value; });
    this.choose('glow', value => { this.screen.glow = +value; });
    this.choose('gamepad', value => { this.keys.directions = value; });
    get('colours').append(...COLOURS.map(([name, dark, lit], at) => {
      const swatch = make('span', { className: 'swatch' });
      swatch.style.background = `linear-gradient(135deg, ${dark} 50%, ${lit} 50%)`;
      return make('label', { title: name }, make('input', { type: 'radio', name: 'colours', value: String(at), checked: at === 0, ariaLabel: name }), swatch);
    }));
    this.choose('colours', value => { this.screen.setColours(+value); if (this.run) this.show(false); });
    this.buildPanels();
    this.buildFiles(on);
    this.buildPlaces(on);
    addEventListener('keydown', event => this.shortcut(event));
    document.addEventListener('visibilitychange', () => { if (!document.hidden) this.last = performance.now(); });
  }

  choose(id, act) { get(id).addEventListener('change', event => act(event.target.value)); }

  buildPanels() {
    const buttons = [...document.querySelectorAll('[data-panel]')], set = (name, isOpen) => {
      get(name).hidden = !isOpen;
      buttons.find(button => button.dataset.panel === name).setAttribute('aria-expanded', String(isOpen));
      this.inside.clear();
      if (this.run) this.show(false);
    };
    this.setPanel = set;
    for (const button of buttons) button.addEventListener('click', () => {
      const { panel } = button.dataset, isOpen = get(panel).hidden;
      for (const other of buttons) if (other !== button) set(other.dataset.panel, false);
      set(panel, isOpen);
    });
    for (const close of document.querySelectorAll('[data-close]')) close.addEventListener('click', () => set(close.closest('section').id, false));
  }

  buildFiles(on) {
    on('files', () => { const files = [...get('files').files]; get('files').value = ''; if (files.length) this.open(files).catch(this.fail); }, 'change');
    addEventListener('dragover', event => { event.preventDefault(); document.body.classList.add('over'); });
    addEventListener('dragleave', () => document.body.classList.remove('over'));
    addEventListener('drop', event => {
      event.preventDefault();
      document.body.classList.remove('over');
      if (event.dataTransfer.files.length) this.open([...event.dataTransfer.files]).catch(this.fail);
    });
    on('own-start', () => this.startOwn().catch(this.fail));
    on('own-forget', () => { localStorage.removeItem('vip own'); get('own-forget').hidden = true; this.say('The files are forgotten.'); });
    try { get('own-forget').hidden = !localStorage.getItem('vip own'); } catch { get('own-keep').disabled = true; }
  }

  // Starts a board with one's own files, or with those that this browser keeps.
  async startOwn() {
    const names = ['own-8000', 'own-0000', 'own-0200'], read = async id => (get(id).files[0] ? new Uint8Array(await get(id).files[0].arrayBuffer()) : null);
    let [rom, low, game] = await Promise.all(names.map(read));
    if (!rom && !low && !game) {
      const kept = JSON.parse(localStorage.getItem('vip own') ?? 'null') ?? refuse('Choose a file first.');
      [rom, low, game] = kept.map(text => text && fromBase64(text));
    }
    if (rom && (rom.length < 1 || rom.length > 2048)) refuse(`The file for 8000 has ${group(rom.length)} bytes. A ROM has 1 to 2,048.`);
    const ram = [[0, low], [0x200, game]].filter(([, bytes]) => bytes).map(([address, bytes]) => ({ address, bytes }));
    for (const { address, bytes } of ram) if (address + bytes.length > 4096) refuse(`The file for ${hex(address, 4)} has ${group(bytes.length)} bytes. RAM ends at 0FFF.`);
    if (get('own-keep').checked) {
      const text = bytes => bytes && btoa(Array.from(bytes, byte => String.fromCharCode(byte)).join(''));
      localStorage.setItem('vip own', JSON.stringify([rom, low, game].map(text)));
      get('own-forget').hidden = false;
    }
    this.start({ kind: 'dumps', name: get('own-0200').files[0]?.name ?? 'your own ROM', bytes: new Uint8Array(0), parts: { rom, ram } });
  }

  buildPlaces(on) {
    const place = () => {
      const text = get('to-address').value;
      if (!/^[0-9A-Fa-f]{1,4}$/.test(text)) refuse(`${quote(text)} is no address of up to four hexadecimal digits.`);
      return { address: parseInt(text, 16), p: +get('to-p').value };
    };
    on('to-form', event => {
      event.preventDefault();
      this.setRunning(false);
      const reason = this.run.runTo([place()]);
      this.say(reason === 'place' ? 'Here is the place.' : 'The place doesn’t come within a minute of the run.');
      this.show(true);
    }, 'submit');
    on('break-add', () => {
      if (this.breaks.length === 8) refuse('There are at most 8 breakpoints.');
      this.breaks.push(place());
      this.showBreaks();
    });
    on('memory-at', () => this.run && this.show(false), 'input');
  }

  showBreaks() {
    get('breaks').replaceChildren(...this.breaks.map(({ address, p }, at) => {
      const button = make('button', { type: 'button', title: 'Remove this breakpoint' }, `${hex(address, 4)}${p === 255 ? '' : ` P ${hex(p, 1)}`} ×`);
      button.addEventListener('click', () => { this.breaks.splice(at, 1); this.showBreaks(); });
      return make('li', {}, button);
    }));
  }

  toggleSound() {
    const isOn = this.sound.toggle();
    get('sound').setAttribute('aria-pressed', String(isOn));
    get('sound-icon').setAttribute('href', isOn ? '#i-sound' : '#i-silent');
  }

  shortcut(event) {
    if (!this.run || event.ctrlKey || event.altKey || event.metaKey || event.target.matches?.('input[type=text], input[type=file], input[type=checkbox], select, textarea, pre')) return;
    // (the arrows choose among radio buttons and move a slider)
    if (event.key !== ' ' && event.key.length > 1 && event.target.matches?.('input')) return;
    const act = { ' ': () => get('run').click(), ArrowLeft: () => this.stepBack(), ArrowRight: () => this.stepOn(), m: () => this.toggleSound(), M: () => this.toggleSound() }[event.key];
    if (!act || event.key === ' ' && event.target.closest?.('button, summary')) return;
    event.preventDefault();
    act();
  }
}

// ---- Opening the page

// The games that are built in, or the one that the page was made for.
function builtIn() {
  return [...document.querySelectorAll('script[data-game]')].map(element => ({
    kind: 'program' in element.dataset ? 'program' : 'game', name: element.dataset.game, isTall: 'tall' in element.dataset, isGiven: 'given' in element.dataset,
    bytes: fromBase64(element.textContent.trim()),
  }));
}

// What the page's address says: a game, its keys, and the cycle to begin at.
async function addressed() {
  const parts = new URLSearchParams(location.hash.slice(1));
  if (!parts.has('game')) return null;
  const bytes = await unpackPart(parts.get('game')), keys = parts.has('keys') ? new TextDecoder().decode(await unpackPart(parts.get('keys'))) : '';
  const kind = parts.get('kind') ?? 'game';
  if (!['game', 'state', 'program', 'rom'].includes(kind)) refuse(`The link names ${quote(kind)}, which is nothing to play.`);
  const game = { kind, name: parts.get('name') || 'game.ch8', bytes, isTall: parts.has('tall') };
  return { game, tape: keys ? Tape.of(readKeys(keys, 'The link').events) : undefined, at: +(parts.get('at') ?? 0) };
}

// In a browser that can't run it: a sentence and a picture.
function showUnable() {
  let path = '';
  [...MAZE].flatMap(digit => [8, 4, 2, 1].map(bit => parseInt(digit, 16) & bit)).forEach((bit, tile) => {
    const x = tile % 16 * 4, y = Math.floor(tile / 16) * 4;
    for (let step = 0; step < 4; step++) path += `M${x + step} ${y + (bit ? step : 3 - step)}h1v1h-1z`;
  });
  get('unable-picture').setAttribute('d', path);
  get('unable-why').textContent = NEEDS;
  get('unable').hidden = false;
  get('player').hidden = true;
}

async function openPage() {
  const packed = fromBase64(get('module').textContent.trim()), bytes = await pipe(packed, new DecompressionStream('gzip'));
  let makeDevice;
  try { makeDevice = await loadModule(bytes); } catch { showUnable(); return; }
  const player = new Player(makeDevice), games = builtIn();
  Object.assign(globalThis, { player });
  get('tiles').append(...games.map(game => {
    const button = make('button', { type: 'button' }, game.name.replace(/\.\w+$/, ''));
    button.addEventListener('click', () => {
      try { player.start(game); } catch (error) { player.fail(error); }
      get('screen').focus({ preventScroll: true });
    });
    return button;
  }));
  try {
    const asked = await addressed(), given = games.find(game => game.isGiven);
    if (asked) {
      player.start(asked.game, asked.tape);
      if (asked.at > 0) { player.setRunning(false); player.run.go(Math.min(asked.at, MOST)); player.settle(); }
    } else if (games.length) {
      const keys = get('given-keys');
      player.start(given ?? games[0], keys ? Tape.of(readKeys(new TextDecoder().decode(fromBase64(keys.textContent.trim())), 'The key script').events) : undefined);
    }
  } catch (error) { player.fail(error); }
  if (!games.some(game => game.isGiven) && innerWidth > 1200 && !location.hash) player.setPanel('games', true);
  performance.mark('usable');
}

openPage().catch(error => { get('fault').textContent = error.message; });
