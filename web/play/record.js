/** What was played, as files, as commands and as a link. */

import { HEAD, PICTURE, download, get, group, many, refuse } from '../common/base.js';
import { fragmentOf } from '../common/link.js';
import { GAME_STATE } from './device.js';

/** The longest link that is offered, in characters. */
const LINK = 8000;
/** How many lines of the key script are shown. */
const LINES_SHOWN = 200;
/** The most pictures of a film: ten minutes. */
const FILM = 10 * 60 * 60;

export class Recording {
  /** @param {() => import('./player.js').Player} player */
  constructor(player) {
    this.player = player;
    const on = (id, act) => get(id).addEventListener('click', () => act().catch(player.fail));
    on('save-keys', async () => download(`${this.stem}.keys`, this.script()));
    on('save-game', async () => download(this.player.game.name, this.player.game.bytes));
    on('save-state', async () => this.saveState());
    on('save-png', async () => download(`${this.stem}.png`, await this.player.screen.png(this.player.run.device.picture)));
    on('save-film', async () => download(`${this.stem}.pbm`, this.film()));
    on('copy-link', () => this.copyLink());
  }

  get stem() { return this.player.game.name.replace(/\.\w+$/, ''); }

  /** @returns {string} The key script of the whole run. */
  script() { return this.player.run.tape.script(); }

  /** @returns {string[]} The arguments that give the same run: with its limit, and without one. */
  get words() {
    const { game, run } = this.player, option = game.isTall ? ' --tall' : { state: ' --state', program: ' --ram', rom: ' --rom' }[game.kind] ?? '';
    return [`${game.name} ${Math.max(run.cycle, run.marks.at(-1))}`, `${game.name}`].map(first => `${first}${this.script() ? ` --keys ${this.stem}.keys` : ''}${option}`);
  }

  /** Shows the script and the commands. */
  show() {
    if (get('record').hidden) return;
    const { run, game } = this.player, events = run.tape.events(), lines = this.script().split('\n');
    get('record-is').textContent = `${many(events.length, 'key event')} in ${many(run.frames, 'picture')}, up to cycle ${group(Math.max(run.cycle, run.marks.at(-1)))}.`;
    get('script').textContent = lines.length > LINES_SHOWN ? `${lines.slice(0, LINES_SHOWN).join('\n')}\n…` : lines.join('\n') || 'No key was pressed yet.';
    const isOwn = game.kind === 'dumps';
    const [words, endless] = this.words, commands = [...['trace', 'play', 'profile'].map(verb => `vip ${verb} ${words}`), `./debugger ${endless}`, `./view ${words} > run.html`];
    get('commands').textContent = isOwn ? 'Go back to the start, save the state, and run it by vip with --state.' : commands.join('\n');
    get('save-game').disabled = isOwn;
    get('copy-link').disabled = isOwn;
  }

  /** @returns {Uint8Array} All pictures of the run so far, as `vip play` writes them. */
  film() {
    const { run } = this.player, here = run.cycle;
    if (run.frames > FILM) refuse(`The run has ${many(run.frames, 'picture')}, and a film from here at most ${group(FILM)}. vip play writes any number.`);
    const film = new Uint8Array(run.frames * PICTURE), head = new TextEncoder().encode(HEAD);
    run.restoreBefore(run.start);
    for (let at = 0; at < run.frames; at++) {
      run.goFrame(at + 1);
      film.set(head, at * PICTURE);
      film.set(run.device.picture, at * PICTURE + HEAD.length);
    }
    run.go(here);
    return film;
  }

  // A saved state of the game at a dispatch point, else of the board.
  saveState() {
    const bytes = this.player.run.device.save(), name = `${this.stem}.state`;
    download(name, bytes);
    this.player.say(`${name} holds the ${bytes.length === GAME_STATE ? 'game' : 'board'} at cycle ${group(this.player.run.cycle)}. Open it here, or run it by vip with --state.`);
  }

  async copyLink() {
    const fragment = await fragmentOf(this.player.game, this.script()), link = `${location.href.split('#')[0]}#${fragment}`;
    if (link.length > LINK) return this.player.say(`The link would have ${group(link.length)} characters. Send the game and the key script as files.`);
    history.replaceState(null, '', `#${fragment}`);
    const isCopied = await navigator.clipboard?.writeText(link).then(() => true, () => false);
    return this.player.say(isCopied ? 'The link is copied. It holds the game and the keys.' : 'The link is in the address of this page now. It holds the game and the keys.');
  }
}
