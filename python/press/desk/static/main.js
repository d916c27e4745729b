// SPDX-License-Identifier: Apache-2.0
// The app: jobs and pages, the picture, edits with undo, and the keyboard.
import { Conflict, get, listen, pageAndPixels, save, send } from './api.js';
import { listCompared, showCompared } from './compare.js';
import { Drawing, drawZones, forgetZones } from './drawing.js';
import { showJobs } from './jobs.js';
import { byId, forgetPanels, showPanels, showWhy } from './panels.js';
import { PageView, L } from './view.js';

/** What the app holds: the jobs, the page as the server last described it, and what waits to be sent. */
export const app = {
  /** @type {any[]} */ jobs: [],
  /** @type {any} */ page: null,
  mode: 'after',
  shownInks: 0xffff,
  chosenZone: -1,
  /** @type {any} */ waiting: null,
  /** @type {number[][] | null} */ shifts: null,
  isSending: false,
  ready: false,
};

/**
 * @param {string} text
 * @param {boolean} [isAlert]
 */
export function say(text, isAlert = false) {
  byId('status').textContent = text;
  byId('status').classList.toggle('alert', isAlert);
}

const view = new PageView(byId('map'), { click: (x, y) => { if (!drawing.tool) ask(x, y); }, fault: (text) => say(text, true),
  gaps: showGaps });
const other = new PageView(byId('other'));
const zoneLayer = L.layerGroup().addTo(view.map), markLayer = L.layerGroup().addTo(view.map);
const drawing = new Drawing(view, (points) => edit((edits) => {
  edits.zones.push({ name: `Zone ${edits.zones.length + 1}`, points, settings: {}, overImages: false });
  app.chosenZone = edits.zones.length - 1;
}));
Object.assign(window, { desk: { app, view, other, drawing } });

// Pages

/** @param {string} id */
export async function openPage(id) {
  const page = await get(`/api/pages/${id}`);
  const isOther = !app.page || app.page.id !== page.id;
  app.page = page;
  forgetPanels();
  forgetZones();
  if (isOther) {
    app.chosenZone = -1;
    app.waiting = null;
    app.shifts = null;
    markLayer.clearLayers();
    byId('why').textContent = 'Click a pixel, or press Enter with the page in focus for the middle of the view.';
  }
  view.open(page);
  await view.show(app.mode, app.shownInks);
  showPage();
  await compareAgain();
}

/** A slider that is pulled stays where it is: the panels are built anew once it is let go. */
let isSliding = false, isStale = false;
byId('panels').addEventListener('pointerdown', ({ target }) => { isSliding = target instanceof HTMLInputElement && target.type === 'range'; });
for (const end of ['pointerup', 'pointercancel']) {
  addEventListener(end, () => { isSliding = false; if (isStale) setTimeout(showPage); });
}

/** Everything around the picture. */
function showPage() {
  const { page } = app;
  isStale = isSliding;
  drawZones(zoneLayer, page, app.chosenZone, (corner, point) => edit((edits) => { edits.zones[app.chosenZone].points[corner] = point; }));
  if (!isSliding) showPanels(app, { edit, choose, setInks, setShift, goTo, approve, addNote, save: saveOutput, applyToAll });
  if (!byId('other').hidden) listCompared(app);
  byId('softbox').hidden = !page.canSoftProof;
  byId('preview').hidden = !page.preview && page.version === page.shown;
  byId('preview').textContent = page.preview ? `preview: ${page.lacks.join(' and ')} follow${page.lacks.length === 1 && page.lacks[0] === 'keepaway' ? 's' : ''}` : 'the page follows';
  const undo = /** @type {HTMLButtonElement} */ (byId('undo')), redo = /** @type {HTMLButtonElement} */ (byId('redo'));
  undo.disabled = !page.canUndo;
  redo.disabled = !page.canRedo;
  /** @type {HTMLSelectElement} */ (byId('page')).value = page.id;
}

/** @param {number} zone */
function choose(zone) {
  app.chosenZone = app.chosenZone === zone ? -1 : zone;
  showPage();
}

/** @param {number} shown */
function setInks(shown) {
  app.shownInks = shown;
  view.show(app.mode, shown);
  compareAgain();
}

/** Shows the second picture anew, if there is one. */
async function compareAgain() {
  if (!byId('other').hidden && app.page) await showCompared(app, view, other);
}

/**
 * Moves one plate, in whole pixels.
 * @param {number} ink
 * @param {number} axis
 * @param {number} pixels
 */
function setShift(ink, axis, pixels) {
  view.shifts[ink][axis] = pixels;
  if (view.map.getZoom() < 0) view.map.setZoom(0);
  if (view.needsLive()) view.look(); else view.hideLive();
  if (!byId('other').hidden && other.page.id === view.page.id) { other.shifts = view.shifts; if (other.needsLive()) other.look(); else other.hideLive(); }
}

/**
 * What the mark of a gap means, and how many pixels have it.
 * @param {number | null} count
 */
function showGaps(count) {
  const text = count === null ? 'Gaps are marked at 1:1 and closer, once a plate is moved.' : `Gap: prints lighter than all around it in register. ${count} pixels in view.`;
  byId('gaplegend').hidden = !isTicked('gaps');
  byId('gapcount').textContent = text;
}

/** @param {boolean} isOn */
function markGaps(isOn) {
  /** @type {HTMLInputElement} */ (byId('gaps')).checked = isOn;
  for (const one of [view, other]) {
    one.marksGaps = isOn;
    if (one.page && one.isShifted() && one.needsLive() && !one.element.hidden) one.look();
  }
  showGaps(null);
}

/** @param {string} id */
const isTicked = (id) => /** @type {HTMLInputElement} */ (byId(id)).checked;

function straighten() {
  app.shifts = null;
  forgetPanels();
  if (!app.page) return;
  view.shifts = app.page.inks.map(() => [0, 0]);
  if (view.needsLive()) view.look(); else view.hideLive();
  showPage();
  compareAgain();
}

/** @param {number[]} place in pixels: x, y and perhaps width and height */
function goTo([x, y, width = 0, height = 0]) {
  if (width && height) view.map.fitBounds([[y, x], [y + height, x + width]]);
  else view.map.setView([y, x], 2);
}

// Edits: one request at a time; of those that wait the last one counts.

/** @param {(edits: any) => void} change */
function edit(change) {
  const edits = structuredClone(app.waiting || app.page.edits);
  change(edits);
  if (JSON.stringify(edits) === JSON.stringify(app.waiting || app.page.edits)) return;
  app.waiting = edits;
  view.changedAt = view.changedAt || performance.now();
  sendEdits();
}

async function sendEdits() {
  if (app.isSending || !app.waiting) return;
  app.isSending = true;
  const edits = app.waiting;
  app.waiting = null;
  try {
    await change('edits', { edits });
    say(`version ${app.page.version}`);
  } catch (fault) {
    if (fault instanceof Conflict) await conflict(edits);
    else { say(String(fault instanceof Error ? fault.message : fault), true); forgetPanels(); forgetZones(); showPage(); }
  } finally {
    app.isSending = false;
    if (app.waiting) sendEdits();
  }
}

/**
 * Changes the job. The answer has what is visible at 1:1 too, which is drawn before anything else.
 * @param {string} how
 * @param {any} body
 */
async function change(how, body) {
  const changed = app.page, start = view.changedAt || performance.now(), asked = view.followsJob() && !view.busy ? await view.request() : null;
  view.changedAt = 0;
  const answer = await send(`/api/pages/${changed.id}/${how}`, { ...body, version: changed.version, ...(asked ? { view: asked } : {}) });
  const { page, pixels, gaps } = await pageAndPixels(answer);
  Object.assign(changed, page);
  if (app.page !== changed) return;
  app.chosenZone = Math.min(app.chosenZone, page.edits.zones.length - 1);
  if (pixels && !view.busy && view.isStill(asked)) view.draw(asked, pixels, start, gaps); else if (view.needsLive()) view.look();
  requestAnimationFrame(() => setTimeout(() => { if (app.page === changed) showPage(); }));
}

/**
 * Another browser changed the job first: nothing is lost, and the change can be made on the newer version.
 * @param {any} edits
 */
async function conflict(edits) {
  await openPage(app.page.id);
  say('Not saved: another window changed this page first.', true);
  const again = Object.assign(document.createElement('button'), { type: 'button', textContent: 'Replace it by mine' });
  again.onclick = () => { app.waiting = edits; sendEdits(); };
  byId('status').append(' ', again);
}

/** @param {'undo' | 'redo'} which */
async function step(which) {
  if (!app.page || !(which === 'undo' ? app.page.canUndo : app.page.canRedo)) return;
  try {
    await change(which, {});
  } catch (fault) { say(String(fault instanceof Error ? fault.message : fault), true); }
}

// Questions, notes, approval

/**
 * @param {number} x
 * @param {number} y
 */
async function ask(x, y) {
  const { page } = app;
  if (!page || x < 0 || y < 0 || x >= page.width || y >= page.height) return;
  const answer = await get(`/api/pages/${page.id}/why/${x}/${y}`);
  markLayer.clearLayers();
  L.rectangle([[y, x], [y + 1, x + 1]], { color: '#000', weight: 2, fill: false, interactive: false }).addTo(markLayer);
  if (answer.edge) {
    const [[ax, ay], [bx, by]] = answer.edge.pixels, line = ax === bx ? [[by, bx], [by, bx + 1]] : [[by, bx], [by + 1, bx]];
    L.polyline(line, { color: '#c2005b', weight: 4, interactive: false }).addTo(markLayer);
  }
  showWhy(page, answer);
  const box = /** @type {HTMLDetailsElement} */ (byId('why').closest('details'));
  box.open = true;
  box.scrollIntoView({ block: 'nearest' });
  app.page.asked = [x, y];
}

/** @param {any} body */
async function approve(body) {
  Object.assign(app.page, await (await send(`/api/pages/${app.page.id}/approval`, { ...body, version: app.page.version })).json());
  showPage();
}

/**
 * @param {string} kind
 * @param {Record<string, number>} options
 */
async function saveOutput(kind, options) {
  say('The file is being made …');
  try { say(`${await save(app.page.id, kind, options)} is ready.`); } catch (fault) { say(String(fault instanceof Error ? fault.message : fault), true); }
}

/** @param {boolean} zones */
async function applyToAll(zones) {
  try { await send(`/api/pages/${app.page.id}/all`, { zones }); } catch (fault) { say(String(fault instanceof Error ? fault.message : fault), true); }
}

/** @param {string} text */
async function addNote(text) {
  const place = app.page.asked || (({ lng, lat }) => [Math.round(lng), Math.round(lat)])(view.map.getCenter());
  Object.assign(app.page, await (await send(`/api/pages/${app.page.id}/notes`, { text, place })).json());
  showPage();
}

// Events of the server

/** @param {any} event */
async function heard(event) {
  if (event.kind === 'jobs' || event.kind === 'reconnect') {
    app.jobs = await get('/api/jobs').catch(() => app.jobs);
    showJobs(app, openPage);
    if (!app.page && app.jobs.some((job) => job.pages.some((/** @type {any} */ page) => page.id))) await openFirst();
  }
  if (!app.page || (event.page && event.page !== app.page.id)) return;
  if (event.kind === 'fault') say(event.text, true);
  if (event.kind === 'progress' || event.kind === 'batch') say(event.text);
  if (event.kind === 'changed' && event.version !== app.page.version && !app.isSending) {
    await openPage(app.page.id);
    say(`Changed in another window: version ${event.version}`);
  }
  if (event.kind === 'shown' || event.kind === 'moved' || event.kind === 'said' || event.kind === 'reconnect') {
    // Tiles need the version alone: they come beside all else that is new.
    if (event.kind === 'shown') app.page.shown = Math.max(app.page.shown, event.version);
    const tiles = view.refresh(), page = await get(`/api/pages/${app.page.id}`);
    if (app.page.id !== page.id) return;
    const isNewest = page.version >= app.page.version;
    Object.assign(app.page, isNewest ? page : { shown: page.shown, epoch: page.epoch });
    await Promise.all([tiles, view.refresh()]);
    if (!view.needsLive()) view.hideLive();
    if (isNewest && !isTyping()) showPage();
    if (event.text) say(event.text);
    if (event.kind === 'shown') await compareAgain();
  }
}

/** Whether somebody types into a panel, which must not be drawn anew under the hands. */
function isTyping() {
  const { activeElement: at } = document;
  return !!at?.closest('#panels') && (at.tagName === 'TEXTAREA' || (at instanceof HTMLInputElement && at.type === 'text'));
}

async function openFirst() {
  for (const job of app.jobs) for (const page of job.pages) if (page.id) { await openPage(page.id); return; }
}

// Controls

/** @param {string} mode */
function setMode(mode) {
  app.mode = mode;
  document.querySelectorAll('[data-mode]').forEach((one) => one.setAttribute('aria-pressed', String(/** @type {HTMLElement} */ (one).dataset.mode === mode)));
  if (app.page) { view.show(mode, app.shownInks); compareAgain(); }
}

const zooms = { fit: () => view.fit(), in: () => view.map.zoomIn(1), out: () => view.map.zoomOut(1), one: () => view.map.setZoom(0) };

function toggleCompare() {
  const element = byId('other'), isOn = element.hidden;
  element.hidden = !isOn;
  byId('compared').hidden = !isOn;
  byId('comparedhint').hidden = true;
  byId('compare').setAttribute('aria-pressed', String(isOn));
  view.map.invalidateSize();
  if (isOn && app.page) listCompared(app);
  compareAgain();
}

function toggleSoft() {
  if (!app.page?.canSoftProof) return;
  view.soft = !view.soft;
  /** @type {HTMLInputElement} */ (byId('soft')).checked = view.soft;
  view.show(app.mode, app.shownInks);
  compareAgain();
}

let isFollowing = false;
/**
 * Both pictures show the same place, whichever is moved.
 * @param {PageView} from
 * @param {PageView} to
 */
function follow(from, to) {
  from.map.on('move', () => {
    if (byId('other').hidden || !to.page || isFollowing) return;
    isFollowing = true;
    to.moveTo(from.map);
    isFollowing = false;
    byId('comparedhint').hidden = !other.other || view.isNear();
  });
}
follow(view, other);
follow(other, view);

document.querySelectorAll('[data-mode]').forEach((one) => one.addEventListener('click', () => setMode(/** @type {HTMLElement} */ (one).dataset.mode || '')));
document.querySelectorAll('[data-zoom]').forEach((one) => one.addEventListener('click', () => zooms[/** @type {keyof typeof zooms} */ (/** @type {HTMLElement} */ (one).dataset.zoom)]()));
byId('compare').onclick = toggleCompare;
byId('compared').onchange = () => compareAgain();
byId('soft').onchange = toggleSoft;
byId('straight').onclick = straighten;
byId('gaps').onchange = () => markGaps(isTicked('gaps'));
byId('undo').onclick = () => step('undo');
byId('redo').onclick = () => step('redo');
byId('rectangle').onclick = () => drawing.start('rectangle');
byId('polygon').onclick = () => drawing.start('polygon');
byId('page').onchange = (event) => openPage(/** @type {HTMLSelectElement} */ (event.target).value);
byId('help').onclick = () => showKeys();

/** @type {[string, string, () => void][]} */
const KEYS = [
  ['1', 'picture before trapping', () => setMode('before')], ['2', 'picture after trapping', () => setMode('after')],
  ['3', "traps in their inks' colours", () => setMode('traps')], ['4', 'all that trapping changed', () => setMode('difference')],
  ['5', 'the sum of all inks', () => setMode('ink')], ['s', 'soft proof, if a profile is set', toggleSoft], ['0', 'whole page', () => zooms.fit()], ['9', '1:1', () => zooms.one()],
  ['c', 'compare side by side', toggleCompare], ['i', 'all plates in register', straighten], ['g', 'mark gaps', () => markGaps(!isTicked('gaps'))],
  ['n', 'next page', () => turn(1)], ['b', 'page before', () => turn(-1)], ['r', 'draw a rectangular zone', () => drawing.start('rectangle')],
  ['p', 'draw a polygonal zone', () => drawing.start('polygon')], ['u', 'undo', () => step('undo')], ['U', 'redo', () => step('redo')],
  ['?', 'these keys', () => showKeys()],
];

/** @param {number} by */
function turn(by) {
  const pick = /** @type {HTMLSelectElement} */ (byId('page')), next = pick.options[pick.selectedIndex + by];
  if (next) openPage(next.value);
}

function showKeys() {
  const dialog = /** @type {HTMLDialogElement} */ (byId('keys')), list = document.createElement('dl');
  for (const [key, what] of [...KEYS, ['+ −', 'zoom'], ['arrows', 'move the page'], ['Enter', 'the pixel in the middle: why it is trapped, or a corner of the zone that is drawn; twice at one place ends a polygon'], ['Esc', 'stop drawing']]) {
    const term = document.createElement('dt'), key_ = document.createElement('kbd'), text = document.createElement('dd');
    key_.textContent = key;
    term.append(key_);
    text.textContent = what;
    list.append(term, text);
  }
  const close = Object.assign(document.createElement('button'), { type: 'button', textContent: 'Close' });
  close.onclick = () => dialog.close();
  dialog.replaceChildren(list, close);
  dialog.showModal();
}

document.addEventListener('keydown', (event) => {
  const element = /** @type {HTMLElement} */ (event.target);
  if (event.ctrlKey && event.key.toLowerCase() === 'z') { event.preventDefault(); step(event.shiftKey ? 'redo' : 'undo'); return; }
  if (event.ctrlKey || event.altKey || event.metaKey || /^(INPUT|SELECT|TEXTAREA)$/.test(element.tagName)) return;
  if (event.key === 'Escape') drawing.stop();
  if (event.key === 'Enter' && element.classList.contains('map')) {
    const { lng, lat } = view.map.getCenter();
    if (drawing.tool === 'polygon' && drawing.isAtLast([lng, lat])) drawing.finish();
    else if (drawing.tool) drawing.clicked([lng, lat]);
    else ask(Math.floor(lng), Math.floor(lat));
  }
  KEYS.find(([key]) => key === event.key)?.[2]();
});

listen((event) => { heard(event).catch((fault) => say(String(fault.message || fault), true)); });
await heard({ kind: 'jobs' });
app.ready = true;
