// SPDX-License-Identifier: Apache-2.0
// The page as a Leaflet map: one unit is one pixel of the plates, y grows downwards, and zoom 0 is 1:1.
import * as L from '/leaflet/leaflet.esm.min.js';
import { gapsIn, send } from './api.js';

const TILE = 512;
const CRS = L.extend({}, L.CRS.Simple, { transformation: new L.Transformation(1, 0, 1, 0) });
const CLOSEST = 5;

/** After the next frame is painted. */
const painted = () => new Promise((done) => {
  requestAnimationFrame(() => { const channel = new MessageChannel(); channel.port1.onmessage = () => done(performance.now()); channel.port2.postMessage(0); });
});

/** One picture of a page. */
export class PageView {
  /**
   * @param {HTMLElement} element
   * @param {{click?: (x: number, y: number) => void, fault?: (text: string) => void, gaps?: (count: number | null) => void}} on
   */
  constructor(element, on = {}) {
    this.element = element;
    this.on = on;
    /** @type {any} */ this.page = null;
    this.mode = 'after';
    this.shownInks = 0xffff;
    this.soft = false;
    this.marksGaps = false;
    /** @type {any} */ this.other = null;
    /** @type {number[][]} */ this.shifts = [];
    /** @type {any} */ this.edits = null;
    this.busy = false;
    this.again = false;
    /** @type {{key: string, pixels: Uint32Array}} */ this.base = { key: '', pixels: new Uint32Array(0) };
    /** The canvas of the live picture, its part of the page, and the pixels in which it differs from the picture before.
     * @type {{canvas: HTMLCanvasElement, image: ImageData, part: string, key: string, changed: Uint32Array} | null} */ this.picture = null;
    /** @type {{total: number, bytes: number}[]} */ this.times = [];
    /** @type {any} */ this.live = null;
    this.map = L.map(element, { crs: CRS, minZoom: -8, maxZoom: CLOSEST, fadeAnimation: false, zoomAnimation: false, attributionControl: false,
      zoomControl: false, keyboardPanDelta: 120 });
    this.map.createPane('live').style.zIndex = '300';
    this.marks = L.layerGroup().addTo(this.map);
    this.map.on('click', (/** @type {any} */ event) => this.on.click?.(Math.floor(event.latlng.lng), Math.floor(event.latlng.lat)));
    this.map.on('moveend', () => this.moved());
  }

  /**
   * Shows a page; the place on it stays if it has the same size.
   * @param {any} page
   * @param {any} [beside] the map that shows the same place
   */
  open(page, beside = null) {
    const isSame = this.page && this.page.id === page.id;
    const keepsPlace = this.page && this.page.width === page.width && this.page.height === page.height;
    this.page = page;
    if (isSame) { this.refresh(); return; }
    this.shifts = page.inks.map(() => [0, 0]);
    this.hideLive();
    this.tiles?.remove();
    this.map.setMinZoom(-page.levels - 1);
    this.map.setMaxBounds([[-page.height, -page.width], [2 * page.height, 2 * page.width]]);
    this.tiles = L.tileLayer('', { tileSize: TILE, minNativeZoom: -page.levels, maxNativeZoom: 0, minZoom: -page.levels - 1, maxZoom: CLOSEST,
      bounds: [[0, 0], [page.height, page.width]], noWrap: true, updateInterval: 30, keepBuffer: 1 });
    this.tiles.getTileUrl = (/** @type {any} */ at) => this.address(at);
    this.tiles.on('tileloadstart', (/** @type {any} */ event) => this.fitTile(event));
    this.tiles.addTo(this.map);
    if (beside) this.map.setView(beside.getCenter(), beside.getZoom(), { animate: false });
    else if (!keepsPlace) this.fit();
  }

  /**
   * Shows the place that another map shows, to the pixel: setView cuts half pixels, which windows of odd sizes have.
   * @param {any} map
   */
  moveTo(map) {
    const zoom = map.getZoom();
    if (zoom !== this.map.getZoom()) { this.map.setView(map.getCenter(), zoom, { animate: false }); return; }
    const offset = map.project(map.getCenter(), zoom).subtract(this.map.project(this.map.getCenter(), zoom)).round();
    if (offset.x || offset.y) this.map.panBy(offset, { animate: false });
  }

  fit() { this.map.fitBounds([[0, 0], [this.page.height, this.page.width]]); }

  /**
   * The tile's address has the version, so that the browser keeps tiles for ever.
   * @param {{x: number, y: number, z: number}} at
   */
  address(at) {
    const version = this.mode === 'before' ? 0 : this.page.shown;
    return `/api/pages/${this.page.id}/tiles/${this.mode}/${this.page.epoch}-${version}/${this.shownInks}/${Math.max(0, -at.z)}/${at.x}/${at.y}${this.soft ? '?soft' : ''}`;
  }

  /**
   * Leaflet gives each tile its full size; one at the page's border is smaller.
   * @param {any} event
   */
  fitTile({ tile, coords }) {
    const size = this.tiles.getTileSize(), scale = 2 ** Math.max(0, -coords.z);
    const share = (/** @type {number} */ side, /** @type {number} */ at) => Math.min(TILE, Math.ceil(side / scale) - at * TILE) / TILE;
    tile.style.width = `${share(this.page.width, coords.x) * size.x}px`;
    tile.style.height = `${share(this.page.height, coords.y) * size.y}px`;
    tile.alt = '';
  }

  /** New pictures in the tiles that are there: each old one stays until the new one is decoded, so nothing flickers. */
  refresh() {
    if (!this.tiles) return Promise.resolve([]);
    const waits = Object.values(this.tiles._tiles).map((/** @type {any} */ { el, coords }) => {
      const next = this.address({ ...coords, z: Math.min(0, coords.z) });
      if (el.getAttribute('src') === next) return null;
      // A later picture may replace this one before it is there, and ends the wait for both.
      return new Promise((done) => { for (const end of ['load', 'error']) el.addEventListener(end, done, { once: true }); el.src = next; });
    });
    return Promise.all(waits);
  }

  /**
   * @param {string} mode
   * @param {number} shownInks
   */
  async show(mode, shownInks) {
    this.mode = mode;
    this.shownInks = shownInks;
    if (this.needsLive()) await this.look(); else this.hideLive();
    await this.refresh();
  }

  isShifted() { return this.shifts.some(([x, y]) => x || y); }
  isNear() { return this.map.getZoom() >= 0; }
  needsLive() {
    return this.isNear() && (this.isShifted() || (this.mode !== 'before' && (!!this.other || this.page.version !== this.page.shown)));
  }

  /** The visible part in pixels of the page. */
  visible() {
    const box = this.map.getBounds(), { width, height } = this.page;
    const left = Math.max(0, Math.floor(box.getWest())), top = Math.max(0, Math.floor(Math.min(box.getNorth(), box.getSouth())));
    const right = Math.min(width, Math.ceil(box.getEast())), bottom = Math.min(height, Math.ceil(Math.max(box.getNorth(), box.getSouth())));
    return { left, top, width: Math.max(0, right - left), height: Math.max(0, bottom - top) };
  }

  moved() {
    this.element.classList.toggle('close', this.map.getZoom() > 0);
    if (!this.page) return;
    if (this.needsLive()) this.look(); else { this.hideLive(); this.prepare(); }
  }

  hideLive() {
    this.live?.remove();
    this.live = null;
    this.on.gaps?.(null);
  }

  /** Whether a change of the job changes what is seen at 1:1. */
  followsJob() { return this.isNear() && this.mode !== 'before'; }

  /** The picture before trapping of what is visible is fetched ahead, so that a change sends changed pixels alone. */
  prepare() {
    clearTimeout(this.idle);
    this.idle = setTimeout(() => { if (this.isNear() && !this.busy) this.fetchBase().catch(() => {}); }, 150);
  }

  async fetchBase() {
    const part = this.visible(), key = JSON.stringify([this.page.id, this.page.epoch, part, this.shownInks]);
    if (this.base.key === key || !part.width || !part.height) return;
    const answer = await send(`/api/pages/${this.page.id}/view`, { ...part, mode: 'before', inks: this.shownInks });
    this.base = { key, pixels: new Uint32Array(await answer.arrayBuffer()) };
  }

  /** Draws the visible part at 1:1 by the job as it is now. One request at a time; a later one waits, the last one counts. */
  async look() {
    if (this.busy) { this.again = true; return; }
    this.busy = true;
    try {
      do {
        this.again = false;
        await this.drawLive();
      } while (this.again);
    } catch (fault) {
      this.on.fault?.(String(fault instanceof Error ? fault.message : fault));
    } finally { this.busy = false; }
  }

  async drawLive() {
    if (!this.needsLive()) { this.hideLive(); return; }
    const start = this.changedAt || performance.now(), asked = await this.request();
    this.changedAt = 0;
    if (!asked) return;
    const answer = await send(`/api/pages/${this.page.id}/view`, asked);
    this.draw(asked, new Uint32Array(await answer.arrayBuffer()), start, gapsIn(answer));
  }

  /** What the server is asked to draw of what is visible; null if nothing is. */
  async request() {
    const part = this.visible();
    if (!part.width || !part.height) return null;
    const isDelta = this.mode === 'after' && !this.isShifted() && !this.soft;
    if (isDelta) await this.fetchBase();
    return { ...part, mode: this.mode, inks: this.shownInks, delta: isDelta, soft: this.soft, other: this.other || {},
      ...(this.isShifted() ? { shifts: this.shifts, gaps: this.marksGaps } : {}) };
  }

  /**
   * Whether what was asked for is still what is visible.
   * @param {any} asked
   */
  isStill({ left, top, width, height }) { return JSON.stringify({ left, top, width, height }) === JSON.stringify(this.visible()); }

  /**
   * Draws what the server answered.
   * @param {any} asked
   * @param {Uint32Array} data
   * @param {number} start when the change was made that is drawn
   * @param {number | null} gaps the pixels that are marked as gaps
   */
  draw(asked, data, start, gaps) {
    const { left, top, width, height } = asked, picture = this.pictureOf(asked), pixels = new Uint32Array(picture.image.data.buffer);
    let [from, to] = [0, height];
    if (asked.delta) [from, to] = this.over(picture, pixels, data);
    else { pixels.set(data); picture.key = ''; }
    picture.canvas.getContext('2d', { alpha: false })?.putImageData(picture.image, 0, 0, 0, from, width, to - from);
    if (this.live?.getElement() !== picture.canvas) {
      this.hideLive();
      this.live = L.svgOverlay(/** @type {any} */ (picture.canvas), [[top, left], [top + height, left + width]], { pane: 'live' }).addTo(this.map);
    }
    this.on.gaps?.(gaps);
    painted().then((/** @type {number} */ at) => this.times.push({ total: at - start, bytes: data.byteLength }));
  }

  /**
   * The picture of a part: that of the last time if it is of the same part.
   * @param {any} asked
   */
  pictureOf({ left, top, width, height }) {
    const part = JSON.stringify([this.page.id, left, top, width, height]);
    if (this.picture?.part === part) return this.picture;
    const canvas = document.createElement('canvas');
    Object.assign(canvas, { width, height, className: 'live-picture' });
    this.picture = { canvas, image: new ImageData(width, height), part, key: '', changed: new Uint32Array(0) };
    return this.picture;
  }

  /**
   * Changed pixels over the picture before: first all places in their order, then all colours. Answers the rows that may
   * have changed: the first, and the one after the last.
   * @param {any} picture
   * @param {Uint32Array} pixels
   * @param {Uint32Array} changes
   */
  over(picture, pixels, changes) {
    const { key, pixels: base } = this.base, count = changes.length / 2, places = changes.subarray(0, count), old = picture.changed;
    const isSame = picture.key === key, { width, height } = picture.image;
    if (isSame) for (let k = 0; k < old.length; k += 1) pixels[old[k]] = base[old[k]];
    else pixels.set(base);
    for (let k = 0; k < count; k += 1) pixels[places[k]] = changes[count + k];
    Object.assign(picture, { key, changed: places });
    if (!isSame) return [0, height];
    const ends = [old, places].filter((one) => one.length).map((one) => [one[0], one[one.length - 1]]);
    return ends.length ? [Math.floor(Math.min(...ends.map(([first]) => first)) / width), Math.floor(Math.max(...ends.map(([, last]) => last)) / width) + 1] : [0, 0];
  }
}

export { L };
