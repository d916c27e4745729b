// SPDX-License-Identifier: Apache-2.0
// Zones on the page: their outlines, corners to drag, and drawing new ones.
import { L } from './view.js';

/** Draws rectangles and polygons by mouse, pen or touch, and by clicks alone. */
export class Drawing {
  /**
   * @param {import('./view.js').PageView} view
   * @param {(points: number[][]) => void} done
   */
  constructor(view, done) {
    this.view = view;
    this.done = done;
    /** @type {null | 'rectangle' | 'polygon'} */ this.tool = null;
    /** @type {number[][]} */ this.points = [];
    /** @type {any} */ this.outline = null;
    view.map.on('click', (/** @type {any} */ event) => this.clicked([event.latlng.lng, event.latlng.lat]));
    view.map.on('mousemove', (/** @type {any} */ event) => this.trace([event.latlng.lng, event.latlng.lat]));
    view.map.on('dblclick', () => this.finish());
  }

  /** @param {'rectangle' | 'polygon'} tool */
  start(tool) {
    this.stop();
    this.tool = tool;
    this.view.element.classList.add('drawing');
    this.view.map.doubleClickZoom.disable();
    this.view.element.focus();
  }

  stop() {
    this.tool = null;
    this.points = [];
    this.outline?.remove();
    this.outline = null;
    this.view.element.classList.remove('drawing');
    setTimeout(() => this.view.map.doubleClickZoom.enable(), 300);
  }

  /** @param {number[]} point */
  clicked(point) {
    if (!this.tool) return;
    this.points.push(point.map(Math.round));
    if (this.tool === 'rectangle' && this.points.length === 2) this.finish();
    else this.trace(point);
  }

  /** @param {number[]} point */
  isAtLast(point) {
    const [x, y] = point.map(Math.round), last = this.points.at(-1);
    return this.points.length > 2 && !!last && last[0] === x && last[1] === y;
  }

  /** @param {number[]} point */
  trace(point) {
    if (!this.tool || !this.points.length) return;
    this.outline?.remove();
    this.outline = L.polygon(corners(this.tool, [...this.points, point.map(Math.round)]).map(([x, y]) => [y, x]), { weight: 2, dashArray: '5', interactive: false })
      .addTo(this.view.map);
  }

  finish() {
    const points = this.tool ? corners(this.tool, this.points) : [];
    this.stop();
    const isArea = new Set(points.map(([x]) => x)).size > 1 && new Set(points.map(([, y]) => y)).size > 1;
    if (points.length > 2 && isArea) this.done(points);
  }
}

/**
 * @param {'rectangle' | 'polygon'} tool
 * @param {number[][]} points
 */
function corners(tool, points) {
  if (tool === 'polygon' || points.length < 2) return points;
  const [[x0, y0], [x1, y1]] = points;
  return [[x0, y0], [x1, y0], [x1, y1], [x0, y1]];
}

/** What was drawn last, so that nothing is drawn again that is there. */
let drawn = '';

/** Has the zones drawn anew the next time: a corner may be where it was refused. */
export function forgetZones() { drawn = ''; }

/**
 * Outlines of the job's zones, and corners of the chosen one to drag.
 * @param {any} layer @param {any} page @param {number} chosen @param {(corner: number, point: number[]) => void} moved
 */
export function drawZones(layer, page, chosen, moved) {
  const key = JSON.stringify([page.id, chosen, page.edits.zones[chosen], page.jobZones.map((/** @type {any} */ zone) => [zone.rings, zone.settings.Enabled])]);
  if (key === drawn) return;
  drawn = key;
  layer.clearLayers();
  for (const zone of page.jobZones) {
    const rings = zone.rings.map((/** @type {number[][]} */ ring) => [ring.map(([x, y]) => [y, x])]), isOff = !zone.settings.Enabled;
    L.polygon(rings, { weight: 1, stroke: zone.rings.length === 1, color: isOff ? '#b3261e' : '#0b57d0', fillOpacity: isOff ? 0.15 : 0, interactive: false })
      .addTo(layer);
  }
  const zone = page.edits.zones[chosen];
  if (!zone) return;
  L.polygon(zone.points.map((/** @type {number[]} */ [x, y]) => [y, x]), { weight: 3, fill: false, interactive: false }).addTo(layer);
  zone.points.forEach((/** @type {number[]} */ [x, y], /** @type {number} */ k) => {
    const marker = L.marker([y, x], { draggable: true, keyboard: true, title: `Corner ${k + 1} of ${zone.name}`,
      icon: L.divIcon({ className: '', html: '<div class="corner"></div>', iconSize: [0, 0] }) }).addTo(layer);
    marker.on('dragend', () => { const at = marker.getLatLng(); moved(k, [Math.round(at.lng), Math.round(at.lat)]); });
  });
}
