// SPDX-License-Identifier: Apache-2.0
// The second picture: the page before trapping, an earlier version of its job, other settings, or another page.
import { get } from './api.js';
import { byId } from './panels.js';

/**
 * What the second picture can show.
 * @param {any} app
 */
export function listCompared(app) {
  const pick = /** @type {HTMLSelectElement} */ (byId('compared')), chosen = pick.value || 'before', { page } = app;
  const group = (/** @type {string} */ label, /** @type {HTMLOptionElement[]} */ options) => {
    if (!options.length) return [];
    const made = Object.assign(document.createElement('optgroup'), { label });
    made.append(...options);
    return [made];
  };
  const earlier = page.versions.filter((/** @type {any} */ one) => one.number !== page.version).reverse();
  const pages = app.jobs.flatMap((/** @type {any} */ job) => job.pages.filter((/** @type {any} */ one) => one.id && one.id !== page.id)
    .map((/** @type {any} */ one) => new Option(`${job.name}, page ${one.number}`, `page ${one.id}`)));
  pick.replaceChildren(new Option('before trapping', 'before'), new Option('the same', 'same'),
    ...group('Earlier versions', earlier.map((/** @type {any} */ one) => new Option(`version ${one.number}, ${one.time.slice(11, 19)}`, `version ${one.number}`))),
    ...group('Other settings', page.presets.map((/** @type {any} */ one) => new Option(`preset ${one.name}`, `preset ${one.name}`))),
    ...group('Other pages', pages));
  pick.value = chosen;
  if (!pick.value) pick.value = 'before';
}

/**
 * Shows what was chosen in the second picture, at the place of the first one.
 * @param {any} app
 * @param {import('./view.js').PageView} view
 * @param {import('./view.js').PageView} other
 */
export async function showCompared(app, view, other) {
  const [kind, name = ''] = /** @type {HTMLSelectElement} */ (byId('compared')).value.split(/ (.*)/s);
  other.map.invalidateSize();
  other.soft = view.soft;
  other.other = kind === 'version' ? { version: Number(name) }
    : kind === 'preset' ? { settings: app.page.presets.find((/** @type {any} */ one) => one.name === name).settings } : null;
  other.open(kind === 'page' ? await get(`/api/pages/${name}`) : { ...app.page }, view.map);
  if (kind !== 'page') other.shifts = view.shifts;
  await other.show(kind === 'before' ? 'before' : app.mode === 'before' ? 'after' : app.mode, app.shownInks);
  other.moveTo(view.map);
  byId('comparedhint').hidden = !other.other || view.isNear();
}
