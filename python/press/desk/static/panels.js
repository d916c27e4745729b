// SPDX-License-Identifier: Apache-2.0
// The panels beside the picture: plates, settings, zones, why, findings, approval, downloads.

/** @param {string} id @returns {HTMLElement} */
export const byId = (id) => /** @type {HTMLElement} */ (document.getElementById(id));

/**
 * @param {string} tag @param {Record<string, any>} [properties] @param {(Node | string)[]} [children]
 * @returns {any}
 */
export function element(tag, properties = {}, children = []) {
  const made = Object.assign(document.createElement(tag), properties);
  made.append(...children);
  return made;
}

const percent = (/** @type {number} */ share) => `${Math.round(share * 100)} %`;
const SCALE = 10000;

/** What docs/JOBS.md calls the kinds of ink, and what an operator calls them. */
const KINDS = /** @type {[string, string][]} */ ([['Normal', 'normal'], ['Transparent', 'transparent (varnish)'], ['Opaque', 'opaque (white, metallic)'],
  ['OpaqueIgnore', 'keeps traps away (foil)']]);

/** Settings of `settrapparams`: key, label, least, most, step, unit. Values travel in ten-thousandths, as the job keeps them. */
const SETTINGS = /** @type {[string, string, number, number, number, string][]} */ ([
  ['TrapWidth', 'Trap width', 0.05, 4, 0.05, 'pt'], ['BlackWidth', 'Width at black', 0.5, 4, 0.1, 'times'],
  ['StepLimit', 'Step limit', 0, 1, 0.05, ''], ['SlidingTrapLimit', 'Sliding trap limit', 0, 1, 0.05, ''],
  ['TrapColorScaling', 'Trap colour scaling', 0, 1, 0.05, ''],
]);

/** What each panel shows. @type {Map<string, string>} */
const shown = new Map();

/** Has all panels built anew the next time: the page is another one, or a control shows what was refused. */
export function forgetPanels() { shown.clear(); }

/**
 * Builds a panel if what it shows has changed.
 * @param {(app: any, on: any) => void} build @param {any} app @param {any} on @param {any[]} what
 */
function showIfNew(build, app, on, ...what) {
  const key = JSON.stringify(what);
  if (shown.get(build.name) === key) return;
  shown.set(build.name, key);
  build(app, on);
}

/**
 * @param {any} app
 * @param {any} on
 */
export function showPanels(app, on) {
  const focused = document.activeElement?.id, { page } = app;
  showIfNew(showPlates, app, on, page.inks, page.dpi, app.shownInks, app.shifts);
  showIfNew(showSettings, app, on, page.settings, page.presets);
  showIfNew(showKeepaway, app, on, page.keepaway, page.edits.keepaway);
  showIfNew(showInks, app, on, page.inks);
  showIfNew(showRules, app, on, page.rules, page.siblings);
  showIfNew(showZones, app, on, page.edits.zones, page.settings, page.dpi, app.chosenZone);
  showIfNew(showJobZones, app, on, page.jobZones);
  showIfNew(showFindings, app, on, page.findings);
  showIfNew(showApproval, app, on, page.approval, page.notes);
  showIfNew(showDownloads, app, on, page.downloads, page.dpi);
  if (focused && focused !== document.activeElement?.id) byId(focused)?.focus();
}

/**
 * Densities and kinds of the inks.
 * @param {any} app
 * @param {any} on
 */
function showInks({ page }, on) {
  const head = element('tr', {}, ['Ink', 'Density', 'Kind'].map((text) => element('th', { textContent: text, scope: 'col' })));
  const rows = page.inks.map((/** @type {any} */ ink, /** @type {number} */ k) => {
    const set = (/** @type {any} */ more) => on.edit((/** @type {any} */ edits) => {
      edits.inks[ink.name] = { density: Math.round(ink.density * SCALE), kind: ink.kind, ...edits.inks[ink.name], ...more };
    });
    const density = element('input', { type: 'number', id: `density-${k}`, min: 0.001, max: 10, step: 0.01, value: String(ink.density) });
    density.setAttribute('aria-label', `Neutral density of ${ink.title}`);
    density.onchange = () => { if (Number(density.value) >= 0.001) set({ density: Math.round(Number(density.value) * SCALE) }); };
    const kind = element('select', { id: `kind-${k}` }, KINDS.map(([value, text]) => new Option(text, value, false, value === ink.kind)));
    kind.setAttribute('aria-label', `Kind of ${ink.title}`);
    kind.onchange = () => set({ kind: kind.value });
    return element('tr', {}, [ink.title, density, kind].map((cell) => element('td', {}, [cell])));
  });
  byId('details').replaceChildren(head, ...rows);
}

/**
 * @param {any} app
 * @param {any} on
 */
function showPlates(app, on) {
  const { page } = app, perMillimetre = page.dpi / 25.4;
  const head = element('tr', {}, ['Plate', 'Covers', 'Shift right', 'Shift down'].map((text) => element('th', { textContent: text, scope: 'col' })));
  const rows = page.inks.map((/** @type {any} */ ink, /** @type {number} */ k) => {
    const box = element('input', { type: 'checkbox', checked: !!(app.shownInks >> k & 1), id: `ink-${k}` });
    box.onchange = () => on.setInks(box.checked ? app.shownInks | 1 << k : app.shownInks & ~(1 << k));
    const chip = element('span', { className: 'chip' });
    chip.style.background = `rgb(${ink.light})`;
    const label = element('label', { htmlFor: `ink-${k}`, title: `density ${ink.density}, ${ink.kind}` }, [chip, ink.title]);
    const covers = element('td', { className: 'number', textContent: `${(ink.coverage[1] * 100).toFixed(1)} %`,
      title: `before trapping ${(ink.coverage[0] * 100).toFixed(2)} %, after ${(ink.coverage[1] * 100).toFixed(2)} %` });
    const shift = (/** @type {number} */ axis) => {
      const slider = element('input', { type: 'range', min: -0.4, max: 0.4, step: 0.02, id: `shift-${k}-${axis}`, value: 0 });
      slider.setAttribute('aria-label', `Misregistration of ${ink.title}, ${axis ? 'down' : 'across'}, in millimetres`);
      slider.value = String((app.shifts?.[k]?.[axis] || 0) / perMillimetre);
      slider.oninput = () => {
        app.shifts = app.shifts || page.inks.map(() => [0, 0]);
        app.shifts[k][axis] = Math.round(Number(slider.value) * perMillimetre);
        slider.title = `${slider.value} mm`;
        on.setShift(k, axis, app.shifts[k][axis]);
      };
      return element('td', {}, [slider]);
    };
    return element('tr', {}, [element('td', {}, [box, ' ', label]), covers, shift(0), shift(1)]);
  });
  byId('inks').replaceChildren(head, ...rows);
}

/**
 * A number and a slider for one value.
 * @param {string} id
 * @param {any[]} setting
 * @param {number} value
 * @param {(value: number) => void} set
 */
function control(id, [, label, least, most, step, unit], value, set) {
  const shown = (value / SCALE).toFixed(2).replace(/0$/, '');
  const number = element('input', { type: 'number', id, min: least, max: most, step, value: shown });
  const slider = element('input', { type: 'range', id: `${id}-slider`, min: least, max: most, step, value: shown });
  slider.setAttribute('aria-label', `${label}${unit ? `, ${unit}` : ''}`);
  const change = (/** @type {any} */ from) => { const next = Number(from.value); if (from.value !== '' && next >= least) set(Math.round(next * SCALE)); };
  slider.oninput = () => { number.value = slider.value; change(slider); };
  number.onchange = () => change(number);
  return element('div', { className: 'setting' }, [element('label', { htmlFor: id, textContent: unit ? `${label} (${unit})` : label }), number, slider]);
}

/**
 * @param {any} app
 * @param {any} on
 */
function showSettings({ page }, on) {
  const pick = element('select', { id: 'preset' }, [new Option('Preset …', ''), ...page.presets.map((/** @type {any} */ one) => new Option(one.name, one.name))]);
  pick.setAttribute('aria-label', 'Preset');
  pick.onchange = () => on.edit((/** @type {any} */ edits) => {
    const preset = page.presets.find((/** @type {any} */ one) => one.name === pick.value);
    Object.assign(edits.settings, preset?.settings);
    edits.keepaway = preset?.keepaway ?? edits.keepaway;
  });
  byId('settings').replaceChildren(pick, ...SETTINGS.map((setting) => control(`set-${setting[0]}`, setting, page.settings[setting[0]],
    (value) => on.edit((/** @type {any} */ edits) => { edits.settings[setting[0]] = value; }))));
}

/**
 * Keepaway: on or off, its width, and what it did on the page.
 * @param {any} app
 * @param {any} on
 */
function showKeepaway({ page }, on) {
  const { width, most, done } = page.keepaway, isOn = width > 0, own = page.edits.keepaway;
  const set = (/** @type {number | null} */ value) => on.edit((/** @type {any} */ edits) => { edits.keepaway = value; });
  const box = element('input', { type: 'checkbox', id: 'keepaway', checked: isOn });
  box.onchange = () => set(box.checked ? null : 0);
  const parts = [element('label', { htmlFor: box.id, className: 'rule', title: 'Inks under a rich black end before it does' }, [box, ' Keepaway: inks are drawn back under rich black'])];
  if (isOn) {
    parts.push(control('keepawaywidth', ['', 'Keepaway width', 0.05, Math.min(4, most / SCALE), 0.05, 'pt'], width, set));
    const usual = element('button', { type: 'button', id: 'keepawayusual', textContent: 'As wide as traps' });
    usual.onclick = () => set(null);
    if (own) parts.push(element('div', { className: 'row' }, [usual]));
  }
  byId('keepawaybox').replaceChildren(...parts, ...done.map((/** @type {string} */ textContent) => element('div', { className: 'dim', textContent })));
}

const RULES = /** @type {[string, string][]} */ ([['thin', 'Narrower traps at small type and thin lines'], ['images', 'No traps within images'],
  ['trim', "Traps within the page's box alone"]]);

/**
 * The press room's own rules, as far as the page has them; and applying all settings to the job's other pages.
 * @param {any} app
 * @param {any} on
 */
function showRules({ page }, on) {
  byId('rules').replaceChildren(...RULES.filter(([rule]) => rule in page.rules).map(([rule, text]) => {
    const box = element('input', { type: 'checkbox', id: `rule-${rule}`, checked: page.rules[rule] });
    box.onchange = () => on.edit((/** @type {any} */ edits) => {
      edits.off = edits.off.filter((/** @type {string} */ one) => one !== rule).concat(box.checked ? [] : [rule]).sort();
    });
    return element('label', { htmlFor: box.id, className: 'rule' }, [box, ` ${text}`]);
  }));
  if (!page.siblings) { byId('batch').replaceChildren(); return; }
  const all = element('button', { type: 'button', id: 'applyall', textContent: `Apply to ${page.siblings === 1 ? 'the other page' : `the ${page.siblings} other pages`}` });
  const zones = element('input', { type: 'checkbox', id: 'applyzones' });
  all.onclick = () => on.applyToAll(zones.checked);
  byId('batch').replaceChildren(element('div', { className: 'row' }, [all, element('label', { htmlFor: zones.id }, [zones, ' zones too'])]));
}

/** The zones of which all settings are shown. @type {Set<number>} */
const openZones = new Set();

/** @param {any} settings */
function settingsText(settings) {
  if (!settings.Enabled) return 'not trapped';
  return SETTINGS.map(([key, label, , , , unit]) => `${label.toLowerCase()} ${settings[key] / SCALE}${unit ? ` ${unit}` : ''}`).join(', ');
}

/**
 * All zones of the job with their parameters, each with a link to its place.
 * @param {any} app
 * @param {any} on
 */
function showJobZones({ page }, on) {
  byId('jobzones').replaceChildren(...page.jobZones.map((/** @type {any} */ zone, /** @type {number} */ k) => {
    const points = zone.rings.flat();
    const side = (/** @type {number} */ axis, /** @type {number} */ most) => points.map((/** @type {number[]} */ one) => Math.max(0, Math.min(most, one[axis])));
    const across = side(0, page.width), down = side(1, page.height), left = Math.min(...across), top = Math.min(...down);
    const go = element('button', { type: 'button', textContent: `${k + 1}: ${zone.name}`, id: `jobzone-${k}` });
    go.onclick = () => on.goTo([left, top, Math.max(...across) - left, Math.max(...down) - top]);
    return element('li', {}, [go, element('div', { className: 'dim', textContent: settingsText(zone.settings) })]);
  }));
}

/**
 * @param {any} app
 * @param {any} on
 */
function showZones(app, on) {
  const { page } = app;
  byId('zones').replaceChildren(...page.edits.zones.map((/** @type {any} */ zone, /** @type {number} */ k) => {
    const change = (/** @type {(zone: any) => void} */ make) => on.edit((/** @type {any} */ edits) => make(edits.zones[k]));
    const name = element('input', { type: 'text', value: zone.name, id: `zone-${k}-name` });
    name.setAttribute('aria-label', `Name of zone ${k + 1}`);
    name.onchange = () => change((one) => { one.name = name.value; });
    const choose = element('button', { type: 'button', textContent: app.chosenZone === k ? 'Done' : 'Corners' });
    choose.onclick = () => on.choose(k);
    const remove = element('button', { type: 'button', textContent: 'Delete' });
    remove.onclick = () => on.edit((/** @type {any} */ edits) => { edits.zones.splice(k, 1); });
    const enabled = zone.settings.Enabled ?? page.settings.Enabled;
    const tick = (/** @type {string} */ id, /** @type {string} */ text, /** @type {boolean} */ value, /** @type {(value: boolean) => void} */ set) => {
      const box = element('input', { type: 'checkbox', checked: value, id: `zone-${k}-${id}` });
      box.onchange = () => set(box.checked);
      return element('label', { htmlFor: `zone-${k}-${id}` }, [box, ` ${text}`]);
    };
    const parts = [name, element('div', { className: 'row' }, [tick('on', 'traps', enabled, (value) => change((one) => { one.settings.Enabled = value; })),
      tick('over', 'over images too', zone.overImages, (value) => change((one) => { one.overImages = value; }))])];
    if (enabled) {
      const [width, ...others] = SETTINGS.map((setting, at) => control(`zone-${k}-${at ? setting[0] : 'width'}`, setting,
        zone.settings[setting[0]] ?? page.settings[setting[0]], (value) => change((one) => { one.settings[setting[0]] = value; })));
      const more = element('details', { open: openZones.has(k) }, [element('summary', { textContent: 'More settings' }), ...others]);
      more.ontoggle = () => { if (more.open) openZones.add(k); else openZones.delete(k); };
      parts.push(width, more);
    }
    if (app.chosenZone === k) parts.push(corners(page, zone, k, change));
    parts.push(element('div', { className: 'row' }, [choose, remove]));
    return element('li', { className: 'zone' }, parts);
  }));
}

/**
 * Corners as numbers, in millimetres from the page's top left corner, for those who do not drag.
 * @param {any} page
 * @param {any} zone
 * @param {number} k
 * @param {any} change
 */
function corners(page, zone, k, change) {
  const perMillimetre = page.dpi / 25.4;
  const head = element('div', { className: 'dim', textContent: 'Corners in mm, from the left and from the top' });
  return element('div', {}, [head, ...zone.points.map((/** @type {number[]} */ point, /** @type {number} */ c) => element('div', { className: 'row' }, [0, 1].map((axis) => {
    const box = element('input', { type: 'number', step: 0.1, id: `zone-${k}-${c}-${axis}`, value: (point[axis] / perMillimetre).toFixed(2) });
    box.setAttribute('aria-label', `Corner ${c + 1}, ${axis ? 'from the top' : 'from the left'}, in millimetres`);
    box.onchange = () => change((/** @type {any} */ one) => { one.points[c][axis] = Math.round(Number(box.value) * perMillimetre); });
    return box;
  })))]);
}

/**
 * What preflight found, the gravest first, with links to its places.
 * @param {any} app
 * @param {any} on
 */
function showFindings({ page }, on) {
  const { findings } = page;
  byId('findings').replaceChildren(...(findings.length ? findings.map((/** @type {any} */ finding, /** @type {number} */ k) => {
    const links = finding.places.map((/** @type {number[]} */ place, /** @type {number} */ number) => {
      const text = finding.places.length > 1 ? String(number + 1) : 'show';
      const go = element('button', { type: 'button', className: 'place', id: `finding-${k}-${number}`, textContent: text });
      go.setAttribute('aria-label', `Show place ${number + 1} of ${finding.places.length}: ${finding.text}`);
      go.onclick = () => on.goTo(place);
      return go;
    });
    return element('li', { className: `finding level-${finding.level}` }, [element('strong', { textContent: finding.level }), ` ${finding.text} `, ...links]);
  }) : [element('li', { className: 'dim', textContent: 'Preflight found nothing to report.' })]));
}

/**
 * @param {any} app
 * @param {any} on
 */
function showApproval({ page }, on) {
  const { approval, notes } = page;
  const said = !approval ? 'Not approved yet.' : `${approval.verdict} by ${approval.name}, ${approval.time}${approval.current ? '' : ': out of date, the page has changed since'}`;
  const name = element('input', { type: 'text', id: 'approver', value: localStorage.getItem('approver') || '' });
  const note = element('textarea', { id: 'note', rows: 2 });
  const give = (/** @type {string} */ verdict) => { localStorage.setItem('approver', name.value); on.approve({ verdict, name: name.value }); };
  const yes = element('button', { type: 'button', textContent: 'Approve' }), no = element('button', { type: 'button', textContent: 'Reject' });
  yes.onclick = () => give('approved');
  no.onclick = () => give('rejected');
  const add = element('button', { type: 'button', textContent: 'Add a note here' });
  add.onclick = () => { if (note.value.trim()) on.addNote(note.value.trim()); };
  const list = (notes || []).map((/** @type {any} */ one) => {
    const go = element('button', { type: 'button', textContent: one.text });
    go.onclick = () => on.goTo(one.place);
    return element('li', {}, [go, element('span', { className: 'dim', textContent: ` ${one.time}` })]);
  });
  byId('approval').replaceChildren(element('p', { textContent: said, className: approval?.current && approval.verdict === 'approved' ? 'approved' : '' }),
    element('label', { htmlFor: 'approver', textContent: 'Your name' }), name, element('div', { className: 'row' }, [yes, no]),
    element('label', { htmlFor: 'note', textContent: 'Note on the pixel that was clicked last' }), note, add, element('ul', {}, list));
}

/**
 * @param {any} app
 * @param {any} on
 */
function showDownloads({ page }, on) {
  const dpi = element('input', { type: 'number', id: 'screendpi', min: page.dpi, max: 20000, value: String(Math.max(2400, page.dpi)) });
  const lpi = element('input', { type: 'number', id: 'screenlpi', min: 10, max: 400, value: '150' });
  const list = page.downloads.map((/** @type {any} */ one) => {
    const button = element('button', { type: 'button', id: `save-${one.kind}`, textContent: one.title }), isScreened = one.kind === 'screened';
    button.onclick = () => on.save(one.kind, isScreened ? { dpi: Math.round(Number(dpi.value)), lpi: Math.round(Number(lpi.value)) } : {});
    const more = isScreened ? [element('div', { className: 'row' }, [dpi, element('label', { htmlFor: dpi.id, textContent: 'dpi,' }), lpi,
      element('label', { htmlFor: lpi.id, textContent: 'lines per inch' })])] : [];
    return element('li', {}, [button, ...more]);
  });
  byId('downloads').replaceChildren(...list);
}

/**
 * @param {any} page
 * @param {any} answer
 */
export function showWhy(page, answer) {
  const tint = (/** @type {number} */ value) => percent(value / page.maxval);
  const head = element('tr', {}, ['Plate', 'Before', 'After'].map((text, k) => element('th', { textContent: text, scope: 'col', className: k ? 'number' : '' })));
  const rows = answer.inks.map((/** @type {string} */ title, /** @type {number} */ k) => (answer.before[k] || answer.after[k] ? element('tr', {},
    [element('td', { textContent: title }), element('td', { className: 'number', textContent: tint(answer.before[k]) }),
      element('td', { className: 'number', textContent: tint(answer.after[k]) })]) : null)).filter(Boolean);
  const side = (/** @type {any} */ colour) => `${answer.inks.map((/** @type {string} */ title, /** @type {number} */ k) => (colour.tints[k] ? `${title} ${tint(colour.tints[k])}` : '')).filter(Boolean).join(', ') || 'paper'}; neutral density ${colour.density.toFixed(2)}`;
  const lines = [`Pixel ${answer.x}, ${answer.y}, zone ${answer.zone} (${answer.zoneName}): ${answer.reason}.`, `There: ${settingsText(answer.settings)}.`];
  if (answer.edge) {
    lines.push(`This side: ${side(answer.edge.own)}.`, `Across the edge: ${side(answer.edge.across)}.`,
      `The edge is ${answer.edge.distance.toFixed(1)} pixels away; the trap reaches ${answer.edge.reach.toFixed(1)}${answer.edge.isBlack ? ', width at black' : ''}${answer.edge.isCentred ? ', centred' : ''}.`);
  }
  if (answer.drawnBack.length) lines.push(`Keepaway drew back here before the page was trapped: ${answer.drawnBack.join(', ')}.`);
  byId('why').replaceChildren(element('table', {}, [head, ...rows]), ...lines.map((text) => element('div', { textContent: text })));
}
