// SPDX-License-Identifier: Apache-2.0
// The list of jobs: uploads, progress by page, findings, and cancelling.
import { send, upload } from './api.js';
import { byId, element } from './panels.js';
import { say } from './main.js';

const TIFF = /\.tiff?$/i, PAGES = /\.(pdf|ps|eps|ai)$/i;

/**
 * @param {any} app
 * @param {(id: string) => void} open
 */
export function showJobs(app, open) {
  const pick = /** @type {HTMLSelectElement} */ (byId('page')), chosen = app.page?.id, focused = document.activeElement?.id;
  pick.replaceChildren();
  byId('joblist').replaceChildren(...app.jobs.map((/** @type {any} */ job) => {
    for (const page of job.pages) if (page.id) pick.add(new Option(`${job.name}, page ${page.number}`, page.id));
    return element('li', {}, [element('div', { textContent: job.name }), ...findings(job), ...progress(job),
      element('ul', { className: 'pages' }, job.pages.map((/** @type {any} */ page) => pageItem(job, page, open, chosen)))]);
  }));
  if (chosen) pick.value = chosen;
  if (focused) byId(focused)?.focus();
}

/**
 * One page: a button that opens it; or what is going on, and a button that cancels it.
 * @param {any} job @param {any} page @param {(id: string) => void} open @param {string | undefined} chosen
 */
function pageItem(job, page, open, chosen) {
  const button = element('button', { type: 'button', textContent: String(page.number), disabled: !page.id, title: page.message || `page ${page.number}`,
    className: `state-${page.state}`, id: `open-${job.id}-${page.number}` });
  button.setAttribute('aria-label', `Page ${page.number} of ${job.name}${page.message ? `: ${page.message}` : ''}`);
  if (page.id && page.id === chosen) button.setAttribute('aria-current', 'page');
  button.onclick = () => open(page.id);
  const parts = [button];
  if (page.message) parts.push(element('span', { className: page.state === 'failed' ? 'state-failed' : 'dim', textContent: page.message }));
  if (page.state === 'waiting' || page.state === 'running') parts.push(cancelButton(job, page.number));
  return element('li', {}, parts);
}

/**
 * @param {any} job
 * @param {number} [page]
 */
function cancelButton(job, page) {
  const button = element('button', { type: 'button', textContent: page ? 'Cancel' : 'Cancel all', id: `cancel-${job.id}-${page || 'all'}` });
  button.setAttribute('aria-label', page ? `Cancel page ${page} of ${job.name}` : `Cancel ${job.name}`);
  button.onclick = () => send(`/api/jobs/${job.id}/cancel`, page ? { page } : {}).catch((fault) => say(fault.message, true));
  return button;
}

/** @param {any} job */
function progress(job) {
  if (job.state !== 'running' && job.state !== 'waiting') {
    return job.message ? [element('div', { className: job.state === 'failed' ? 'state-failed' : 'dim', textContent: job.message })] : [];
  }
  const done = job.pages.filter((/** @type {any} */ page) => page.id).length;
  const bar = element('progress', { max: Math.max(1, job.pages.length), value: done });
  bar.setAttribute('aria-label', `${job.name}: ${done} of ${job.pages.length} pages`);
  return [element('div', { className: 'dim', textContent: job.message || 'working' }), bar, ...(job.pages.length > 1 ? [cancelButton(job)] : [])];
}

/**
 * What preflight found in the file, while its pages are being made.
 * @param {any} job
 */
function findings(job) {
  if (!job.findings.length) return [];
  const warnings = job.findings.filter((/** @type {any} */ one) => one.level === 'warning').length;
  const text = `${job.findings.length} findings${warnings ? `, ${warnings} of them warnings` : ''}`;
  return [element('details', { open: job.state === 'running' && warnings > 0 }, [element('summary', { textContent: text }),
    element('ul', {}, job.findings.map((/** @type {any} */ one) => element('li', { textContent: `${one.level}: ${one.text}` })))])];
}

/**
 * Uploads files: each document is a job, and the separations that were given together are one page.
 * @param {File[]} files
 */
async function take(files) {
  const plates = files.filter((file) => TIFF.test(file.name)), documents = files.filter((file) => PAGES.test(file.name));
  const others = files.length - plates.length - documents.length;
  if (!plates.length && !documents.length) { if (files.length) say('No PDF, PostScript, EPS or TIFF file among them.', true); return; }
  try {
    for (const file of documents) { say(`Uploading ${file.name}`); await upload(file); }
    await takePlates(plates);
    say(others ? `Uploaded; ${others} other files were left out.` : 'Uploaded.');
  } catch (fault) { say(String(fault instanceof Error ? fault.message : fault), true); }
}

/** @param {File[]} plates the separations of one page */
async function takePlates(plates) {
  const set = [...crypto.getRandomValues(new Uint8Array(16))].map((byte) => byte.toString(16).padStart(2, '0')).join('');
  const dpi = /** @type {HTMLInputElement} */ (byId('tiffdpi')).value, inverted = /** @type {HTMLInputElement} */ (byId('inverted')).checked;
  for (const file of plates) {
    say(`Uploading ${file.name}`);
    await upload(file, { set, of: String(plates.length), ...(dpi ? { dpi } : {}), ...(inverted ? { inverted: '1' } : {}) });
  }
}

/**
 * The files that were dropped, those in folders among them.
 * @param {DataTransfer} data
 */
async function dropped(data) {
  const entries = [...data.items].map((item) => item.webkitGetAsEntry()).filter(Boolean), files = /** @type {File[]} */ ([]);
  const walk = async (/** @type {any} */ entry) => {
    if (entry.isFile) { files.push(await new Promise((done, failed) => { entry.file(done, failed); })); return; }
    const reader = entry.createReader();
    for (;;) {
      const some = /** @type {any[]} */ (await new Promise((done, failed) => { reader.readEntries(done, failed); }));
      if (!some.length) return;
      for (const one of some) await walk(one);
    }
  };
  for (const entry of entries) await walk(entry);
  return files.length ? files : [...data.files];
}

for (const id of ['file', 'folder']) {
  const input = /** @type {HTMLInputElement} */ (byId(id));
  input.onchange = () => { take([...(input.files || [])]); input.value = ''; };
}
document.addEventListener('dragover', (event) => { event.preventDefault(); byId('drop').classList.add('over'); });
document.addEventListener('dragleave', () => byId('drop').classList.remove('over'));
document.addEventListener('drop', async (event) => {
  event.preventDefault();
  byId('drop').classList.remove('over');
  if (event.dataTransfer) take(await dropped(event.dataTransfer));
});
