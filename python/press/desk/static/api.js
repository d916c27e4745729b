// SPDX-License-Identifier: Apache-2.0
// Talks to the server: requests, and one WebSocket for all events.

/** A change that was made on a version which another browser has changed since. */
export class Conflict extends Error {}

/** @param {Response} answer */
async function checked(answer) {
  if (answer.ok) return answer;
  const body = await answer.json().catch(() => ({}));
  const text = body.error || `${answer.status} ${answer.statusText}`;
  throw answer.status === 409 ? new Conflict(text) : new Error(text);
}

/** @param {string} path */
export async function get(path) {
  return (await checked(await fetch(path))).json();
}

/**
 * @param {string} path
 * @param {unknown} body
 * @param {string} [method]
 */
export async function send(path, body, method = 'POST') {
  return checked(await fetch(path, { method, headers: { 'content-type': 'application/json' }, body: JSON.stringify(body) }));
}

/**
 * The page in an answer, and the pixels behind it if there are any: the length of the JSON, the JSON, and the pixels.
 * @param {Response} answer
 */
export async function pageAndPixels(answer) {
  if (answer.headers.get('content-type') === 'application/json') return { page: await answer.json(), pixels: null, gaps: null };
  const data = await answer.arrayBuffer(), length = new DataView(data).getUint32(0, true);
  return { page: JSON.parse(new TextDecoder().decode(new Uint8Array(data, 4, length))), pixels: new Uint32Array(data, 4 + length), gaps: gapsIn(answer) };
}

/**
 * How many pixels of a view are gaps; null if they are not marked.
 * @param {Response} answer
 */
export function gapsIn(answer) {
  const said = answer.headers.get('x-gaps');
  return said === null ? null : Number(said);
}

/**
 * Uploads a file, which becomes a job, or part of one.
 * @param {File} file
 * @param {Record<string, string>} [more]
 */
export async function upload(file, more = {}) {
  const query = new URLSearchParams({ name: file.name, ...more });
  return (await checked(await fetch(`/api/jobs?${query}`, { method: 'POST', body: file }))).json();
}

/**
 * Has a file of a page made, and saves it.
 * @param {string} page
 * @param {string} kind
 * @param {Record<string, number>} options
 */
export async function save(page, kind, options) {
  const { key, name } = await (await send(`/api/pages/${page}/outputs/${kind}`, options)).json();
  const link = Object.assign(document.createElement('a'), { href: `/api/outputs/${key}`, download: name });
  document.body.append(link);
  link.click();
  link.remove();
  return name;
}

/**
 * Calls `on` with each event of the server, and connects again after a break.
 * @param {(event: any) => void} on
 */
export function listen(on) {
  const open = () => {
    const socket = new WebSocket(`${location.protocol === 'https:' ? 'wss' : 'ws'}://${location.host}/api/events`);
    socket.onmessage = (event) => on(JSON.parse(event.data));
    socket.onclose = () => setTimeout(() => { on({ kind: 'reconnect' }); open(); }, 1000);
  };
  open();
}
