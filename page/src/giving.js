// What is given away: files, films and links.

function download(ending, contents, type) {
  const link = document.createElement('a'), name = editor.name.replace(/(\.lab)?$/, ending);
  Object.assign(link, { href: URL.createObjectURL(new Blob([contents], { type })), download: name });
  link.click();
  setTimeout(() => URL.revokeObjectURL(link.href), 1000);
}

// This file as it came, with the draft as the script of its own.
const AS_IT_CAME = document.documentElement.cloneNode(true);
function filmOf({ name, text }) {
  const film = AS_IT_CAME.cloneNode(true), script = document.createElement('div');
  Object.assign(script.dataset, { name });
  script.textContent = text;
  film.querySelector('#own').replaceChildren(script);
  film.querySelector('title').textContent = `${name.replace(/\.lab$/, '')}, a network of ripngd`;
  return `<!doctype html>\n${film.outerHTML}\n`;
}
const saveFilm = () => download('.html', filmOf(editor), 'text/html');

// A text as it stands in an address, and back.
async function through(bytes, stream) {
  return new Uint8Array(await new Response(new Blob([bytes]).stream().pipeThrough(stream)).arrayBuffer());
}
async function packed(text) {
  const bytes = await through(text, new CompressionStream('deflate-raw'));
  const code = btoa(Array.from(bytes, byte => String.fromCharCode(byte)).join(''));
  return code.replace(/\+/g, '-').replace(/\//g, '_').replace(/=+$/, '');
}
async function unpacked(code) {
  const bytes = Uint8Array.from(atob(code.replace(/-/g, '+').replace(/_/g, '/')), sign => sign.charCodeAt(0));
  return new TextDecoder().decode(await through(bytes, new DecompressionStream('deflate-raw')));
}

// To the clipboard, if the browser lets the page.
async function copy(text, said) {
  const isCopied = await navigator.clipboard?.writeText(text).then(() => true, () => false);
  say(isCopied ? `${said}: copied.` : `${said}: the browser copies nothing.`, !isCopied);
}

// The link holds the script; before it stands the address of the page.
async function showLink() {
  const words = new URLSearchParams({ name: editor.name, step: view.step + 1, script: await packed(editor.text) });
  byId('link').value = `${byId('place-of-page').value.trim() || location.href.replace(/#.*/, '')}#${words}`;
}
async function share() {
  byId('place-of-page').value = placeOfPage();
  await showLink();
  byId('sharing').showModal();
  byId('link').select();
}
function onPlace({ target }) {
  setPlace(target.value.trim());
  return showLink();
}
async function copyLink() {
  byId('sharing').close();
  await copy(byId('link').value, 'The link, which holds the script');
}
