// Datagrams as bytes, and prefixes as texts: what `ripngd show` prints, and what a stranger's datagram is made of.

// The metric of what cannot be reached (RFC 2080, section 2.1).
export const UNREACHABLE = 16;

// The entries of a datagram, given as hexadecimal digits.
export function entriesOf(hex) {
  const entries = [];
  for (let at = 8; at < hex.length; at += 40) {
    const number = (index, bytes) => parseInt(hex.substr(at + 2 * index, 2 * bytes), 16);
    const address = addressText(hex.substr(at, 32)), prefix = `${address}/${number(18, 1)}`;
    entries.push({ address, prefix, tag: number(16, 2), metric: number(19, 1) });
  }
  return entries;
}

export function decode(hex) {
  const lines = entriesOf(hex).map(({ address, prefix, tag, metric }, index) =>
    `${index} ${metric === 255 ? `nexthop ${address}` : `${prefix} tag ${tag} metric ${metric || '?'}`}`);
  return [`${hex.startsWith('01') ? 'request' : 'response'} entries ${lines.length}`, ...lines].join('\n');
}

// The first of the longest runs of two or more zeros is written as `::`.
function addressText(digits) {
  const text = digits.match(/..../g).map(group => parseInt(group, 16).toString(16)).join(':');
  const [longest] = [...text.matchAll(/\b0(:0)+\b/g)].sort((a, b) => b[0].length - a[0].length);
  if (!longest) return text;
  const before = text.slice(0, longest.index), after = text.slice(longest.index + longest[0].length);
  return `${before.replace(/:$/, '')}::${after.replace(/^:/, '')}`;
}

// What prefixes are ordered by: all digits of the address, then the length.
export function prefixKey(prefix) {
  const [address, length] = prefix.split('/');
  const [before, after = []] = address.split('::').map(part => part.split(':').filter(Boolean));
  const zeros = Array(Math.max(0, 8 - before.length - after.length)).fill('');
  return [...[...before, ...zeros, ...after].map(group => group.padStart(4, '0')), length.padStart(3, '0')].join('');
}

// Whether all addresses of a prefix are in another.
export function covers(wide, prefix) {
  const bitsOf = text => [...prefixKey(text).slice(0, 32)].map(digit => parseInt(digit, 16).toString(2).padStart(4, '0')).join('');
  const [length, own] = [wide, prefix].map(text => Number(text.split('/')[1]));
  return wide === prefix || length <= own && bitsOf(wide).slice(0, length) === bitsOf(prefix).slice(0, length);
}

// A number in so many bytes.
export const digits = (number, bytes) => Number(number).toString(16).padStart(2 * bytes, '0');
// A Request for all routes, and a Response with one entry.
export const wholeRequest = () => `01010000${'0'.repeat(38)}10`;
export function oneResponse(prefix, tag, metric) {
  const length = digits(prefix.split('/')[1] ?? 0, 1);
  return `02010000${prefixKey(prefix).slice(0, 32)}${digits(tag, 2)}${length}${digits(metric, 1)}`;
}
