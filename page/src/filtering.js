// Which routers and prefixes the tables show: those that the words of a filter name, all without one.
import { nameOf } from './trace.js';

// A word is the beginning of a router's name, or a part of a prefix.
export function filterOf(trace, text = '') {
  const words = text.toLowerCase().split(/[\s,]+/).filter(Boolean);
  const names = trace.ends.map((_, router) => [`r${router}`, nameOf(trace, router).toLowerCase()]);
  const isName = word => names.flat().some(name => name.startsWith(word));
  const exactly = word => names.flat().includes(word) ? name => name === word : name => name.startsWith(word);
  const routers = words.filter(isName).map(exactly), parts = words.filter(word => !isName(word));
  return {
    isOfPrefixes: parts.length > 0,
    hasRouter: router => routers.length === 0 || routers.some(is => names[router].some(is)),
    hasPrefix: prefix => parts.length === 0 || parts.some(part => prefix.includes(part)),
  };
}
