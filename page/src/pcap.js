// What was on the links of a trace, as a capture: a file of pcapng for Wireshark and other tools, the same bytes as those of
// `ripngd lab --pcap` (docs/TRACE.md, "Captures"). Blocks are made as hexadecimal digits, like the datagrams of a trace.
import { digits, prefixKey } from './datagrams.js';

// Blocks of pcapng (draft-ietf-opsawg-pcapng, sections 3 and 4), in the order of bytes of the network.
const SECTION_BLOCK = 0x0a0d0d0a, INTERFACE_BLOCK = 1, PACKET_BLOCK = 6;
const COMMENT_OPTION = 1, NAME_OPTION = 2, RESOLUTION_OPTION = 9, END_OF_OPTIONS = '00000000', LONGEST_OPTION = 0xffff;
// Packets that begin with the header of IPv6.
const IPV6_LINK_TYPE = 229;
// UDP over IPv6, and RIPng (RFC 2080, section 2.5).
const UDP = 17, UDP_HEADER_BYTES = 8, RIPNG_PORT = 521, RIPNG_GROUP = 'ff02::9', MOST_HOPS = 255;
// A comment of more bytes gets no more refusals.
const LONG_COMMENT = 1000;

// The file, as bytes: a section, an interface for each link, in order, and a packet for each datagram.
export function captureOf(trace) {
  const links = [...trace.links.keys()].sort((one, other) => one - other), places = new Map(links.map((link, place) => [link, place]));
  const packets = seenIn(trace).map(seen => packetBlock(places.get(seen.link), seen));
  return bytesIn([sectionBlock(), ...links.map(interfaceBlock), ...packets].join(''));
}

// ---- What was seen ----
// The datagrams that routers sent, when they were sent, and those of outside hosts and forgers, when they came. A router's events
// are in order, and so are those that refuse what was sent before.
function seenIn(trace) {
  const seen = [], sent = [];
  for (const { record } of trace.steps) {
    if (/^(stranger|liar)$/.test(record.event?.kind)) seen.push(arrivedOf(trace, record));
    if (record.event?.kind === 'deliver' && record.fault) addRefusal(sent[record.event.datagram], refusalOf(trace, record));
    for (const one of record.sent ?? []) {
      sent[one.datagram] = sentOf(trace, one, record.now);
      seen.push(sent[one.datagram]);
    }
  }
  return seen;
}

const refusalOf = ({ names }, { router, fault: { number, name } }) => `refused by ${names.get(router) ?? router}: ${number} ${name}`;
function addRefusal(seen, refusal) {
  if (digitsOf(seen.comment).length <= 2 * LONG_COMMENT) seen.comment += `${seen.comment ? ', ' : ''}${refusal}`;
}

function sentOf({ ends }, { router, iface, peer, bytes }, at) {
  const { addr: source, link } = ends[router][iface], { addr: destination, port } = peer ?? { addr: RIPNG_GROUP, port: RIPNG_PORT };
  return { link, at, source, destination, ports: [RIPNG_PORT, port], hops: MOST_HOPS, payload: bytes, comment: '' };
}

// What is forged comes to the group, from port 521 and with hop limit 255, so its event does not say so.
function arrivedOf(trace, record) {
  const { kind, iface, source, port = RIPNG_PORT, hop_limit: hops = MOST_HOPS, group = true, bytes } = record.event;
  const { addr, link } = trace.ends[record.router][iface], origin = kind === 'liar' ? 'forged' : '';
  const comment = record.fault ? refusalOf(trace, record) : origin;
  return { link, at: record.now, source, destination: group ? RIPNG_GROUP : addr, ports: [port, RIPNG_PORT], hops, payload: bytes, comment };
}

// ---- As a packet ----
// A datagram of UDP over IPv6 (RFC 8200, section 3; RFC 768). The checksum is also of a pseudo-header (RFC 8200, section 8.1).
function packetOf({ source, destination, ports, hops, payload }) {
  const length = payload.length / 2 + UDP_HEADER_BYTES, addresses = [source, destination].map(addressDigits).join('');
  const udpWith = checksum => [...ports, length, checksum].map(number => digits(number, 2)).join('') + payload;
  const checksum = checksumOf(`${addresses}${digits(length, 4)}${digits(UDP, 4)}${udpWith(0)}`);
  return `60000000${digits(length, 2)}${digits(UDP, 1)}${digits(hops, 1)}${addresses}${udpWith(checksum)}`;
}
const addressDigits = address => prefixKey(`${address}/128`).slice(0, 32);

// The complement of the sum of all words of 16 bits, in the arithmetic in which 65,535 is 0; 0 itself is sent as 65,535.
function checksumOf(hex) {
  let sum = 0;
  for (let at = 0; at < hex.length; at += 4) sum += parseInt(hex.slice(at, at + 4).padEnd(4, '0'), 16);
  return 0xffff - sum % 0xffff;
}

// ---- As blocks ----
function block(kind, body) {
  const length = digits(body.length / 2 + 12, 4);
  return `${digits(kind, 4)}${length}${body}${length}`;
}
// Zeros follow up to a multiple of 4 bytes.
const filledUp = hex => hex.padEnd(Math.ceil(hex.length / 8) * 8, '0');
const optionBlock = (code, hex) => `${digits(code, 2)}${digits(hex.length / 2, 2)}${filledUp(hex)}`;

// Of version 1.0, and of a length that is not said.
const sectionBlock = () => block(SECTION_BLOCK, `1a2b3c4d00010000${'f'.repeat(16)}`);

// A link has its number as its name, and its times are in milliseconds.
function interfaceBlock(link) {
  const name = optionBlock(NAME_OPTION, digitsOf(String(link))), resolution = optionBlock(RESOLUTION_OPTION, '03');
  return block(INTERFACE_BLOCK, `${digits(IPV6_LINK_TYPE, 2)}${digits(0, 6)}${name}${resolution}${END_OF_OPTIONS}`);
}

function packetBlock(place, seen) {
  const packet = packetOf(seen), length = digits(packet.length / 2, 4), comment = digitsOf(seen.comment);
  const isSaid = comment && comment.length <= 2 * LONGEST_OPTION, options = isSaid ? optionBlock(COMMENT_OPTION, comment) + END_OF_OPTIONS : '';
  return block(PACKET_BLOCK, `${digits(place, 4)}${digits(seen.at, 8)}${length}${length}${filledUp(packet)}${options}`);
}

// ---- Bytes ----
const digitsOf = text => Array.from(new TextEncoder().encode(text), byte => digits(byte, 1)).join('');
const bytesIn = hex => Uint8Array.from({ length: hex.length / 2 }, (_, at) => parseInt(hex.substr(2 * at, 2), 16));
