"""The inputs of the benchmark: a capture of 60-byte datagrams, and scripts. The same numbers give the same files.

inputs.py FOLDER PACKETS writes them, with so many packets, and beside them the savefile `sent`: what a run of the capture through the table
of routes has to save, worked out here.
"""
import ipaddress
import os
import struct
import sys

MASK = (1 << 64) - 1
PACKETS = 65536
ROUTES = 4096
ROUTES6 = 256
NEIGHBORS = 16
EVENTS = 200

# a handoff node behind the packet source, which picks a worker by the packet's flow
HANDOFF = '''node hand kind handoff-flow
arc hand resume ethernet-input
arc pg-input out hand
'''


def numbers(seed):
    """SplitMix64."""
    state = seed
    while True:
        state = (state + 0x9E3779B97F4A7C15) & MASK
        z = state
        z = ((z ^ (z >> 30)) * 0xBF58476D1CE4E5B9) & MASK
        z = ((z ^ (z >> 27)) * 0x94D049BB133111EB) & MASK
        yield z ^ (z >> 31)


def checksum(header):
    total = sum(struct.unpack('>10H', header))
    while total >> 16:
        total = (total & 0xFFFF) + (total >> 16)
    return ~total & 0xFFFF


def datagram(source, destination, ttl):
    head = struct.pack('>BBHHHBBHII', 0x45, 0, 46, 0, 0, ttl, 17, 0, source, destination)
    return head[:10] + struct.pack('>H', checksum(head)) + head[12:] + bytes(26)


def frame(to, by, datagram):
    return bytes.fromhex(to + by + '0800') + datagram


def flows(packets):
    """Source, destination and time to live of each packet: from 198.18.0.0/16 to 10.0.0.0/8. One in 16 is at the end of its time to live."""
    words = numbers(0)
    for number in range(packets):
        word = next(words)
        yield 0xC6120000 + (word & 0xFFFF), 0x0A000000 + (word >> 16 & 0xFFFFFF), 1 if number % 16 == 15 else 64


def savefile(frames):
    """The savefile of these frames, by their numbers; each came at the microsecond of its number."""
    parts = [struct.pack('<IHHiIII', 0xA1B2C3D4, 2, 4, 0, 0, 262144, 1)]
    for number, data in frames:
        parts.append(struct.pack('<IIII', number // 1000000, number % 1000000, len(data), len(data)) + data)
    return b''.join(parts)


def capture(packets=PACKETS):
    return savefile((number, frame('02fe00000000', '020000000001', datagram(*flow))) for number, flow in enumerate(flows(packets)))


def dotted(address):
    return '.'.join(str(address >> shift & 255) for shift in (24, 16, 8, 0))


def routes(count):
    """Address, length and neighbors of each route: 10.0.0.0/8, so that each packet has one, and others below it, most of 24 bits, as a border
    router has. One in four is over 2 to 16 neighbors, of which some may stand several times."""
    words = numbers(0x5EED)
    picks = numbers(0xF10D)
    seen = set()
    address, length = 0x0A000000, 8
    while True:
        if (address, length) not in seen:
            more = 1 + next(picks) % 15 if len(seen) % 4 == 3 else 0
            yield address, length, [len(seen) % NEIGHBORS] + [next(picks) % NEIGHBORS for _ in range(more)]
            seen.add((address, length))
        if len(seen) == count:
            return
        share = next(words) % 100
        length = 24 if share < 55 else 9 + next(words) % 15 if share < 85 else 25 + next(words) % 8
        address = (0x0A000000 | next(words) & 0xFFFFFF) & (0xFFFFFFFF << (32 - length)) & 0xFFFFFFFF


def routes6(count):
    """The same of IPv6 routes below 2001:db8::/32, which no packet looks up."""
    words = numbers(0x6)
    seen = set()
    while len(seen) < count:
        length = 33 + next(words) % 96
        address = (0x20010DB8 << 96 | next(words) << 32 | next(words) >> 32) >> (128 - length) << (128 - length)
        if (address, length) not in seen:
            yield address, length, [next(words) % NEIGHBORS for _ in range(1 + next(words) % 16)]
            seen.add((address, length))


def names(neighbors):
    return ','.join('n%d' % neighbor for neighbor in neighbors)


def table(count=ROUTES, count6=ROUTES6):
    """Neighbors, and routes to them."""
    lines = ['adjacency n%d interface pg0 dst 02:00:00:00:01:%02x' % (k, k) for k in range(NEIGHBORS)]
    lines += ['route %s/%d via %s' % (dotted(address), length, names(over)) for address, length, over in routes(count)]
    lines += ['route6 %s/%d via %s' % (ipaddress.IPv6Address(address), length, names(over)) for address, length, over in routes6(count6)]
    return '\n'.join(lines) + '\n'


def events(count, packets=PACKETS):
    """This number of events, evenly over the time of the capture: each sets or takes away one route."""
    lines = []
    for number in range(count):
        lines.append('at %d' % ((number + 1) * packets // (count + 1)))
        lines.append('unroute 10.255.0.0/16' if number % 2 else 'route 10.255.0.0/16 via n1,n2,n1')
        lines.append('end')
    return '\n'.join(lines) + '\n'


def scripts(packets=PACKETS):
    """The scripts by their names."""
    return {
        'plain': table(),
        'handoff': HANDOFF + table(),
        'still': table(1, 0),
        'events': table(1, 0) + events(EVENTS, packets),
    }


def neighbor(tables, source, destination):
    """The neighbor that a packet leaves to: of the longest prefix that covers its destination, the one that its flow hash picks."""
    mixed = source ^ destination
    half = mixed ^ mixed >> 16
    flow_hash = half ^ half >> 8
    for length in range(32, -1, -1):
        over = tables.get((destination >> (32 - length), length))
        if over is not None:
            return over[flow_hash // 8 % len(over)]
    raise ValueError('no route')


def sent(packets=PACKETS, count=ROUTES):
    """The savefile of the capture's packets behind the table: to their neighbors, from pg0, each with a time to live less by one."""
    tables = {(address >> (32 - length), length): over for address, length, over in routes(count)}
    frames = []
    for number, (source, destination, ttl) in enumerate(flows(packets)):
        if ttl > 1:
            to = '0200000001%02x' % neighbor(tables, source, destination)
            frames.append((number, frame(to, '02fe00000000', datagram(source, destination, ttl - 1))))
    return savefile(frames)


def main():
    folder, packets = sys.argv[1], int(sys.argv[2])
    files = {name: text.encode() for name, text in scripts(packets).items()}
    files.update(capture=capture(packets), sent=sent(packets))
    for name, data in files.items():
        with open(os.path.join(folder, name), 'wb') as file:
            file.write(data)


if __name__ == '__main__':
    main()
