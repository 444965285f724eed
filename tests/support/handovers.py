"""Hand-over files (docs/HANDOVER.md) made by chance: sound ones, those with bodies of any kind, and damaged ones."""
from random import Random
from typing import List, Tuple

Parts = List[Tuple[bytes, bytes]]  # of each record its mark and its body


def record(mark: bytes, body: bytes) -> bytes:
    return mark + len(body).to_bytes(2, 'big') + body


def whole(parts: Parts) -> bytes:
    """the file of these bodies"""
    return b''.join(record(mark, body) for mark, body in parts)


def stash(r: Random) -> bytes:
    body = bytes([r.choice((0, 0, r.randrange(8), r.randrange(256)))])
    for _ in range(r.choice((0, 0, 1, 2, 7, 8, 8, 9))):
        n = r.choice((0, 1, 3, r.randrange(40), 724, 725, r.randrange(725, 65536)))
        body += n.to_bytes(2, 'big') + bytes(r.randrange(256) for _ in range(n if n <= 724 and r.random() < 0.98 else 0))
    return body


def version(r: Random) -> bytes:
    return bytes([r.choice((0, 1, 2, 3, 1, r.randrange(256))), r.choice((0, 0, r.randrange(256)))])


def bodies(r: Random) -> Parts:
    choice = lambda: r.choice((0, 1, 1, r.choice((0, 1, 2, 255))))
    octets = lambda n: bytes(r.randrange(256) for _ in range(n))
    settings = bytes([r.choice((0, 4, 17, 18, 255)), r.choice((4, 10, 17, 17, 18, 127)), r.choice((1, 3, 8, 0, 9))])
    settings += r.choice((1, 5 * 10**9, 6 * 10**10, 6 * 10**10 + 1, 0, r.randrange(2**64))).to_bytes(8, 'big') + r.randrange(2**64).to_bytes(8, 'big')
    settings += version(r) + bytes([choice()]) + r.randrange(2**32).to_bytes(4, 'big') + r.choice((b'', b'\x08', b'\x08', bytes([r.randrange(11)]), octets(1), octets(2)))
    return [(b'SE', settings), (b'ST', stash(r)), (b'RE', octets(2)), (b'VE', version(r)), (b'PO', octets(2)), (b'SO', octets(5) + bytes([choice()]))]


def sound(r: Random) -> Parts:
    """bodies that are an association"""
    nts = r.random() < 0.7
    old = r.random() < 0.2
    capacity = 8 if old else r.choice((8, r.randrange(1, 9)))
    cookies = b''
    for _ in range(r.randrange(capacity + 1) if nts else 0):
        n = r.choice((0, 1, 3, r.randrange(40), 724, 725, 65535))
        cookies += n.to_bytes(2, 'big') + bytes(r.randrange(256) for _ in range(n if n <= 724 else 0))
    kind = lambda: r.choice((b'\0\0', bytes([1, r.randrange(256)]), b'\2\0', b'\3\0'))
    low = r.randrange(18)
    settings = bytes([low, r.randrange(low, 18), r.randrange(1, 9)]) + r.choice((1, 5 * 10**9, 6 * 10**10)).to_bytes(8, 'big') + r.randrange(2**64).to_bytes(8, 'big')
    octets = lambda n: bytes(r.randrange(256) for _ in range(n))
    settings += kind() + bytes([nts]) + octets(4) + (b'' if old else bytes([capacity]))
    return [(b'SE', settings), (b'ST', bytes([r.randrange(capacity) if nts else 0]) + cookies), (b'RE', octets(2)), (b'VE', kind()),
            (b'PO', octets(2)), (b'SO', octets(5) + bytes([r.randrange(2)]))]


def bitten(r: Random, f: bytes) -> bytes:
    """bytes lost, changed or put in, and the end cut"""
    for _ in range(r.choice((0, 1, 1, 2, 5))):
        at = r.randrange(len(f) + 1)
        f = r.choice((f[:at] + f[at + 1:], f[:at] + bytes([r.randrange(256)]) + f[at + 1:], f[:at] + bytes([r.randrange(256)]) + f[at:]))
    return f[:r.randrange(len(f) + 1)] if r.random() < 0.2 else f


def some_file(r: Random) -> bytes:
    kind = r.random()
    if kind < 0.05:
        return bytes(r.choice((0, 2, 0x45, 0x53, r.randrange(256))) for _ in range(r.randrange(80)))
    parts = sound(r) if kind < 0.6 else bodies(r)
    if kind > 0.9:  # records exchanged, left out or there twice
        at, other = r.randrange(6), r.randrange(6)
        parts = r.choice((parts[:at] + parts[at + 1:], parts[:at] + [parts[other]] + parts[at:], [parts[other] if k == at else parts[at] if k == other else p for k, p in enumerate(parts)]))
    f = whole(parts)
    return bitten(r, f) if kind > 0.75 else f
