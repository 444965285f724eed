"""What a reply says and which request it answers, read from its bytes (RULES, parts 6 to 9), for the scripts that follow a log or a capture without asking the program:
./drill --strike and ./drill --capture. It shares nothing with tools/reference, to which the drill is held."""
from collections.abc import Mapping
from typing import NamedTuple

HEADER, MAC = 48, 24                      # bytes of a packet without fields, and of the longest tail that is no field
UID = 0x0104                              # the type of the field with the unique identifier
NO_UID = bytes(32)
KISSES = {b'RATE': 'rate', b'DENY': 'deny', b'RSTR': 'rstr', b'NTSN': 'ntsn'}
ABSENT, AGREE, DISAGREE = 'absent', 'agree', 'disagree'

Field = tuple[int, int, bytes]            # where it stands, its type, its body


class Reply(NamedTuple):
    version: int
    ident: int                            # of the request that it answers
    server: bool                          # whether a server sent it
    stratum: int
    kisses: frozenset[str]
    groups: tuple[str, str, str]          # whether unique identifiers agree with the request's: authenticated ones, encrypted ones, the rest


def fields(octets: bytes, at: int, least: int, tail: int) -> tuple[list[Field], int] | None:
    """the extension fields from a place on, each of so many bytes at least, and where they end: before a tail of so many at most; nothing where they are broken"""
    out: list[Field] = []
    while len(octets) - at > tail:
        length = int.from_bytes(octets[at + 2:at + 4], 'big')
        if len(octets) - at < 4 or length % 4 or not least <= length <= len(octets) - at:
            return None
        out.append((at, int.from_bytes(octets[at:at + 2], 'big'), octets[at + 4:at + length]))
        at += length
    return out, at


def agreement(found: list[Field], uid: bytes) -> str:
    uids = [body[:32] for _, kind, body in found if kind == UID]
    return ABSENT if not uids else AGREE if all(each == uid for each in uids) else DISAGREE


def read(octets: bytes, auth: int, plain: bytes, nts: bool, uid: bytes) -> Reply | None:
    """a packet whose authenticated end and decrypted bytes are given, read with the request's unique identifier; nothing where it cannot be decoded"""
    version = octets[0] >> 3 & 7 if octets else 0
    if len(octets) < HEADER or version not in (3, 4):
        return None
    walked = fields(octets, HEADER, 16, MAC) if version == 4 else ([], HEADER)
    inner = fields(plain, 0, 4, 0) if nts else ([], 0)
    if walked is None or inner is None or auth not in [at for at, _, _ in walked[0]] + [walked[1]]:
        return None
    before, behind = [f for f in walked[0] if f[0] < auth], [f for f in walked[0] if f[0] >= auth]
    kisses = {'any', KISSES.get(octets[12:16], 'any')} if octets[1] == 0 else set()
    return Reply(version, int.from_bytes(octets[24:32], 'big'), octets[0] & 7 == 4, octets[1], frozenset(kisses),
                 (agreement(before, uid), agreement(inner[0], uid), agreement(behind, uid)))


def decoded(given: Mapping[str, str]) -> Reply:
    """what a line `reply5` says, whose decoding is the caller's"""
    return Reply(5, int(given['cookie'], 16), given['mode'] == '4', int(given['stratum']), frozenset(given.get('kiss', '-').split(',')) - {'-'},
                 (given.get('auth', ABSENT), given.get('enc', ABSENT), given.get('untrusted', ABSENT)))


def answers(reply: Reply, nts: bool, ident: int) -> bool:
    """whether a reply answers the request with this identifier; with NTS the unique identifiers have to agree, those that anybody can write only in a kiss NTSN"""
    looked_at = reply.groups if 'ntsn' in reply.kisses else reply.groups[:2]
    return reply.ident == ident and (not nts or AGREE in looked_at and DISAGREE not in looked_at)
