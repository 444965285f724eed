"""What a caller with NTS keeps to itself (RFC 8915) beside the key exchange (tools/exchange.py): the authenticator of a request and of a reply."""
import ctypes
from typing import Optional, Sequence

from exchange import CRYPTO


# ---- AES-SIV-CMAC-256: RFC 5297 over AES-128 blocks

class Block:
    """AES-128 under one key, a block at a time or several."""

    def __init__(self, key: bytes) -> None:
        self.context = CRYPTO.EVP_CIPHER_CTX_new()
        CRYPTO.EVP_EncryptInit_ex(self.context, CRYPTO.EVP_aes_128_ecb(), None, key, None)
        CRYPTO.EVP_CIPHER_CTX_set_padding(self.context, 0)

    def __del__(self) -> None:
        CRYPTO.EVP_CIPHER_CTX_free(self.context)

    def __call__(self, data: bytes) -> bytes:
        out, n = ctypes.create_string_buffer(len(data) + 16), ctypes.c_int()
        if CRYPTO.EVP_EncryptUpdate(self.context, out, ctypes.byref(n), data, len(data)) != 1:
            raise RuntimeError('AES failed')
        return out.raw[:n.value]


def xored(a: bytes, b: bytes) -> bytes:
    return (int.from_bytes(a, 'big') ^ int.from_bytes(b, 'big')).to_bytes(len(a), 'big')


def doubled(b: bytes) -> bytes:
    n = int.from_bytes(b, 'big') << 1
    return ((n ^ 0x87 if n >> 128 else n) % 2**128).to_bytes(16, 'big')


def padded(b: bytes) -> bytes:
    return b + b'\x80' + bytes(15 - len(b))


class Siv:
    """AES-SIV under a key of 32 bytes: the first half for S2V, the second for counter mode."""

    def __init__(self, key: bytes) -> None:
        self.mac, self.stream = Block(key[:16]), Block(key[16:])
        self.one = doubled(self.mac(bytes(16)))
        self.two = doubled(self.one)

    def cmac(self, data: bytes) -> bytes:
        """RFC 4493"""
        whole = max(0, (len(data) - 1) // 16) * 16
        last, x = data[whole:], bytes(16)
        for at in range(0, whole, 16):
            x = self.mac(xored(x, data[at:at + 16]))
        return self.mac(xored(x, xored(last, self.one) if len(last) == 16 else xored(padded(last), self.two)))

    def s2v(self, parts: Sequence[bytes], text: bytes) -> bytes:
        d = self.cmac(bytes(16))
        for part in parts:
            d = xored(doubled(d), self.cmac(part))
        if len(text) >= 16:
            return self.cmac(text[:-16] + xored(text[-16:], d))
        return self.cmac(xored(doubled(d), padded(text)))

    def counted(self, v: bytes, text: bytes) -> bytes:
        q = int.from_bytes(v, 'big') & ~(1 << 63 | 1 << 31)
        blocks = (len(text) + 15) // 16
        if not blocks:
            return b''
        stream = self.stream(b''.join(((q + k) % 2**128).to_bytes(16, 'big') for k in range(blocks)))
        return xored(text, stream[:len(text)])

    def seal(self, text: bytes, *parts: bytes) -> bytes:
        v = self.s2v(parts, text)
        return v + self.counted(v, text)

    def open(self, sealed: bytes, *parts: bytes) -> Optional[bytes]:
        """the text, or None where the tag is another"""
        if len(sealed) < 16:
            return None
        text = self.counted(sealed[:16], sealed[16:])
        return text if self.s2v(parts, text) == sealed[:16] else None


def test_siv() -> bool:
    """RFC 5297, A.1 and A.2: whether the cipher gives the documents' bytes, and refuses them with a bit changed"""
    one = Siv(bytes.fromhex('fffefdfcfbfaf9f8f7f6f5f4f3f2f1f0f0f1f2f3f4f5f6f7f8f9fafbfcfdfeff'))
    data, text = bytes.fromhex('101112131415161718191a1b1c1d1e1f2021222324252627'), bytes.fromhex('112233445566778899aabbccddee')
    sealed = bytes.fromhex('85632d07c6e8f37f950acd320a2ecc9340c02b9690c4dc04daef7f6afe5c')
    two = Siv(bytes.fromhex('7f7e7d7c7b7a79787776757473727170404142434445464748494a4b4c4d4e4f'))
    parts = (bytes.fromhex('00112233445566778899aabbccddeeffdeaddadadeaddadaffeeddccbbaa99887766554433221100'),
             bytes.fromhex('102030405060708090a0'), bytes.fromhex('09f911029d74e35bd84156c5635688c0'))
    text2 = b'this is some plaintext to encrypt using SIV-AES'
    sealed2 = bytes.fromhex('7bdb6e3b432667eb06f4d14bff2fbd0fcb900f2fddbe404326601965c889bf17dba77ceb094fa663b7a3f748ba8af829ea64ad544a272e9c485b62a3fd5c0d')
    return (one.seal(text, data) == sealed and one.open(sealed, data) == text and two.seal(text2, *parts) == sealed2 and two.open(sealed2, *parts) == text2
            and one.open(sealed[:-1] + b'\x5d', data) is None and one.open(sealed, data[1:]) is None)


# ---- the authenticator of NTP packets: RFC 8915, section 5.6

def authenticated(siv: Siv, packet: bytes, nonce: bytes, text: bytes = b'') -> bytes:
    """the packet with a 0404 field behind it, which seals the packet and the text"""
    sealed = siv.seal(text, packet, nonce)
    body = len(nonce).to_bytes(2, 'big') + len(sealed).to_bytes(2, 'big') + nonce + bytes(-len(nonce) % 4) + sealed + bytes(-len(sealed) % 4)
    return packet + b'\x04\x04' + (4 + len(body)).to_bytes(2, 'big') + body


def opened(siv: Siv, packet: bytes, at: int) -> Optional[bytes]:
    """the decrypted bytes of the 0404 field at a place, or None where it is broken or does not decrypt over the packet up to its head"""
    body = packet[at + 4:at + int.from_bytes(packet[at + 2:at + 4], 'big')]
    if len(body) < 4:
        return None
    nonce_len, sealed_len = int.from_bytes(body[:2], 'big'), int.from_bytes(body[2:4], 'big')
    start = 4 + nonce_len + -nonce_len % 4
    if start + sealed_len > len(body):
        return None
    return siv.open(body[start:start + sealed_len], packet[:at], body[4:4 + nonce_len])
