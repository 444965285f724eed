"""The key exchange of NTS (RFC 8915, section 4), by the standard library and OpenSSL 3's libraries (libssl.so.3, libcrypto.so.3), which are called through ctypes:
Python's own ssl module cannot export keying material."""
import ctypes
import ctypes.util
import os
import socket
from typing import Any, List, Optional, Tuple

AEAD = 15  # AEAD_AES_SIV_CMAC_256, RFC 5297
LABEL = b'EXPORTER-network-time-security'


def library(name: str) -> Any:
    for candidate in ('lib%s.so.3' % name, ctypes.util.find_library(name) or ''):
        try:
            return ctypes.CDLL(candidate) if candidate else None
        except OSError:
            continue
    return None


CRYPTO, SSL = library('crypto'), library('ssl')


def lacks() -> str:
    """what is missing for NTS, in a sentence, or nothing"""
    if CRYPTO is None or SSL is None or not hasattr(CRYPTO, 'EVP_CIPHER_fetch'):
        return 'there is no libssl.so.3 and libcrypto.so.3 (Debian: libssl3)'
    return ''


def declare() -> None:
    pointer, text, size = ctypes.c_void_p, ctypes.c_char_p, ctypes.c_size_t
    for lib, name, result, arguments in (
            (CRYPTO, 'EVP_CIPHER_CTX_new', pointer, []), (CRYPTO, 'EVP_aes_128_ecb', pointer, []),
            (CRYPTO, 'EVP_CIPHER_CTX_free', None, [pointer]),
            (CRYPTO, 'EVP_EncryptInit_ex', ctypes.c_int, [pointer, pointer, pointer, text, text]),
            (CRYPTO, 'EVP_CIPHER_CTX_set_padding', ctypes.c_int, [pointer, ctypes.c_int]),
            (CRYPTO, 'EVP_EncryptUpdate', ctypes.c_int, [pointer, text, ctypes.POINTER(ctypes.c_int), text, ctypes.c_int]),
            (SSL, 'TLS_client_method', pointer, []), (SSL, 'SSL_CTX_new', pointer, [pointer]), (SSL, 'SSL_CTX_free', None, [pointer]),
            (SSL, 'SSL_CTX_ctrl', ctypes.c_long, [pointer, ctypes.c_int, ctypes.c_long, pointer]),
            (SSL, 'SSL_CTX_set_alpn_protos', ctypes.c_int, [pointer, text, ctypes.c_uint]),
            (SSL, 'SSL_CTX_load_verify_locations', ctypes.c_int, [pointer, text, text]),
            (SSL, 'SSL_CTX_set_verify', None, [pointer, ctypes.c_int, pointer]),
            (SSL, 'SSL_new', pointer, [pointer]), (SSL, 'SSL_free', None, [pointer]), (SSL, 'SSL_set_fd', ctypes.c_int, [pointer, ctypes.c_int]),
            (SSL, 'SSL_set1_host', ctypes.c_int, [pointer, text]), (SSL, 'SSL_connect', ctypes.c_int, [pointer]),
            (SSL, 'SSL_get0_alpn_selected', None, [pointer, ctypes.POINTER(pointer), ctypes.POINTER(ctypes.c_uint)]),
            (SSL, 'SSL_write', ctypes.c_int, [pointer, text, ctypes.c_int]), (SSL, 'SSL_read', ctypes.c_int, [pointer, text, ctypes.c_int]),
            (SSL, 'SSL_export_keying_material', ctypes.c_int, [pointer, text, size, text, size, text, size, ctypes.c_int])):
        call = getattr(lib, name)
        call.restype, call.argtypes = result, arguments


if not lacks():
    declare()


def record(kind: int, body: bytes, critical: bool = True) -> bytes:
    return ((0x8000 if critical else 0) | kind).to_bytes(2, 'big') + len(body).to_bytes(2, 'big') + body


def records(data: bytes) -> Optional[List[Tuple[int, bytes]]]:
    """the records of a message as (type, body); None where it does not end yet"""
    out, at = [], 0
    while at + 4 <= len(data):
        kind, n = int.from_bytes(data[at:at + 2], 'big') & 0x7fff, int.from_bytes(data[at + 2:at + 4], 'big')
        if at + 4 + n > len(data):
            return None
        out.append((kind, data[at + 4:at + 4 + n]))
        at += 4 + n
        if kind == 0:
            return out
    return None


class Keys:
    """What a key exchange gives: both keys, the cookies and, where the server names one, the NTP port."""

    def __init__(self, to_server: bytes, to_client: bytes, cookies: List[bytes], port: int) -> None:
        self.to_server, self.to_client, self.cookies, self.port = to_server, to_client, cookies, port


def exchange(host: str, port: int, authority: str, name: str = 'localhost', patience: float = 10) -> Keys:
    """one key exchange over TLS 1.3 with a server whose certificate the file `authority` vouches for"""
    context = SSL.SSL_CTX_new(SSL.TLS_client_method())
    SSL.SSL_CTX_ctrl(context, 123, 0x0304, None)  # SSL_CTRL_SET_MIN_PROTO_VERSION, TLS 1.3
    SSL.SSL_CTX_set_alpn_protos(context, b'\x07ntske/1', 8)
    if SSL.SSL_CTX_load_verify_locations(context, os.fsencode(authority), None) != 1:
        raise RuntimeError('no certificate at %s' % authority)
    SSL.SSL_CTX_set_verify(context, 1, None)
    stream = socket.create_connection((host, port), patience)
    stream.settimeout(None)  # OpenSSL reads and writes the descriptor itself, which has to block
    session = SSL.SSL_new(context)
    try:
        SSL.SSL_set1_host(session, name.encode())
        SSL.SSL_set_fd(session, stream.fileno())
        if SSL.SSL_connect(session) != 1:
            raise RuntimeError('TLS with %s:%d failed' % (host, port))
        chosen, n = ctypes.c_void_p(), ctypes.c_uint()
        SSL.SSL_get0_alpn_selected(session, ctypes.byref(chosen), ctypes.byref(n))
        if ctypes.string_at(chosen, n.value) != b'ntske/1':
            raise RuntimeError('the server does not speak ntske/1')
        asked = record(1, b'\0\0') + record(4, AEAD.to_bytes(2, 'big')) + record(0, b'')
        SSL.SSL_write(session, asked, len(asked))
        got, answer = b'', None
        while answer is None:
            buffer = ctypes.create_string_buffer(4096)
            count = SSL.SSL_read(session, buffer, 4096)
            if count <= 0:
                raise RuntimeError('the key exchange ended early')
            got += buffer.raw[:count]
            answer = records(got)
        if (1, b'\0\0') not in answer or (4, AEAD.to_bytes(2, 'big')) not in answer or any(kind in (2, 3) for kind, _ in answer):
            raise RuntimeError('the key exchange was refused: %r' % [r for r in answer if r[0] != 5])
        keys = []
        for direction in (b'\0', b'\1'):
            out, about = ctypes.create_string_buffer(32), b'\0\0' + AEAD.to_bytes(2, 'big') + direction
            if SSL.SSL_export_keying_material(session, out, 32, LABEL, len(LABEL), about, len(about), 1) != 1:
                raise RuntimeError('no keys could be exported')
            keys.append(out.raw)
        ports = [int.from_bytes(body, 'big') for kind, body in answer if kind == 7]
        return Keys(keys[0], keys[1], [body for kind, body in answer if kind == 5], ports[0] if ports else 123)
    finally:
        SSL.SSL_free(session)
        SSL.SSL_CTX_free(context)
        stream.close()
