"""A chronyd of one's own on loopback (Debian's chrony), with a certificate that openssl makes: it leaves the machine's clock alone, answers everybody on 127.0.0.1 and
limits nobody."""
import os
import shutil
import socket
import subprocess
import time
from typing import Optional


def program() -> Optional[str]:
    named = os.environ.get('CHRONYD')
    return named or shutil.which('chronyd') or next((p for p in ('/usr/sbin/chronyd', '/sbin/chronyd') if os.access(p, os.X_OK)), None)


def lacks() -> str:
    """what is missing, in a sentence, or nothing"""
    named = program()
    if not named or not os.access(named, os.X_OK):
        return 'there is no chronyd (Debian: apt-get install chrony; or name the program in CHRONYD)'
    if not shutil.which('openssl'):
        return 'there is no openssl, which makes the server\'s certificate (Debian: apt-get install openssl)'
    return ''


def has_ipv6() -> bool:
    """whether this machine has ::1"""
    try:
        with socket.socket(socket.AF_INET6, socket.SOCK_DGRAM) as s:
            s.bind(('::1', 0))
        return True
    except OSError:
        return False


def free_port(kind: int) -> int:
    with socket.socket(socket.AF_INET, kind) as s:
        s.bind(('127.0.0.1', 0))
        return s.getsockname()[1]


class Chronyd:
    """The server, in a folder that the caller removes; `port` takes NTP, `nts_port` key exchanges, and `certificate` vouches for them."""

    def __init__(self, folder: str, stratum: int = 3) -> None:
        self.folder = os.path.join(folder, 'chronyd')
        os.makedirs(os.path.join(self.folder, 'keys'))
        self.port, self.nts_port = free_port(socket.SOCK_DGRAM), free_port(socket.SOCK_STREAM)
        key, self.certificate = os.path.join(self.folder, 'key.pem'), os.path.join(self.folder, 'certificate.pem')
        made = subprocess.run(['openssl', 'req', '-x509', '-newkey', 'ec', '-pkeyopt', 'ec_paramgen_curve:prime256v1', '-nodes', '-days', '2', '-keyout', key,
                               '-out', self.certificate, '-subj', '/CN=localhost', '-addext', 'subjectAltName=DNS:localhost'],
                              stdout=subprocess.PIPE, stderr=subprocess.STDOUT)
        if made.returncode:
            raise RuntimeError('openssl made no certificate: ' + made.stdout.decode('utf-8', 'replace'))
        conf = os.path.join(self.folder, 'chrony.conf')
        with open(conf, 'w') as f:
            if has_ipv6():
                f.write('bindaddress ::1\nallow ::1\n')
            f.write('port %d\nbindaddress 127.0.0.1\ncmdport 0\nbindcmdaddress /\npidfile %s/pid\nallow 127.0.0.1\nlocal stratum %d\nnoclientlog\n'
                    'ntsport %d\nntsserverkey %s\nntsservercert %s\nntsdumpdir %s/keys\nmaxntsconnections 20\n'
                    % (self.port, self.folder, stratum, self.nts_port, key, self.certificate, self.folder))
        # -x leaves the clock alone, -U asks for no privileges, -d stays in the foreground; as root it would else become another user, who cannot read the folder.
        user = ['-u', 'root'] if os.getuid() == 0 else ['-U']
        self.log = open(os.path.join(self.folder, 'log'), 'wb')
        self.process = subprocess.Popen([program() or 'chronyd', '-x', '-d', '-f', conf] + user, stdin=subprocess.DEVNULL, stdout=self.log, stderr=subprocess.STDOUT)
        self.wait()

    def wait(self) -> None:
        """until it answers"""
        asked = bytes([0x23]) + bytes(39) + b'are you?'
        with socket.socket(socket.AF_INET, socket.SOCK_DGRAM) as s:
            s.settimeout(0.1)
            s.connect(('127.0.0.1', self.port))
            for _ in range(100):
                try:
                    s.send(asked)
                    if s.recv(100)[24:32] == b'are you?':
                        return
                except (socket.timeout, ConnectionRefusedError):
                    time.sleep(0.05)
                if self.process.poll() is not None:
                    break
        self.stop()
        with open(os.path.join(self.folder, 'log'), 'rb') as f:
            raise RuntimeError('chronyd does not answer: ' + f.read().decode('utf-8', 'replace').strip()[-300:])

    def stop(self) -> None:
        if self.process.poll() is None:
            self.process.terminate()
            try:
                self.process.wait(10)
            except subprocess.TimeoutExpired:
                self.process.kill()
                self.process.wait()
        self.log.close()


if __name__ == '__main__':
    print(lacks())
