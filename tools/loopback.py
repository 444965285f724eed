"""The example connector (rust/examples/connector.rs) against a chronyd of one's own on loopback: what ./connect runs where no server is named."""
import os
import subprocess
import sys
import tempfile
from typing import List, Sequence

sys.dont_write_bytecode = True
import chrony  # noqa: E402
import exchange  # noqa: E402
import machine  # noqa: E402

PATIENCE, POLLS = 60, 3
NO_CIPHER = 'no static nettle, so the connector has no cipher for NTS (Debian: apt-get install nettle-dev)'


def features() -> List[str]:
    """what the connector is built with: NTS, where this machine has the cipher"""
    return ['nettle'] if machine.has_nettle() else []


def command(server: chrony.Chronyd, folder: str, where: str, polls: int, log: str, with_nts: bool) -> List[str]:
    """what runs the connector against an address; with NTS it has the keys of an exchange with the server"""
    out = machine.rust_example('connector', features()) + [where, '--polls', str(polls), '--desired', '0', '--log', log]
    if with_nts:
        found = exchange.exchange('127.0.0.1', server.nts_port, server.certificate)
        keys = os.path.join(folder, 'keys')
        with open(keys, 'w') as f:
            f.write('to-server %s\nto-client %s\n' % (found.to_server.hex(), found.to_client.hex()) + ''.join('cookie %s\n' % c.hex() for c in found.cookies))
        out += ['--nts', keys]
    return out


def polled(server: chrony.Chronyd, folder: str, with_nts: bool) -> bool:
    """some polls, and what the connector says of them; whether it went well"""
    name, log = 'connector %s NTS' % ('with' if with_nts else 'without'), os.path.join(folder, 'connector.drill')
    done = subprocess.run(command(server, folder, '127.0.0.1:%d' % server.port, POLLS, log, with_nts), stdout=subprocess.PIPE, stderr=subprocess.STDOUT, timeout=PATIENCE)
    measured = 0
    if done.returncode == 0:
        with open(log) as f:
            measured = sum(line.startswith('# answered reply 0 ') for line in f)
    print('%s: %d polls, %d measured' % (name, POLLS, measured))
    print(''.join('    %s\n' % line[:150] for line in done.stdout.decode('utf-8', 'replace').splitlines()), end='', flush=True)
    return measured >= POLLS - 1  # one may be late by itself, on a machine that is busy


def main(arguments: Sequence[str]) -> int:
    if arguments:
        sys.exit('usage: loopback.py')
    try:
        lacks = chrony.lacks() or exchange.lacks()
        if lacks:
            raise machine.Lacks(lacks)
        machine.rust_example('connector', features())  # the library may have to be proved first, which takes minutes
        with tempfile.TemporaryDirectory(prefix='connect.') as folder:
            server = chrony.Chronyd(folder)
            try:
                well = polled(server, folder, False)
                if features():
                    return 0 if polled(server, folder, True) and well else 1
                print('connector with NTS: not run: ' + NO_CIPHER)
                return 0 if well else 1
            finally:
                server.stop()
    except (machine.Lacks, RuntimeError, OSError, subprocess.TimeoutExpired) as fault:
        print('connect: %s' % fault, file=sys.stderr)
        return 1


if __name__ == '__main__':
    sys.exit(main(sys.argv[1:]))
