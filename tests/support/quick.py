#!/usr/bin/env python3
"""quick: answers the logs of plain nights (`new`, `timer`, version 4 replies without NTS, `accept`, `blank`) as the proved program does, many times faster than an emulator
runs it. For tests that need many lines and whose matter is not the answers; tests/page holds it to the program."""
import sys


def answers(lines):
    pending, deadline, measured, tries, window, startup, reach = None, 0, None, 0, 0, 0, 0
    for line in lines:
        word, _, rest = line.partition(' ')
        g = dict(pair.split('=', 1) for pair in rest.split(' ')) if rest else {}
        if word == 'new':
            pending, measured, tries, window, startup, reach = None, None, 0, int(g['window']), int(g['startup']), 0
            yield 'new 0 dropped=0 lost=0'
        elif word == 'timer':
            if reach == 0 and tries >= startup:
                yield 'timer 21'
                continue
            pending, deadline, tries, reach = g['id'], int(g['now']) + window, tries + 1, reach << 1 & 255
            yield 'timer 20 send=v4 poll=%s cookie=- asked=0' % g['desired']
        elif word == 'reply':
            packet, now = g['packet'], int(g['now'])
            if pending is None:
                yield 'reply 13' if measured else 'reply 12'
            elif now > deadline:
                yield 'reply 14'
            elif packet[48:64] != pending:
                yield 'reply 4'
            else:
                pending, measured, reach = None, packet, reach | 1
                t1, t4, t2, t3 = int(g['t1']), int(g['t4']), int(packet[64:80], 16), int(packet[80:96], 16)
                offset = ((t2 - t1) + (t3 - t4)) // 2
                delay = (t4 - t1) - (t3 - t2)
                yield 'reply 0 delay=%d offset=%d local=%d mono=%d stratum=%d rootdelay=%d rootdisp=%d leap=0 precision=-20 dropped=0 lost=0' % (
                    delay, offset, t4 - delay // 2, now, int(packet[2:4], 16), int(packet[8:16], 16) << 16, int(packet[16:24], 16) << 16)
        elif word == 'accept':
            yield 'accept 40' if not measured else 'accept 41' if measured[24:32] in g.get('local', '').split(',') else 'accept 0'
        else:
            yield word


if __name__ == '__main__':
    for answer in answers(line.rstrip('\n') for line in sys.stdin if line.strip() and not line.startswith('#')):
        sys.stdout.write(answer + '\n')
