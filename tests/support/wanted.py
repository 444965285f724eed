"""The answers that a test wants to have seen, `CALL NUMBER`: those that numbers.toml has, so that a new number is wanted as soon as it is in the table."""
import os
import tomllib
from typing import List, Optional

ROOT = os.path.dirname(os.path.dirname(os.path.dirname(os.path.abspath(__file__))))


def answers(calls: Optional[List[str]] = None, nts: Optional[bool] = None) -> List[str]:
    """of these calls, or of all that the drill has; of an association with NTS, or without, or of both"""
    with open(os.path.join(ROOT, 'numbers.toml'), 'rb') as f:
        table = tomllib.load(f)
    never = {None: (), True: ('never',), False: ('only',)}[nts]
    found = {(call, row['number']) for row in table['number'] for answer in row['answer'] if answer.get('nts') not in never for call in answer.get('calls', [])}
    order = [row['name'] for row in table['call']]
    return ['%s %d' % (call, number) for call, number in sorted(found, key=lambda pair: (order.index(pair[0]), pair[1])) if calls is None or call in calls]
