#!/usr/bin/env python3
"""evaluator.py WORDS..: the words of bukshena, carried out by a program that shares nothing with it.

It was written from docs/ alone, for comparisons: expected replies of examples and tests come from it, and .ci/random
gives both programs the same random scripts. What it calls proved it only believes."""
import re
import sys

import certificates
import script

WORKERS = r'( --workers (1[0-6]|[1-9]))?'


def main(words, data):
    """What is written, and the status."""
    said = ' '.join(words)
    found = re.fullmatch(rf'(run|check|batch){WORKERS}|gen (0|[1-9][0-9]*){WORKERS}', said)
    if not found or found[4] and int(found[4]) >= 2**32 or any(' ' in w or not w for w in words):
        return '', 2
    if found[4]:
        return script.summary(int(found[4])) + '\n', 0
    if len(data) > 2**24:
        return '', 5
    lines = script.lines_of(data)
    carried_out = {'run': lambda: script.run(script.expansion(lines)), 'check': lambda: certificates.check(lines),
                   'batch': lambda: script.batch(lines)}[found[1]]
    replies, is_refused = carried_out()
    return ''.join(reply + '\n' for reply in replies), int(is_refused)


if __name__ == '__main__':
    words = sys.argv[1:]
    reply, status = main(words, sys.stdin.buffer.read() if words[:1] != ['gen'] else b'')
    sys.stdout.write(reply)
    sys.exit(status)
