#!/usr/bin/env python3
"""record_build.py PROGRAM WORDS: has a program say WORDS in brackets behind its version, in place of that nothing is recorded.

The text stands in the program once (crates/cns_command_line/src/version.rt), with room behind it, and its length stays. The status is 1
where it does not stand there just once or the words do not fit, and then the program is left as it was.
"""
import re
import sys

NOTHING = rb'0\.1\.0 \(nothing is recorded of how this program was made\) +'


def main():
    if len(sys.argv) != 3:
        print(__doc__.splitlines()[0], file=sys.stderr)
        return 2
    path, words = sys.argv[1:]
    with open(path, 'rb') as program:
        text = program.read()
    places = list(re.finditer(NOTHING, text))
    told = b'0.1.0 (%s)' % words.encode('ascii', 'replace')
    if len(places) != 1 or len(told) > len(places[0][0]) or not told.decode('ascii').isprintable():
        print(f'{path}: its version cannot be made to say "{words}"', file=sys.stderr)
        return 1
    start, end = places[0].span()
    with open(path, 'r+b') as program:
        program.seek(start)
        program.write(told.ljust(end - start))
    return 0


if __name__ == '__main__':
    sys.exit(main())
