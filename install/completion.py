#!/usr/bin/env python3
"""Writes the completion of cnsd's command line for bash, by what the program says of itself by --help.

    install/completion.py PROGRAM

The script goes to standard output.
"""
import re
import sys

from page import said, tell


def words_under(head, text):
    """The first words of the lines of a part of a help text."""
    part = re.search(r'^%s:\n((?:  .*\n)*)' % head, text, re.M)
    return [word.rstrip('.') for word in re.findall(r'^  +(?:-\w, )?(\S+)', part[1], re.M)] if part else []


def script(program):
    """The lines of the script."""
    whole = said(program, '--help')
    commands = words_under('Commands', whole)
    lines = ['# Completion of cnsd for bash, made by install/completion.py.', '_cnsd() {',
             '    local word=${COMP_WORDS[COMP_CWORD]} before=${COMP_WORDS[COMP_CWORD-1]}', '    COMPREPLY=()',
             '    case $before in', '        --journal)', '            COMPREPLY=($(compgen -d -- "$word"))', '            return', '            ;;',
             '        --workers | --shake)', '            return', '            ;;',
             '        --openings | --trades | --script)', '            COMPREPLY=($(compgen -f -- "$word"))', '            return', '            ;;', '    esac',
             '    ((COMP_CWORD > 1)) || {', '        COMPREPLY=($(compgen -W "%s" -- "$word"))' % ' '.join([*commands, *words_under('Options', whole)]),
             '        return', '    }', '    case ${COMP_WORDS[1]} in']
    for command in commands:
        words = commands if command == 'help' else words_under('Options', said(program, command, '--help'))
        lines += ['        %s)' % command, '            COMPREPLY=($(compgen -W "%s" -- "$word"))' % ' '.join(words), '            ;;']
    return [*lines, '    esac', '}', 'complete -F _cnsd cnsd']


if __name__ == '__main__':
    sys.exit(tell(script, __doc__))
