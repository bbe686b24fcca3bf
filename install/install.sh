#!/usr/bin/env bash
# install/install.sh PROVED: sets up the program at hand (tests/program.sh) under PREFIX (/usr/local), with its manual page and its
# completion for bash. PROVED is where the proved program is built, as a path from the top of the repository. DESTDIR is put before PREFIX.
# The program at hand is the proved one where that is built and no source is newer, else a build that proves nothing; which it was is told
# on standard error.
set -eu
cd "$(dirname "$0")/.."
. tests/program.sh

# put MODE FILE: standard input as a file under the prefix. It takes the place of what is there at once, or not at all.
put() {
    local to=$root/$2
    mkdir -p "$(dirname "$to")"
    cat >"$to.new"
    chmod "$1" "$to.new"
    mv "$to.new" "$to"
    printf '%s\n' "$to"
}

(($# == 1)) || { echo 'usage: install/install.sh PROVED' >&2; exit 2; }
root=${DESTDIR:-}${PREFIX:-/usr/local}
have_program "$1" </dev/null
printf 'install/install.sh: %s\n' "$(<"$about")" >&2
page=$(install/page.py "$at_hand")
completion=$(install/completion.py "$at_hand")
put 755 bin/cnsd <"$at_hand"
put 644 share/man/man1/cnsd.1 <<<"$page"
put 644 share/bash-completion/completions/cnsd <<<"$completion"
