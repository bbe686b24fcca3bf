# tests/program.sh: the program at hand. tests/demo.sh and tests/run.sh source it at the top of the repository.
. tests/unproved.sh

# Where the program stands, proved or not, and what it is.
at_hand=out/cnsd
about=out/about
proved='the proved program'

# is_up_to_date PROGRAM: whether it is built, and neither crates.txt nor a file under a crate's src, specs or
# proofs is newer. A folder counts too: it is newer where a file was taken out of it.
is_up_to_date() {
    local newer sources=(crates.txt crates/*/src crates/*/specs crates/*/proofs)
    [[ -f $1 && -x $1 ]] || return 1
    newer=$(find "${sources[@]}" -newer "$1" -print -quit 2>/dev/null) || return 1
    [[ -z $newer ]]
}

# tell_about WHAT: what the program at hand is, of which commit and by which kit.
tell_about() {
    local commit
    commit=$(git rev-parse --short HEAD 2>/dev/null) || commit='no commit'
    [[ -z $(git status --porcelain 2>/dev/null) ]] || commit+=' with changes'
    printf '%s, of %s, by %s\n' "$1" "$commit" "$(rt version)"
}

# put_at_hand FILE WHAT: makes a file the program at hand, which says in its version what it is.
put_at_hand() {
    cp "$1" "$at_hand.new" && chmod +x "$at_hand.new" && tell_about "$2" >"$about" && tests/record_build.py "$at_hand.new" "$(<"$about")" &&
        mv "$at_hand.new" "$at_hand"
}

# is_at_hand PROVED: whether the program at hand was made of the proved one as it stands.
is_at_hand() {
    [[ -x $at_hand && -s $about && ! $1 -nt $at_hand && $(<"$about") == "$proved,"* ]]
}

# build_unproved: makes the program at hand by a build that proves nothing. Where it fails the status is 1, and why is told on standard
# error.
build_unproved() {
    local folder status=0
    folder=$(mktemp -d) || return 1
    make_module "$folder" crates/cnsd --version && compile_module "$folder" -O1 && link_program "$folder" "$folder/cnsd" && put_at_hand "$folder/cnsd" 'a build that proves nothing' || {
        tail -n 20 "$folder/said" >&2
        status=1
    }
    rm -rf "$folder"
    return "$status"
}

# have_program PROVED: leaves the program at out/cnsd: PROVED, where it is built and no source is newer; else what stands there, where
# no source is newer; else a build that proves nothing, which is made now and takes a minute or two. Which it is stands in out/about.
have_program() {
    mkdir -p out || return 1
    if is_up_to_date "$1"; then
        is_at_hand "$1" || put_at_hand "$1" "$proved"
    elif ! is_up_to_date "$at_hand" || [[ ! -s $about ]]; then
        echo "the program is built, unproved, which takes a minute or two; for the proved one: make build" >&2
        build_unproved
    fi
}
