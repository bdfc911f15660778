# Which programs are built and as new as the sources. The launchers and ./install read this file, with `here`, the
# repository's folder, set.
#
# A program that people type is a crate of its name, or a subcommand of `rosm_tools`: `rosm_debug` is run as
# `rosm_tools debug`, since `subcommands.rt` of that crate compares its first word with `debug`.

# The crate from which a program is built.
crate_of() {
    if [ -n "$(subcommand_of "$1")" ]; then
        echo rosm_tools
    else
        echo "$1"
    fi
}

# The word that a program is run with before all others, if there is one.
subcommand_of() {
    sed -n "s/.*word == b\"\(${1#rosm_}\)\".*/\1/p" "$here/crates/rosm_tools/src/subcommands.rt"
}

# All that follows goes by the name of a crate.

proved_program() {
    echo "$here/crates/$1/out/$1"
}

unproved_program() {
    echo "$here/out/unproved/$1"
}

# Whether a source in one of the folders of that name is newer than a mark. Folders count too, since a source
# that was taken away leaves no other trace.
newer_source() {
    newer_than=$1
    shift
    for part; do
        find "$here/crates.txt" "$here"/crates/*/"$part" -newer "$newer_than" -print -quit 2>/dev/null
    done
}

# The mark is of the time when a build began. The gate leaves the time when it began by its lock.
is_proved() {
    program=$(proved_program "$1")
    mark=$program.built
    gate=$here/.git/rt-ci.lock
    [ -x "$program" ] || return 1
    [ -e "$mark" ] && [ -z "$(newer_source "$mark" src specs proofs)" ] && return 0
    [ -e "$gate" ] && [ -z "$(find "$gate" -newer "$program")" ] && [ -z "$(newer_source "$gate" src specs proofs)" ]
}

# What is made without proof is made of the code alone.
is_unproved() {
    program=$(unproved_program "$1")
    [ -x "$program" ] && [ -e "$program.built" ] && [ -z "$(newer_source "$program.built" src)" ]
}
