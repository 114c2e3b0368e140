# Functions about the programs in dist/, for scripts that set `root`, the top of the repository.
# dist/NAME.gz is the program NAME. dist/built-from has on each line a word and what it stands for: `sources` the sum of the sources, `commit`
# and `kit` what the programs were built from, `itip` and `tell` their own sums. dist/SHA256SUMS has the sums of these three files.
# dist/out, which git ignores, has the programs unpacked, the mark `fits` (below), and `passed`: what .ci/run notes, for dist/make.
dist=$root/dist
# What a call makes for itself: a temporary folder, and one in dist/out, from where files get their place there whole, by a rename.
scratch=
beside=

# Both folders go with the call, however it ends.
clean_up_at_end() {
    trap 'rm -rf "$scratch" "$beside"' EXIT
    trap 'exit 129' HUP
    trap 'exit 130' INT
    trap 'exit 143' TERM
}

make_scratch() {
    [ -n "$scratch" ] || scratch=$(mktemp -d)
}

# fails where dist/out can't be written
make_beside() {
    [ -n "$beside" ] || { mkdir -p "$dist/out" && beside=$(mktemp -d "$dist/out/XXXXXX"); }
} 2>/dev/null

# the sum of standard input
sum() {
    sha256sum | { read -r sum _ && echo "$sum"; }
}

# FILE: its sum, nothing where it can't be read
sum_of() {
    { sum <"$1"; } 2>/dev/null
}

# The one sum over all sources: of the list of their names and sums.
sum_of_sources() {
    (cd "$root" && find crates.txt crates/*/src crates/*/specs crates/*/proofs -type f | LC_ALL=C sort | xargs sha256sum) | sum
}

# WORD: what dist/built-from, or the other file, says of it
noted() {
    while read -r word value; do [ "$word" != "$1" ] || echo "$value"; done <"${2:-$dist/built-from}"
}

sums_of_dist() {
    (cd "$dist" && sha256sum built-from itip.gz tell.gz)
}

has_programs() {
    [ -e "$dist/built-from" ] || [ -e "$dist/itip.gz" ] || [ -e "$dist/tell.gz" ] || [ -e "$dist/SHA256SUMS" ]
}

is_whole() {
    sums=$(sums_of_dist) && [ "$sums" = "$(cat "$dist/SHA256SUMS")" ]
} 2>/dev/null

# Whether no source and no file of dist/ was changed, made, moved or removed since dist/ was last seen to be whole and of these sources. That is
# told by when each file and folder last changed, a time that no program can set (docs/DECISIONS.md), and the time of the mark.
is_unchanged() {
    changed=$(cd "$root" && find crates.txt crates dist -name out -prune -o -cnewer dist/out/fits -print) && [ -z "$changed" ]
} 2>/dev/null

# Sets $lack to why dist/ has no programs for this machine and these sources, to nothing where it has.
find_lack() {
    lack=
    if ! has_programs; then
        lack='dist/ has no programs yet'
        return
    fi
    for tool in find gzip sha256sum sort uname xargs; do
        command -v "$tool" >/dev/null || lack="the programs of dist/ can't be used, since $tool isn't on the path"
    done
    [ -z "$lack" ] || return
    machine=$(uname -sm)
    if [ "$machine" != 'Linux x86_64' ]; then
        lack="the programs of dist/ are for Linux x86_64, and this machine is $machine"
    elif ! is_unchanged; then
        # (the mark first, so that what changes from now on is newer)
        ! make_beside || touch "$beside/fits"
        if ! is_whole; then
            lack='dist/ is damaged: its files have other sums than dist/SHA256SUMS gives'
        elif [ "$(sum_of_sources)" != "$(noted sources)" ]; then
            lack="the programs of dist/ are of other sources, those of commit $(noted commit)"
        elif [ -n "$beside" ]; then
            mv "$beside/fits" "$dist/out/fits"
        fi
    fi
}

# NAME, the words with which it answers nothing: unpacks it, as $built, if it is whole and runs.
unpack() {
    name=$1
    shift
    if make_beside; then
        part=$beside/$name
        built=$dist/out/$name
        where="as $built"
    else
        make_scratch || return
        part=$scratch/$name
        built=$part
        where="for this call alone, since nothing can be written in $dist/out"
    fi
    if ! gzip -dc "$dist/$name.gz" >"$part" || [ "$(sum_of "$part")" != "$(noted "$name")" ]; then
        lack="dist/$name.gz can't be unpacked $where"
        return 1
    fi
    chmod +x "$part"
    if ! "$part" "$@" </dev/null >/dev/null 2>&1; then
        lack="the program of dist/$name.gz doesn't run on this machine (docs/reference/statuses.md)"
        return 1
    fi
    [ "$part" = "$built" ] || mv "$part" "$built"
    say "$name is the program of dist/, which a gate proved and built from these sources. It is unpacked $where." \
        'To prove it on this machine, with the Rattle kit: .ci/run, or ITIP_PROVE=1 ./itip .. (README.md)'
}

# NAME, the words with which it answers nothing: the program of dist/, unpacked, as $built. Fails where there is none of these sources for this
# machine; $lack says why.
take_built() {
    # (one look is enough for a call)
    [ -n "${lack+looked}" ] || find_lack
    [ -z "$lack" ] || return
    built=$dist/out/$1
    { [ -x "$built" ] && [ "$(sum_of "$built")" = "$(noted "$1")" ]; } || unpack "$@" || return
    [ -z "$beside" ] || rm -rf "$beside"
    beside=
}

# WORDS..: runs $built in place of the script. What is unpacked for this call is run as an open file, so that its folder is gone before it
# begins.
run_built() {
    if [ -n "$scratch" ]; then
        exec 9<"$built"
        rm -rf "$scratch"
        built=/proc/self/fd/9
    fi
    exec "$built" "$@"
}
