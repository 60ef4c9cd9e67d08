# What the scripts `lanes` and `install` know of the released files. They read this file, and set `release`, its folder, before.

# Sets `level` to the greatest level of processors that this one has and releases are for. Where there is none it says so, by `say`.
find_level() {
    local flags flag
    flags=" $(grep -m 1 '^flags' /proc/cpuinfo 2> /dev/null || true) "
    if [[ $flags != *:* ]]; then
        say "the released programs are for Linux on x86-64 processors, and this one is $(uname -m)"
        return 1
    fi
    for flag in cx16 popcnt ssse3 sse4_1 sse4_2; do
        [[ $flags == *" $flag "* ]] || { say "the released programs need a processor of the level x86-64-v2, and this one does not have $flag"; return 1; }
    done
    level=x86-64-v2
    for flag in abm avx avx2 bmi1 bmi2 f16c fma movbe; do
        [[ $flags == *" $flag "* ]] || return 0
    done
    level=x86-64-v3
}

# Sets `sum` to the one that a list of the release has of a file: `find_sum SHA256SUMS lanes-x86-64-v3`.
find_sum() {
    local file
    [ -f "$release/$1" ] || return 1
    while read -r sum file; do
        if [ "$file" = "$2" ]; then return 0; fi
    done < "$release/$1"
    return 1
}

# Takes a released file out of its archive into a folder, under a name that nothing else has, and sets `new` to its path. Where it isn't
# what the list says, that is said.
unpack() {
    local list=$1 name=$2 folder=$3
    if find_sum "$list" "$name" && new=$(mktemp "$folder/.$name.XXXXXX"); then
        if gzip -dc "$release/$name.gz" > "$new" && [ "$(sha256sum < "$new")" = "$sum  -" ]; then return 0; fi
        rm -f "$new"
    fi
    say "$release/$name.gz is not what $release/$list says"
    return 1
}
