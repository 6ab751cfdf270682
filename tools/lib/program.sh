# The programs, and whether each is of the present sources: functions for ./os2run and the others at the top, and for keep_program.sh,
# which set `root`, the folder of the checkout, and `name`, the program.
#
# A program stands in build/SUM/NAME, where SUM is the sum of what it was built from: the lines of crates.txt and the files in src/,
# specs/ and proofs/ of each crate that it stands on. Times of files don't count. The last four of a program are kept. build/NAME.seen has
# the sum of its sources, and behind it the sizes and times of the files at which it was found, so that a run over files that nothing has
# touched reads none of them. (No link names the one to run: rt takes none in a repository.)

programs="os2run os2why os2list os2trace os2core os2vectors"
log=$root/build/log

# The program's crates, each behind those that it stands on, which is the order in which rt proves them.
crates_below() {
    awk -v top="$name" '
        { sub(/#.*/, ""); at = index($0, ":") }
        at { name = substr($0, 1, at - 1); split(name, first, " "); below[first[1]] = substr($0, at + 1) }
        function visit(name, words, n, i) {
            if (name in done || !(name in below)) return
            done[name] = 1
            n = split(below[name], words, " ")
            for (i = 1; i <= n; i++) visit(words[i])
            print name ":" below[name]
        }
        END { visit(top) }
    ' "$root/crates.txt"
}

# The sizes and times of the files that count.
seen_now() {
    (
        cd "$root" || exit 1
        set -- crates.txt
        for each in $(crates_below | cut -d: -f1); do
            set -- "$@" "crates/$each/src" "crates/$each/specs" "crates/$each/proofs"
        done
        find "$@" -printf '%p %y %s %T@ %C@ %i\n' 2>/dev/null
    )
}

# The sum of what the program stands on.
content_sum() {
    (
        cd "$root" || exit 1
        {
            crates_below
            for each in $(crates_below | cut -d: -f1); do
                for part in src specs proofs; do
                    [ -d "crates/$each/$part" ] && find "crates/$each/$part" ! -type d -print0
                done
            done | LC_ALL=C sort -z | xargs -0 sha256sum
        } | sha256sum | cut -c1-32
    )
}

# Whether there is a program of the present sources. It is then `program`. `sum` is the sum of the sources.
program_is_current() {
    seen=$(seen_now)
    sum=$(head -n 1 "$root/build/$name.seen" 2>/dev/null)
    if [ -z "$sum" ] || [ "$seen" != "$(tail -n +2 "$root/build/$name.seen")" ]; then
        sum=$(content_sum)
        program_seen
    fi
    program=$root/build/$sum/$name
    [ -x "$program" ]
}

# Writes down the sum of the sources. A folder that can't be written, as another's checkout, costs only time.
program_seen() {
    [ ! -d "$root/build" ] ||
        { { echo "$sum" && printf '%s\n' "$seen"; } >"$root/build/$name.seen.$$" && mv -f -- "$root/build/$name.seen.$$" "$root/build/$name.seen"; } 2>/dev/null
}

# Keeps what rt built of the sources of a sum, and the three of the same program before it. Where they have another sum by now nothing is
# kept.
program_keep() {
    [ "$(content_sum)" = "$1" ] &&
        mkdir -p "$root/build/$1" &&
        cp -- "$root/crates/$name/out/$name" "$root/build/$1/$name.$$" &&
        mv -f -- "$root/build/$1/$name.$$" "$root/build/$1/$name" || return 1
    touch "$root/build/$1"
    (cd "$root/build" && ls -dt -- */ | grep -xE '[0-9a-f]{32}/' | while IFS= read -r old; do [ ! -e "$old$name" ] || echo "$old"; done |
        tail -n +5 | while IFS= read -r old; do rm -f -- "./$old$name" && rmdir -- "./$old" 2>/dev/null; done)
    program_is_current && [ "$sum" = "$1" ]
}

# The crate that is being proved, which of how many it is, and the minutes so far: a line that is written over on a terminal, or else
# a line on the standard error for each crate.
tell_progress() {
    if [ -t 2 ]; then to=/dev/stderr over=yes
    elif (: >/dev/tty) 2>/dev/null; then to=/dev/tty over=yes
    else to=/dev/stderr over=; fi
    names=$(crates_below | cut -d: -f1)
    count=$(echo "$names" | wc -l)
    began=$(date +%s)
    told=
    while kill -0 $$ 2>/dev/null; do
        proving=$(sed -n 's/^rt: chose --jobs [0-9]* for \([a-z0-9_]*\)$/\1/p; s/^[a-z]* \([a-z0-9_]*\)::.*: proved$/\1/p' "$log" 2>/dev/null | tail -n 1)
        number=$(echo "$names" | grep -nx -- "${proving:-none}" | cut -d: -f1)
        what="reading the sources of $count crates"
        [ -z "$number" ] || what="proving $proving, crate $number of $count"
        if [ -n "$over" ]; then
            printf '\r\033[K%s: %s; %s min; see build/log' "$name" "$what" $((($(date +%s) - began) / 60)) >$to
        elif [ "$what" != "$told" ]; then
            echo "$name: $what; $((($(date +%s) - began) / 60)) min; see $log" >&2
        fi
        told=$what
        sleep 1
    done
}

# Has rt prove and build the program.
program_build() {
    command -v rt >/dev/null || { echo "$name: building wants the command rt of the Rattle toolchain on the PATH" >&2; return 1; }
    mkdir -p "$root/build" || return 1
    # one build at a time; the second finds what the first built
    exec 9>"$root/build/lock"
    flock -n 9 || { echo "$name: another build is under way here; waiting for it" >&2; flock 9; }
    program_is_current && return 0
    : >"$log"
    tell_progress 9>&- &
    teller=$!
    trap 'kill $teller 2>/dev/null; exit 130' INT
    words=--version
    [ "$name" != os2run ] || words="exe data/hello.exe"
    (cd "$root/crates/$name" && exec rt run -- $words) </dev/null >"$log" 2>&1 9>&-
    status=$?
    trap - INT
    kill $teller 2>/dev/null
    wait $teller 2>/dev/null
    if [ -t 2 ]; then printf '\r\033[K' >&2; elif (: >/dev/tty) 2>/dev/null; then printf '\r\033[K' >/dev/tty; fi
    if [ $status -ne 0 ]; then
        echo "$name: the build failed. The last lines of $log:" >&2
        grep -v -e '^statements ' -e '^logic /' -- "$log" | tail -n 20 | sed 's/^/    /' >&2
        return 1
    fi
    # (also where it was changed and changed back)
    [ "$seen" = "$(seen_now)" ] && program_keep "$sum" ||
        { echo "$name: a source changed while the program was built: run this again" >&2; return 1; }
}

# Runs the program with these words, and builds it before where it has to be. Where the build fails the status is 70.
program_run() {
    program_is_current || program_build || exit 70
    exec 9>&-
    [ "$name" != os2run ] || ! has_terminal || run_watched "$@"
    exec "$program" "$@"
}
