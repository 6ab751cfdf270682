# A run that somebody at a terminal waits for: functions for ./os2run, which set `name` and `program`.
#
# The program is this shell's child then, so that its end can be told. What is told goes to the terminal alone, and never into a file.
# Where no terminal is among the streams the program takes this shell's place.

# Whether a process runs in the foreground of its terminal; its state is then `state`.
in_foreground() {
    stat=$(cat "/proc/$1/stat" 2>/dev/null)
    set -- ${stat##*) }
    state=${1-}
    [ -n "$state" ] && [ "$3" = "$6" ]
}

# Whether a terminal is among the streams, where somebody waits, and the program can be started such that Ctrl-C ends it.
has_terminal() {
    { [ -t 0 ] || [ -t 1 ] || [ -t 2 ]; } && (: >/dev/tty) 2>/dev/null && in_foreground $$ && env --default-signal=INT,QUIT true 2>/dev/null
}

# Whether a stream goes neither to the terminal nor to a pipe, by which another program may write there.
is_apart() {
    [ ! -t "$1" ] && [ ! -p "/proc/$$/fd/$1" ]
}

# The file that the report goes to, where it goes to one of its own, and how many bytes stand there before the run.
find_report() {
    report= read=0 lines=0 live=0 last=
    [ -f /proc/$$/fd/2 ] && ! [ /proc/$$/fd/1 -ef /proc/$$/fd/2 ] || return 0
    report=/proc/$$/fd/2
    read=$(wc -c <$report 2>/dev/null) || report=
}

# Reads on in the report: how many lines it has, how many processes have begun and not ended, and which line is the last. A line that has
# no end yet, so what stands in front of the mark, is read the next time.
read_report() {
    [ -n "$report" ] || return 0
    more=$({ tail -c "+$((read + 1))" "$report" 2>/dev/null; echo mark; } | LC_ALL=C awk '
        NR > 1 {
            split(line, words, " ")
            live += (words[2] == "start") - (words[2] == "end")
            bytes += length(line) + 1; lines++; last = line
        }
        { line = $0 }
        END { print bytes + 0, lines + 0, live + 0, last }')
    set -- $(echo "$more" | cut -d' ' -f1-3)
    [ "${2-0}" -gt 0 ] || return 0
    read=$((read + $1)) lines=$((lines + $2)) live=$((live + $3)) last=$(echo "$more" | cut -d' ' -f4-)
}

# The seconds of the run so far, and what the report tells.
run_so_far() {
    printf '%s s' $(($(date +%s) - began))
    [ -z "$report" ] || printf ', %s lines of the report, processes alive: %s' "$lines" "$live"
}

# Takes the line on the terminal away, where there is one.
untell_run() {
    [ -z "$told" ] || printf '\r\033[K' >/dev/tty
    told=
}

# A line on the terminal that is written over each second. It is taken away while the program waits, as for its input, and at the end.
tell_run() {
    told=
    trap 'untell_run; exit' TERM
    while kill -0 "$child" 2>/dev/null; do
        sleep 1 &
        wait $!
        if in_foreground "$child" && [ "$state" = R ]; then
            read_report
            told="$name: $(run_so_far)"
            printf '\r\033[K%s' "$told" >/dev/tty
        else
            untell_run
        fi
    done
}

# Says who tells why a machine file or an executable was refused. The words are those of the program.
tell_why() {
    [ "$name" = os2run ] || return 0
    verb=run
    [ "$1" != exe ] || verb=exe
    printf '%s: %sos2why %s %s says why\n' "$name" "${0%"$name"}" "$verb" "$2" >/dev/tty
}

# Runs the program with these words, and ends as it does. Where Ctrl-C ended it the terminal shows where the report ends.
run_watched() {
    began=$(date +%s)
    find_report
    exec 8<&0
    env --default-signal=INT,QUIT "$program" "$@" <&8 8<&- &
    child=$!
    teller=
    # (else the line would stand among those of the console or of the report)
    if is_apart 1 && is_apart 2; then
        tell_run </dev/null >/dev/null 2>&1 8<&- &
        teller=$!
    fi
    trap : INT
    for signal in TERM HUP; do trap "kill -$signal $child" $signal; done
    # (a signal to this shell ends the wait too)
    while wait $child; status=$?; kill -0 $child 2>/dev/null; do :; done
    if [ -n "$teller" ]; then
        kill $teller 2>/dev/null
        wait $teller 2>/dev/null
    fi
    case $status in
        3 | 4) tell_why "$@" ;;
    esac
    [ $status -eq 130 ] || exit $status
    read_report
    where=
    [ -z "$last" ] || where="; the report ends with its line $lines: $last"
    printf '\n%s: interrupted after %s s%s\n' "$name" $(($(date +%s) - began)) "$where" >/dev/tty
    trap - INT
    kill -INT $$
}
