#!/bin/sh
# Keeps the programs that `rt ci` has built for ./os2run and the others at the top, so that nothing is built anew, and tells where they are.
#
#   keep_program.sh sums         the sum of the sources of each program
#   keep_program.sh keep SUMS    keeps the programs that `rt ci` has built; fails where the sources have other sums by now
#   keep_program.sh path NAME    where the program of the present sources is; fails where there is none
#   keep_program.sh build NAME   the same, and the program is built before where it has to be
set -u
root=$(dirname -- "$(dirname -- "$(dirname -- "$(readlink -f -- "$0")")")") || exit 1
name=os2run
. "$root/tools/lib/program.sh"
usage() {
    echo "usage: keep_program.sh sums, keep SUMS, path NAME or build NAME" >&2
    exit 2
}
case ${1-} in
    sums) [ $# -eq 1 ] || usage ;;
    keep) [ $# -eq 2 ] || usage ;;
    path | build)
        [ $# -eq 2 ] || usage
        case " $programs " in *" $2 "*) name=$2 ;; *) usage ;; esac
        ;;
    *) usage ;;
esac
case $1 in
    sums) for name in $programs; do [ ! -d "$root/crates/$name" ] || echo "$name $(content_sum)"; done ;;
    keep)
        echo "$2" | while read -r name sum; do
            program_keep "$sum" || { echo "keep_program.sh: the sources of $name aren't those of $sum" >&2; exit 1; }
        done
        ;;
    path) program_is_current && echo "$program" ;;
    build) { program_is_current || program_build; } && echo "$program" ;;
esac
