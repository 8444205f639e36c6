# What the scripts beside this one share, which read it. `seed` and `here` are theirs.

# Runs a program of a checkout on words, keeps its output, and prints the milliseconds of CPU time that it took.
once() {
    local top=$1 crate=$2 output=$3
    shift 3
    local words=() input=/dev/null word
    for word in "$@"; do
        case $word in
            SEED) words+=("$seed") ;;
            '<'*) input=${word#<} ;;
            *) words+=("$word") ;;
        esac
    done
    (
        cd -- "$top/bench"
        TIMEFORMAT='%3U %3S'
        { time "$top/crates/$crate/out/$crate" ${words[@]+"${words[@]}"} <"$input" >"$output"; } 2>&1
    ) | awk 'NF == 2 { printf "%d\n", ($1 + $2) * 1000 + 0.5 }'
}

median() { sort -n -- "$1" | awk '{ v[NR] = $1 } END { printf "%.1f", (v[int((NR + 1) / 2)] + v[int(NR / 2) + 1]) / 2 }'; }
