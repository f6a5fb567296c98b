# Functions for the scripts of this folder, which read this file with `.`. A script that lacks a tool says so and ends with a status
# other than 0. No figure is printed for a run that failed.

# fails WORD..: says why there is no figure, and ends
fails() {
    echo "$(basename "$0"): $*" >&2
    exit 1
}

# wants TOOL..: ends if one of them is missing
wants() {
    for tool in "$@"; do
        command -v "$tool" > /dev/null || fails "$tool is missing"
    done
}

# program PATH NAME: the absolute path of a program that was built
program() {
    test -n "$1" || fails "name the program $2"
    test -x "$1" || fails "$1 is missing or no program: make build makes it"
    realpath "$1"
}

# web PREFIX TEXT BYTES COUNT: prints a web of PREFIX and then TEXT, until it has BYTES bytes or COUNT of TEXT. Each %x is a counter.
# A TEXT without a newline is repeated in lines of some 4,000 bytes.
web() {
    LC_ALL=C awk -v prefix="$1" -v unit="$2" -v bytes="$3" -v most="$4" 'BEGIN {
        printf "%s", prefix
        for (size = length(prefix); size < bytes && count < most; size += length(text)) {
            text = sprintf(unit, count, count)
            count++
            line = text ~ /\n/ ? 0 : line + length(text)
            if (line >= 4000) {
                text = text "\n"
                line = 0
            }
            printf "%s", text
        }
        print ""
    }'
}

# runs STATUS COMMAND..: runs it without showing its output, and ends if its status differs
runs() {
    wanted=$1
    shift
    status=0
    "$@" > run.out 2> run.log || status=$?
    test "$status" = "$wanted" || fails "status $status of: $*: $(tail -n 1 run.log)"
}

# seconds STATUS COMMAND..: sets `time` to the least wall time of seven runs that end with that status
seconds() {
    : > run.times
    for _ in 1 2 3 4 5 6 7; do
        begin=$(date +%s%N)
        runs "$@"
        echo $(($(date +%s%N) - begin)) >> run.times
    done
    time=$(sort -n run.times | awk 'NR == 1 { printf "%.4f", $1 / 1e9 }')
}

# once STATUS COMMAND..: sets `time` to the wall time of one run
once() {
    begin=$(date +%s%N)
    runs "$@"
    time=$(awk -v begin="$begin" -v end="$(date +%s%N)" 'BEGIN { printf "%.2f", (end - begin) / 1e9 }')
}

# room STATUS COMMAND..: sets `memory` to the peak memory of a run in KB
room() {
    wanted=$1
    shift
    runs "$wanted" /usr/bin/time -q -o run.memory -f %M "$@"
    memory=$(cat run.memory)
}

# instructions STATUS COMMAND..: sets `count` to the instructions of a run, counted by callgrind
instructions() {
    wanted=$1
    shift
    # where the processor has fast string instructions, glibc uses them from 2 KB on, and valgrind counts each byte as one
    runs "$wanted" env GLIBC_TUNABLES=glibc.cpu.x86_rep_stosb_threshold=1000000000:glibc.cpu.x86_rep_movsb_threshold=1000000000 \
        valgrind --tool=callgrind --callgrind-out-file=callgrind.out "$@"
    count=$(awk '/Collected/ { print $NF }' run.log)
    test -n "$count" || fails "callgrind counted nothing: $*"
}

# dearest: the functions that take most of what callgrind counted last
dearest() {
    callgrind_annotate --threshold=95 callgrind.out > run.dearest 2> run.log || fails "callgrind_annotate: $(tail -n 1 run.log)"
    awk '/^ *[0-9,]+ \(/ && shown < 8 { print; shown++ }' run.dearest
}
