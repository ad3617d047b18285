#!/usr/bin/env bash
# The daemon over its socket and its file, against the second program. host/test.sh [SEED]. Wants bash 5.1 and what `tools/libcube` writes.
set -Eeuo pipefail
cd "$(dirname "${BASH_SOURCE[0]}")/.."
seed=${1:-1}
RANDOM=$seed
bin=target/host
disk=$(mktemp -d)
memory=$(mktemp -d -p /dev/shm 2> /dev/null || mktemp -d) # where a sync costs little
record_size=5136
file_size=$((record_size + 28)) # with the greeting and the checksum

finish() {
    jobs -p | xargs -r kill 2> /dev/null || true
    rm -rf "$disk" "$memory"
}
trap finish EXIT
trap 'echo "${BASH_SOURCE[0]}: line $LINENO failed, seed $seed"' ERR

fail() {
    echo "host/test.sh: $*, seed $seed"
    exit 1
}

# reference PROGRAM WORDS..
reference() { cargo run --offline --release --quiet --manifest-path reference/Cargo.toml --bin "$1" -- "${@:2}"; }

# A machine's files in a new folder below the one given.
new_machine() {
    folder=$(mktemp -d -p "$1")
    record=$folder/record
    socket=$folder/socket
}

# What the second program prints and leaves for the log.
refer() {
    reference cube-ref < "$folder/log" > "$folder/lines"
    reference cube-record < "$folder/log" > "$folder/expected"
}

# make_log SEED FRAMES: a log, and what the second program prints and leaves for it.
make_log() {
    dimension=$(($1 % 11))
    reference cube-gen "$1" "$2" > "$folder/log"
    refer
}

start() {
    "$@" &
    daemon=$!
}

end_daemon() {
    kill "$daemon"
    wait "$daemon" || fail "the daemon ended with status $?"
    [[ ! -e $socket ]] || fail "the socket was left"
}

client=(timeout 120 "$bin/cube-client") # with the socket's path

same_as_reference() {
    cmp "$folder/lines" "$folder/printed"
    cmp "$folder/expected" <(head -c "$record_size" "$record")
}

# The log through the socket of one daemon.
run_log() {
    start "$bin/cube-host" "$record" "$socket" "$dimension"
    "${client[@]}" "$socket" < "$folder/log" > "$folder/printed"
    end_daemon
    same_as_reference
}

# plain_run SEED FRAMES
plain_run() {
    new_machine "$memory"
    make_log "$1" "$2"
    run_log
}

# Bytes that are given in hexadecimal.
bytes() { printf %b "$(printf '\\x%s' "$@")"; }

# Growths of job 7 beside job 8 in a cube of four nodes, by buddy.
growths() {
    local node
    new_machine "$memory"
    dimension=2
    {
        bytes 06 00 01 03 02 00
        for node in 00 01 02 03; do bytes 06 00 01 01 $node 00; done
        bytes 08 00 01 02 07 00 00 00
        bytes 08 00 01 02 08 00 00 00
        bytes 08 00 04 02 09 00 01 00 # job 9 holds none
        bytes 08 00 04 02 07 00 00 00 # one node is not more than job 7 has
        bytes 08 00 04 02 07 00 02 00 # job 8 has node 1
        bytes 08 00 04 02 07 00 01 00 # elsewhere: node 0 is lost
        bytes 06 00 02 02 08 00
        bytes 08 00 04 02 07 00 02 00
    } > "$folder/log"
    refer
    run_log
    tail -n 9 "$folder/printed" | cmp - <(
        printf '%s\n' '6 granted 7 0 0 1' '7 granted 8 1 0 2' '8 refused 11 0' '9 refused 17 0' '10 refused 14 1' \
            '11 granted 7 2 1 2' '12 done 1' '13 granted 7 0 3 1' 'total 13 setup 1 done 5 granted 4 refused 3'
    )
}

# Row 6 of document 01's sessions by best fit, which keeps nodes 0 to 3 whole, and a growth: to job 9 node 5 and nodes 6 and 7 are free.
best_fit() {
    local node
    new_machine "$memory"
    dimension=3
    {
        bytes 06 00 01 03 03 00
        for node in 00 01 02 03 05 06 07; do bytes 06 00 01 01 $node 00; done
        bytes 06 00 02 01 04 00
        bytes 08 00 01 02 07 00 01 04
        bytes 08 00 01 02 08 00 02 04
        bytes 08 00 01 02 09 00 00 04
        bytes 08 00 01 02 0a 00 00 04 # nothing is free
        bytes 06 00 02 02 07 00
        bytes 08 00 04 02 09 00 01 04
        bytes 08 00 01 02 0a 00 00 05 # there is no strategy 5
    } > "$folder/log"
    refer
    run_log
    tail -n 8 "$folder/printed" | cmp - <(
        printf '%s\n' '10 granted 7 6 1 3' '11 granted 8 0 3 2' '12 granted 9 5 0 1' '13 refused 14 0' '14 done 2' \
            '15 granted 9 6 1 2' '16 refused 9 0' 'total 16 setup 1 done 9 granted 4 refused 2'
    )
}

# The command of a daemon that will be killed: by a power cut at one of its next 40 steps, or from outside within 50 ms.
mortal() {
    case $1 in
        cut) command=(env "CUT_AT=$((1 + RANDOM % 40))" "LD_PRELOAD=$bin/power-cut.so" "$bin/cube-host") ;;
        kill) command=(timeout --foreground -s KILL "0.0$((10 + RANDOM % 40))" "$bin/cube-host") ;;
    esac
    command+=("$record" "$socket")
    if [[ ! -e $record ]]; then command+=("$dimension"); fi
}

# One daemon after another until the client is done; adds up those that were killed.
daemons_until_done() {
    local ended status last=0
    while true; do
        mortal "$1"
        start "${command[@]}"
        status=0
        { wait -n -p ended "$2" "$daemon" || status=$?; } 2> /dev/null
        if [[ $ended == "$2" ]]; then break; fi
        ((status == 137)) || fail "a daemon ended with status $status"
        killed=$((killed + 1))
    done
    kill "$daemon" 2> /dev/null || true # it may have been killed behind its last answer
    { wait "$daemon" || last=$?; } 2> /dev/null
    ((last == 0 || last == 137 || last == 143)) || fail "the last daemon ended with status $last" # 143: before it could take the signal
    return "$status"
}

# killed_run HOW FOLDER SEED FRAMES
killed_run() {
    new_machine "$2"
    make_log "$3" "$4"
    "${client[@]}" "$socket" < "$folder/log" > "$folder/printed" &
    daemons_until_done "$1" $!
    same_as_reference
}

# Logs of 1000 frames until daemons were killed as often as wanted. killed_often HOW FOLDER TIMES
killed_often() {
    local log=0
    killed=0
    while ((killed < $3)); do
        log=$((log + 1))
        ((log <= 40)) || fail "only $killed daemons were killed in 40 logs"
        killed_run "$1" "$2" $((seed * 1000 + log * 7)) 1000
    done
    echo "host: $killed daemons killed ($1), logs of 1000 frames: $log, no difference"
}

# stops STATUS MESSAGE WORDS..: a daemon that ends at once.
stops() {
    local status=0
    timeout 10 "$bin/cube-host" "${@:3}" 2> "$folder/message" || status=$?
    ((status == $1)) || fail "status $status where $1 was due: $2"
    grep -qF "$2" "$folder/message" || fail "'$2' is not in: $(cat "$folder/message")"
}

# Arguments, and what other programs have.
refused_starts() {
    new_machine "$memory"
    stops 1 "refused 7" "$record" "$socket" 11
    stops 2 "no such file" "$record" "$socket"
    stops 2 "usage" "$record" "$socket" 1x
    [[ ! -e $record ]] || fail "a refused start left a record"
    start "$bin/cube-host" "$record" "$socket" 1
    "${client[@]}" "$socket" < examples/first.log > "$folder/printed"
    stops 3 "another cube-host has it" "$record" "$socket.2"
    stops 3 "another program listens there" "$record.2" "$socket" 1
    cp "$record" "$folder/before"
    stops 3 "is no socket" "$record.3" "$folder/before" 1
    end_daemon
    stops 2 "there is a record already" "$record" "$socket" 1
    cmp "$record" "$folder/before"
}

# Saving fails within a call: the daemon ends, the file stays, and the next daemon makes the call.
full_disk() {
    local waiting
    new_machine "$memory"
    cp examples/first.log "$folder/log"
    refer
    start "$bin/cube-host" "$record" "$socket" 1
    head -c 6 examples/first.log | "${client[@]}" "$socket" > "$folder/printed"
    end_daemon
    cp "$record" "$folder/before"
    "${client[@]}" "$socket" < examples/first.log > "$folder/printed" &
    waiting=$!
    (trap '' XFSZ && ulimit -f 2 && stops 3 "cube-host: $record.new: write: File too large" "$record" "$socket")
    cmp "$record" "$folder/before"
    start "$bin/cube-host" "$record" "$socket"
    wait "$waiting"
    end_daemon
    same_as_reference
}

# A call that is refused, here 'good' of node 2 at n 1, leaves the file alone.
refused_call() {
    local before
    new_machine "$memory"
    start "$bin/cube-host" "$record" "$socket" 1
    head -c 6 examples/first.log | "${client[@]}" "$socket" > "$folder/printed"
    before=$(stat -c '%i %y' "$record")
    printf '\6\0\1\3\1\0\6\0\1\1\2\0' | "${client[@]}" "$socket" | grep -x '2 refused 8 0' > /dev/null
    [[ $(stat -c '%i %y' "$record") == "$before" ]] || fail "a refused call wrote the file"
    end_daemon
}

odd_clients() {
    new_machine "$memory"
    start "$bin/cube-host" "$record" "$socket" 1
    timeout 60 "$bin/odd-clients" "$socket" "$daemon"
    wait "$daemon" || fail "the daemon ended with status $?"
}

# Daemon and client under valgrind, and a second daemon on the file.
watched() {
    local watch=(valgrind --quiet --error-exitcode=9 --leak-check=full)
    new_machine "$memory"
    make_log "$1" "$2"
    start "${watch[@]}" "$bin/cube-host" "$record" "$socket" "$dimension"
    timeout 120 "${watch[@]}" "$bin/cube-client" "$socket" < "$folder/log" > "$folder/printed"
    end_daemon
    start "${watch[@]}" "$bin/cube-host" "$record" "$socket"
    head -c 6 "$folder/log" | "${client[@]}" "$socket" > "$folder/first"
    end_daemon
    same_as_reference
}

source host/test/files.sh

host/build
cargo build --offline --release --quiet --manifest-path reference/Cargo.toml
for log in 21 16 33; do # n is 10, 5 and 0; the first ends in bytes that are no frame
    plain_run "$log" 20000
done
echo "host: 3 logs of 20000 frames through the socket, no difference"
killed_often kill "$disk" 60
killed_often cut "$memory" 200
growths
best_fit
damaged_files
other_records
no_records
no_subcubes
not_records
restarts
written_by_hand
refused_starts
full_disk
refused_call
odd_clients
if command -v valgrind > /dev/null; then watched 15 400; else echo "host: no valgrind here"; fi
echo "host: growths, best fit, damaged files, other records, records that don't load, restarts, refused starts, a full disk and odd clients as expected"
