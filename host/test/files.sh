#!/usr/bin/env bash
# Files that a daemon is started on: damaged ones, those of other records, records that don't load, and where daemons go on. For host/test.sh,
# whose functions and variables it uses.
# shellcheck disable=SC2154

# refused_file MESSAGE [N]: what stands in the record's file is refused with a number and a message that ends with what else to do, and stays.
refused_file() {
    local fresh="or move the file away and start with N for a fresh cube; the file is left as it is"
    cp "$record" "$folder/before"
    stops 1 "cube-host: $record: refused $1, $fresh" "$record" "$socket" "${@:2}"
    cmp "$record" "$folder/before"
    [[ ! -e $socket ]] || fail "a refused file got a socket"
}

# damaged_file WHY [N]: the same for a file that no daemon leaves so.
damaged_file() { refused_file "$1; put a copy back that a daemon left" "${@:2}"; }

# Changes the lowest bit of a byte.
flip() {
    local byte
    byte=$(od -An -tu1 -j "$1" -N 1 "$record")
    printf %b "\\x$(printf %02x $((byte ^ 1)))" | dd of="$record" bs=1 seek="$1" conv=notrunc status=none
}

flipped_are_refused() {
    local place
    for place in "${@:2}"; do
        flip "$place"
        damaged_file "$1"
        flip "$place"
    done
}

# first_log: a daemon's file after examples/first.log. n is 1, job 7 holds node 0, node 1 is faulty, three calls were accepted.
first_log() {
    new_machine "$memory"
    start "$bin/cube-host" "$record" "$socket" 1
    "${client[@]}" "$socket" < examples/first.log > "$folder/printed"
    end_daemon
}

# A changed byte, but for the kind's two, is told by the checksum, whether or not the library would refuse what it makes.
damaged_files() {
    local length="1: the file hasn't $file_size bytes"
    first_log
    cp "$record" "$folder/right"
    flipped_are_refused "1: the checksum is not that of the file" 0 1 4 5 15 16 2065 3087 3088 3089 3090 3091 5135 5136 5144 5156 5163
    head -c $((file_size - 1)) "$folder/right" > "$record"
    damaged_file "$length"
    echo >> "$record"
    echo >> "$record"
    damaged_file "$length"
    : > "$record"
    damaged_file "$length"
}

zeros() { head -c "$1" /dev/zero; }

# FNV-1a, 64 bits, of standard input: its eight bytes, lowest first.
checksum() {
    local byte place sum=0xcbf29ce484222325
    for byte in $(od -An -v -tu1); do sum=$(((sum ^ byte) * 0x100000001b3)); done
    for place in 0 8 16 24 32 40 48 56; do bytes "$(printf %02x $((sum >> place & 255)))"; done
}

# Makes a machine's file of what is to stand before its checksum.
seal() { cat "$folder/summed" <(checksum < "$folder/summed") > "$record"; }

# write_file SIZE BYTES..: the file that examples/first.log leaves, by the table in README.md, with a record of this size that begins with these
# four bytes; what it has behind the conditions is 0.
write_file() {
    {
        bytes "${@:2}" 01 01 02 03 04 05 06 07 08 09 0a 00
        bytes 07 00 && zeros 2046 # holders
        bytes 01 02 && zeros 1022 # conditions
        zeros $(($1 - 3088))
        bytes 03 00 00 00 00 00 00 00 06 00 03 80 && zeros 8 # the greeting: three calls, and done 0
    } > "$folder/summed"
    seal
}

# other_record SIZE KIND: the file holds a record of this size and kind, and is left, whether or not a fresh cube is asked for.
other_record() {
    local said="1: the file holds a record of $1 bytes, kind $2; this daemon keeps records of 5136 bytes, kind 0x0002; run the daemon that wrote it"
    refused_file "$said"
    refused_file "$said" 1
}

# Files with records of other sizes and kinds: 3088 bytes, kind 0x0001, is the one without star bits. The first file is this daemon's own.
other_records() {
    first_log
    cp "$record" "$folder/right"
    write_file "$record_size" 10 14 02 00
    cmp "$record" "$folder/right"
    write_file 3088 10 0c 01 00
    other_record 3088 0x0001
    cp "$record" "$folder/old"
    head -c 3088 "$folder/old" > "$record" # the record alone
    other_record 3088 0x0001
    write_file "$record_size" 10 14 01 00
    other_record 5136 0x0001
    write_file 3088 10 0c 02 00
    other_record 3088 0x0002
    write_file 5138 12 14 03 00
    other_record 5138 0x0003
    write_file 65535 ff ff 34 12
    other_record 65535 0x1234
}

# Files whose size is not that of the record that their first bytes say, with what stands behind it.
no_records() {
    local length="1: the file hasn't $file_size bytes"
    first_log
    cp "$record" "$folder/right"
    write_file "$record_size" 10 0c 01 00
    damaged_file "1: what the file holds is not a record"
    write_file 3088 10 14 02 00
    damaged_file "$length"
    write_file 3088 10 0c 01 00
    cp "$record" "$folder/old"
    head -c 3115 "$folder/old" > "$record"
    damaged_file "$length"
    head -c "$record_size" "$folder/right" > "$record"
    damaged_file "$length"
    cp "$folder/old" "$record"
    echo >> "$record"
    damaged_file "$length"
    zeros 28 > "$record"
    damaged_file "$length"
}

# Frames of six and of eight bytes: the kind's two bytes, then the fields'.
six() { bytes 06 00 "$@"; }
eight() { bytes 08 00 "$@"; }

# held_log: set-up of n 3, all good; job 7 is granted nodes 0 to 3, job 8 nodes 4 and 5, job 9 node 6, which then is faulty. Node 7 is unheld.
held_log() {
    local node
    six 01 03 03 00
    for node in 00 01 02 03 04 05 06 07; do six 01 01 $node 00; done
    eight 01 02 07 00 02 00
    eight 01 02 08 00 01 00
    eight 01 02 09 00 00 00
    six 02 01 06 00
}

# held_file: a daemon's file after that, whose holders and star bits are as document 02 says.
held_file() {
    new_machine "$memory"
    held_log > "$folder/log"
    start "$bin/cube-host" "$record" "$socket" 3
    "${client[@]}" "$socket" < "$folder/log" > "$folder/printed"
    end_daemon
    cp "$record" "$folder/right"
    cmp -n 16 -i 16:0 "$record" <(bytes 07 00 07 00 07 00 07 00 08 00 08 00 09 00 00 00)
    cmp -n 16 -i 3088:0 "$record" <(bytes 03 00 03 00 03 00 03 00 01 00 01 00 00 00 00 00)
}

# changed CHANGE..: that file with other bytes, each change the place and the bytes, and the checksum of what it then holds.
changed() {
    local change word
    head -c $((file_size - 8)) "$folder/right" > "$folder/summed"
    for change in "$@"; do
        read -ra word <<< "$change"
        bytes "${word[@]:1}" | dd of="$folder/summed" bs=1 seek="${word[0]}" conv=notrunc status=none
    done
    seal
}

# changed_is_refused WHY CHANGE..: whether or not a fresh cube is asked for.
changed_is_refused() {
    changed "${@:2}"
    damaged_file "$1"
    damaged_file "$1" 3
}

# Holders and star bits that are no subcubes, in files with a right checksum. A holder stands at 16 + 2x, star bits at 3088 + 2x.
no_subcubes() {
    local why="18: the nodes and star bits of a job don't form a subcube"
    held_file
    changed_is_refused "$why" '22 00 00' '3094 00 00'             # job 7 without node 3
    changed_is_refused "$why" '22 08 00' '3094 01 00'             # node 3 is job 8's
    changed_is_refused "$why" '30 09 00'                          # job 9 with node 7 too: two subcubes
    changed_is_refused "$why" '28 08 00 08 00' '3100 01 00 01 00' # job 8 with nodes 6 and 7 too: two of star bits 1
    changed_is_refused "$why" '16 01 00' '3088 00 00'             # node 0 is job 1's
    changed_is_refused "$why" '3092 01'                           # star bits 1 at one node of job 7
    changed_is_refused "$why" '3095 80'                           # star bits 32771 at another
    changed_is_refused "$why" '3088 00 00 00 00 00 00 00 00'      # star bits 0 at each
    changed_is_refused "$why" '3096 02 00 02 00'                  # job 8's are nodes 4 and 6
    changed_is_refused "$why" '3096 05 00 05 00'                  # 4 is set in its lowest node
    changed_is_refused "$why" '3096 09 00 09 00'                  # 8 is not below 2^3
    changed_is_refused "$why" '3100 01'                           # job 9's are nodes 6 and 7
}

# Records that refusal 1 meets, in files with a right checksum; the last two are met by 18 too.
not_records() {
    local why="1: what the file holds is not a record"
    held_file
    changed_is_refused "$why" '0 0f'
    changed_is_refused "$why" '4 0b'
    changed_is_refused "$why" '5 02'
    changed_is_refused "$why" '15 01'
    changed_is_refused "$why" '32 09 00'
    changed_is_refused "$why" '2064 03'
    changed_is_refused "$why" '3102 01'
    changed_is_refused "$why" '22 00'
    changed_is_refused "$why" '2064 03' '3092 01'
}

# continues LINE..: a daemon on the file that is there; the log after its set-up gets these lines.
continues() {
    start "$bin/cube-host" "$record" "$socket"
    { six 01 03 03 00 && cat "$folder/more"; } | "${client[@]}" "$socket" > "$folder/printed"
    end_daemon
    cmp <(printf '%s\n' '1 setup 3' "$@") <(head -n -1 "$folder/printed")
    cat "$folder/more" >> "$folder/log"
    reference cube-record < "$folder/log" | cmp - <(head -c "$record_size" "$record")
}

# Daemons that start where others ended, with held subcubes and a faulty node in one of them.
restarts() {
    held_file
    {
        eight 01 02 0a 00 00 00 # job 10 is granted node 7
        eight 04 02 08 00 02 00 # job 8 can't grow beside jobs 9 and 10
        six 02 02 09 00
        six 02 02 0a 00
        eight 04 02 08 00 02 00 # nor with node 6 faulty
        six 03 01 06 00
    } > "$folder/more"
    continues '2 granted 10 7 0 8' '3 refused 14 2' '4 done 1' '5 done 1' '6 refused 14 2' '7 done 0'
    {
        six 01 01 06 00
        eight 04 02 08 00 02 00
        eight 01 02 07 00 00 00 # job 7 holds nodes
        six 02 02 07 00
        bytes 04 00 03 02       # job 8 does
    } > "$folder/more"
    continues '2 done 0' '3 granted 8 4 3 2' '4 refused 10 0' '5 done 4' '6 refused 13 0'
}

# The same on a file that the test wrote: job 7's nodes are job 257's.
written_by_hand() {
    held_file
    changed '16 01 01 01 01 01 01 01 01'
    start "$bin/cube-host" "$record" "$socket"
    { six 01 03 03 00 && six 02 02 01 01 && six 02 02 07 00; } | "${client[@]}" "$socket" > "$folder/printed"
    end_daemon
    cmp <(printf '%s\n' '1 setup 3' '2 done 4' '3 refused 11 0') <(head -n -1 "$folder/printed")
}
