#!/bin/bash
# A bench of the server network (examples/server): every node but bmc is emulated. Each packet that one of them sends is
# handed to all of them, and taken by the one at its physical address. A packet to bmc is taken by nobody.
# The first word is a line: a packet that bmc sends. It is printed, and then each packet that is sent for it. The words
# behind it run mctpplan; the script stands at the top of the repository.
line=$1
program=("${@:2}")
plan=examples/server/plan.json
certificate=examples/server/certificate.json
room=$(mktemp -d)
to=() from=() pids=()

for node in switch baseboard nic0 nic1 drive0 drive1 accel{0..7}; do
    mkfifo "$room/$node.in" "$room/$node.out"
    "${program[@]}" emulate "$plan" "$certificate" "$node" --configured --addresses --end \
        < "$room/$node.in" > "$room/$node.out" 2>> "$room/notes" &
    pids+=($!)
    exec {pipe}> "$room/$node.in"
    to+=("$pipe")
    exec {pipe}< "$room/$node.out"
    from+=("$pipe")
done

sent=("$line")
for ((at = 0; at < ${#sent[@]}; at++)); do
    echo "${sent[at]}"
    for node in "${!to[@]}"; do
        echo "${sent[at]}" >&"${to[node]}"
        while read -r answer <&"${from[node]}" && [[ $answer != . ]]; do
            sent+=("$answer")
        done
    done
done

kill "${pids[@]}"
wait 2> /dev/null
# (a node that isn't on the bus of a packet notes that, and needs no telling here)
grep -v '^# no bus: ' "$room/notes"
rm -r "$room"
