#!/bin/bash
# A bench of two emulated nodes of the riser network: riser and nic, which share the bus b1. This script is the host on
# the bus b0. It gives both nodes their endpoint IDs by the requests of assign, and reads the record of nic over riser.
# The words behind its name run mctpplan; it stands at the top of the repository.
program=("${@:-bin/mctpplan}")
plan=examples/riser/plan.json
certificate=examples/riser/certificate.json
room=$(mktemp -d)
mkfifo "$room/riser" "$room/sent" "$room/nic" "$room/host"

"${program[@]}" emulate "$plan" "$certificate" riser < "$room/riser" > "$room/sent" 2> "$room/notes" &
riser=$!
"${program[@]}" emulate "$plan" "$certificate" nic < "$room/nic" > "$room/riser" &
nic=$!

# What riser sends over b0 is for the host, and what it sends over b1 is for nic.
while read -r bus packet; do
    case $bus in
        b0) echo "$packet" >&5 ;;
        b1) echo "b1 $packet" >&4 ;;
    esac
done < "$room/sent" 4> "$room/nic" 5> "$room/host" &
exec 3> "$room/riser" 4> "$room/nic" 5< "$room/host"

# A request goes to the endpoint ID 0, over the bus alone: from the host, which holds 8, or from riser, which holds 16.
"${program[@]}" assign "$plan" "$certificate" | while read -r bus node request; do
    case "$bus $node" in
        "b0 riser")
            echo "b0 010008c8$request" >&3
            read -r answer <&5
            echo "$node answers $answer"
            ;;
        "b1 nic") echo "b1 010010c8$request" >&4 ;;
    esac
done

# Sends a packet to riser, and prints it and what comes back.
ask() {
    echo "b0 $1" >&3
    echo "$1"
    read -r answer <&5
    echo "$answer"
}
{
    ask 011108cb0180025100000000000000000110000000
    ask 011108cb0181025100000000100000000010000000
} | "${program[@]}" decode -

kill "$riser" "$nic"
wait 2> /dev/null
cat "$room/notes"
rm -r "$room"
