#!/bin/sh
# capture2log.sh CAPTURE: prints a capture of SocketCAN as a log for `watch`, by tshark: a line for each of its frames.
# Each data frame has the form of CAN FD. A remote frame, an error frame or another packet is a line that `watch` skips.
tshark -n -r "${1:?usage: capture2log.sh CAPTURE}" -T fields -e frame.time_epoch -e can.flags.xtd -e can.id -e data.data \
    -e can.flags.rtr -e can.flags.err |
    awk -F'\t' '
        $3 == "" || $5 ~ /^(1|True)$/ || $6 ~ /^(1|True)$/ { print "#"; next }
        { printf "(%s) can0 %0*X##0%s\n", $1, $2 ~ /^(1|True)$/ ? 8 : 3, $3, toupper($4) }'
