#!/usr/bin/env bash
# A key campaign for 20 units that goes through power losses: issue, load and confirm, and what is repeated after each
# loss. At the end every slot is confirmed, and no counter was issued twice. The programs are those that bin/NAME built.
#
#   examples/station.sh FOLDER [KILLS]   works in FOLDER, which is made; at most so many calls of the programs that write
#                                        are killed, each at a random moment of its work (default: 0)
#
# Each step looks first at what was done, so the whole script may be started again in the same folder at any time.
set -u
umask 077
top="$(cd "$(dirname "$(readlink -f "${BASH_SOURCE[0]}")")/.." && pwd)"
folder="${1:?usage: station.sh FOLDER [KILLS]}"
kills="${2:-0}"
units=20
slots=0
master=000102030405060708090a0b0c0d0e0f
empty=ffffffffffffffffffffffffffffffff
mkdir -p "$folder" && cd "$folder" || exit 2
touch killed

program() { "$top/crates/$1/out/$1" "${@:2}"; }

# at_risk NAME WORD..: runs a program that writes. If not yet as many kills are done as are due by this slot, it is killed
# at a random moment of five quarters of the time that the last whole call took. One that ends sooner is no kill
at_risk() {
    local began=${EPOCHREALTIME/./} due=$((kills * slots / (2 * units))) status
    if [ -s span ] && [ "$(wc -l <killed)" -lt "$due" ]; then
        # the shell says of a program that was killed so, on standard error
        (timeout -s KILL "$(printf '0.%06d' $(((RANDOM * 32768 + RANDOM) % ($(cat span) * 5 / 4) + 1)))" \
            "$top/crates/$1/out/$1" "${@:2}"; exit $?) 2>/dev/null
        status=$?
        [ "$status" -ne 137 ] || echo "$*" >>killed
    else
        program "$@"
        status=$?
        echo $((${EPOCHREALTIME/./} - began)) >span
    fi
    return "$status"
}

# key UNIT SLOT: the key that the unit's slot is to have. Here it is made up; a station takes it from its key server
key() { if [ "$2" = 1 ]; then echo "$master"; else printf '%032x\n' $((0x5eed0000 + $1)); fi; }

# confirmed UID SLOT: the ledger has it
confirmed() { program station ledger show ledger "$1" "$2" 2>/dev/null | grep -q '^confirmed '; }

# loaded STORE UID SLOT: prints the reply `loaded M4 M5` if the unit has the counter that was issued last
loaded() {
    local issued
    issued="$(program station ledger show ledger "$2" "$3" | sed -n 's/^issued //p')"
    [ -n "$issued" ] || return 1
    program station slots list "$1" | grep -q "^slot $3 filled $issued\( \|$\)" || return 1
    program station slots reply "$1" "$2" "$3" 1
}

# authkey STORE: the key that slot 1 has now: an empty slot authorises its own update by 32 digits f
authkey() { if program station slots list "$1" | grep -q '^slot 1 empty$'; then echo "$empty"; else echo "$master"; fi; }

# one UNIT SLOT FLAGS: one slot of one unit, whatever was done before
one() {
    local uid store request reply tries=0
    uid="$(printf '%030x' "$1")"
    store="unit$1.store"
    until confirmed "$uid" "$2"; do
        tries=$((tries + 1))
        [ "$tries" -le 500 ] || { echo "unit $1 slot $2: no end after 500 tries" >&2; exit 1; }
        if ! reply="$(loaded "$store" "$uid" "$2")"; then
            # nothing of the last issue is in the unit: issue again, with the next counter, and load
            request="$(printf 'issue %s %s 1 %s %s %s\n' "$uid" "$2" "$3" "$(key "$1" "$2")" "$(authkey "$store")" \
                | at_risk campaign - ledger | sed -n 's/^1 issued //p')"
            [ -n "$request" ] || continue
            # the counter, and M1, which has the unit and the slot
            printf '%s\n' "$request" | cut -d' ' -f1,2 >>issued
            request="${request#* }"
            printf '%s\n' "$request" | at_risk keytool load "$store" "$uid" >/dev/null
            reply="$(loaded "$store" "$uid" "$2")" || continue
        fi
        # the unit has it: its reply is had again from the store, however often
        set -- "$1" "$2" "$3" ${reply#loaded }
        printf 'confirm %s %s 1 %s %s %s\n' "$uid" "$2" "$(key "$1" "$2")" "$4" "$5" | at_risk campaign - ledger >/dev/null
    done
}

for unit in $(seq "$units"); do
    store="unit$unit.store"
    [ -s "$store" ] || cp "$top/examples/empty_slots.store" "$store"
    # slot 1 first: it authorises itself, and then every other slot
    for slot in 1 4; do
        slots=$((slots + 1))
        one "$unit" "$slot" 00010
    done
done

program station ledger export ledger >backup || exit 1
[ -z "$(program station ledger open ledger)" ] || { echo 'an entry is open' >&2; exit 1; }
twice="$(sort issued | uniq -d)"
[ -z "$twice" ] || { printf 'issued twice: %s\n' "$twice" >&2; exit 1; }
echo "$units units: $(grep -c ' confirmed$' backup) of $((2 * units)) slots confirmed, $(wc -l <killed) calls killed"
