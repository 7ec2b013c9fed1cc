#!/bin/sh
# Prints the occupancy rate of each section by itself, the fullest first. So a planner sees about which piece of a line to
# ask `rail capacity`.
#
# usage: bottleneck.sh FROM TO SCENE [TIMETABLE [COMMANDS]]
#
# FROM and TO are the window of time. A line is `RATE SECTION`, the rate in percent of the window. The program is
# $RAIL, or else `rail`. What it refuses ends the script.
set -eu
[ $# -ge 3 ] || { sed -n '2,/^set/s/^# \{0,1\}//p' "$0" >&2; exit 2; }
rail=${RAIL:-rail} from=$1 to=$2 room=$(mktemp -d)
trap 'rm -r "$room"' EXIT
shift 2
"$rail" stairs "$@" > "$room/stairs"
sed -n 's/^section \([^ ]*\) .*/\1/p' "$room/stairs" > "$room/sections"
while read -r section; do
    "$rail" capacity "$section" "$from" "$to" "$@" > "$room/told"
    printf '%8s %s\n' "$(sed -n 's/^rate //p' "$room/told")" "$section"
done < "$room/sections" > "$room/rates"
sort -rn "$room/rates"
