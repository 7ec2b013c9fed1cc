#!/bin/sh
# Draws the blocking time stairways of a run and the paths of its trains: the line from left to right in km, time downwards.
#
# usage: draw.sh PICTURE FROM TO SCENE [TIMETABLE [COMMANDS]]
#
# PICTURE ends in .svg or .png. FROM and TO are the times between which it is drawn. Each box is a blocking interval, from
# left to right as long as its section; the line through the boxes is the way of the train's head. Kilometres come from
# km.py. Above stand the names of sections that are long enough for it, or with $STATIONS, a table of stations, their codes.
# Beside the picture stand the trains that are seen in it. The program is $RAIL, or else `rail`; gnuplot draws.
set -eu
usage() { sed -n '2,/^set/s/^# \{0,1\}//p' "$0" >&2; exit 2; }
[ $# -ge 4 ] || usage
case $1 in *.svg | *.png) ;; *) usage ;; esac
command -v gnuplot > /dev/null || { echo "draw.sh: gnuplot is not there" >&2; exit 1; }
rail=${RAIL:-rail} picture=$1 from=$2 to=$3 scene=$4
shift 3
here=$(dirname "$0") room=$(mktemp -d)
trap 'rm -r "$room"' EXIT
python3 "$here/km.py" "$scene" > "$room/km"
"$rail" stairs "$@" > "$room/stairs"

seconds() { echo "$1" | awk -F: '{ print 3600 * $1 + 60 * $2 + $3 }'; }
from=$(seconds "$from") to=$(seconds "$to")

# For each train a colour, its boxes, and its path: from the first entry of a section to where the head leaves it.
awk -v room="$room" -v from="$from" -v to="$to" '
function seconds(text, part) { split(text, part, ":"); return 3600 * part[1] + 60 * part[2] + part[3] }
function go(train, km, time) { print km, time > (room "/path" number[train]) }
FNR == NR { begin[$1] = $2; end[$1] = $3; next }
$1 == "stair" && ($4 in begin) {
    train = $2; left = begin[$4]; right = end[$4]; middle = (left + right) / 2
    if (!(train in number)) { number[train] = ++trains; name[trains] = train }
    top = seconds($5); bottom = $6 == "-" ? to : seconds($6)
    if (top < to && bottom > from) seen[train] = 1
    printf "set object rectangle from %s,%s to %s,%s fillcolor rgb word(colours, %d) fillstyle solid 0.25 noborder behind\n",
        left, top, right, bottom, number[train] % 8 + 1 > (room "/boxes")
    enters = top + ($7 + $8 + $9 + $10 + $11) / 10; leaves = enters + ($12 == "-" ? 0 : $12) / 10
    if (!(train in last)) { waits[train] = $4; at[train] = enters; until[train] = leaves }  # its direction is not known yet
    else {
        west = middle < last[train]
        if (train in waits) {
            first = waits[train]; delete waits[train]
            go(train, west ? end[first] : begin[first], at[train]); go(train, west ? begin[first] : end[first], until[train])
        }
        go(train, west ? right : left, enters); go(train, west ? left : right, leaves)
    }
    last[train] = middle
}
END {
    for (i = 1; i <= trains; i++)
        printf "%s\"%s/path%d\" with lines linewidth 2 linecolor rgb word(colours, %d) %s",
            (i == 1 ? "plot " : ", "), room, i, i % 8 + 1, (name[i] in seen) ? "title \"" name[i] "\"" : "notitle" > (room "/plot")
}' "$room/km" "$room/stairs"

end=$(sort -g -k 3 "$room/km" | tail -n 1 | cut -d ' ' -f 3)
# The names above: the first track of each station, or sections of a twentieth of the line and more.
if [ -n "${STATIONS:-}" ]; then tail -n +2 "$STATIONS" | cut -d , -f 1; else cut -d ' ' -f 1 "$room/km"; fi > "$room/names"
awk -v end="$end" -v stations="${STATIONS:-}" '
FNR == NR { middle[$1] = ($2 + $3) / 2; length_of[$1] = $3 - $2; next }
{ section = stations == "" ? $1 : $1 "1" }
section in middle && (stations != "" || 20 * length_of[section] >= end) {
    at = sprintf("%.2f", middle[section])
    if (!(at in told)) printf "%s\"%s\" %s", (told[at] = 1) && count++ ? ", " : "set x2tics rotate by 60 (", $1, at
}
END { if (count) print ")" }' "$room/km" "$room/names" > "$room/above"

case $picture in
    *.svg) terminal='svg size 1200,900 background "white"' ;;
    *) terminal='pngcairo size 1500,1100' ;;
esac
{
    echo "set terminal $terminal; set output '$picture'"
    echo "colours = 'red blue dark-green orange purple brown dark-cyan black'"
    echo "set yrange [$to:$from]; set xrange [0:$end]; set x2range [0:$end]"
    seq "$from" 600 "$to" | awk '
        { printf "%s\"%02d:%02d\" %d", (NR == 1 ? "set ytics (" : ", "), $1 / 3600, $1 % 3600 / 60, $1 } END { print ")" }'
    echo "set key outside; set grid; set xtics nomirror; set xlabel 'km'"
    cat "$room/above" "$room/boxes" "$room/plot"
} | gnuplot
