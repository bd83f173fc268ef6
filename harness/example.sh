#!/bin/sh
# Proves and builds the job program, and has it answer three rebuild jobs: two lost disks that come back, a loss that can't be made good (11),
# and survivors that disagree (12). The stripe is shown as a grid before and after.
set -eu
ROOT=$(cd "$(dirname "$0")/.." && pwd)
. "$ROOT/harness/kit.sh"
kit_room
kit_job >&2

# bytes HEX..: writes these bytes.
bytes() {
    for byte in "$@"; do printf "\\$(printf %03o "0x$byte")"; done
}

# two N: a number in two bytes, high byte first, as hexadecimal words.
two() {
    printf '%02x %02x' $(($1 / 256)) $(($1 % 256))
}

# job STRIPE LOST: the bytes of a job for RDP, p = 5, cells of one byte.
job() {
    lost=
    for number in $2; do lost="$lost $(two "$number")"; done
    cells=$1
    set -- $lost
    bytes 01 00 01 01 02 00 01 05 03 00 02 00 01 04 $(two $#) "$@" 05 $(two 24) $cells
}

# spoiled STRIPE LOST: the stripe with other bytes in its lost cells.
spoiled() {
    echo "$1" | awk -v lost=" $2 " '{ for (cell = 0; cell < NF; cell++) if (index(lost, " " cell " ")) $(cell + 1) = "ee"; print }'
}

# grid STRIPE MARKED LEFT RIGHT: the stripe by rows and disks, its marked cells between LEFT and RIGHT, and the order that it holds.
grid() {
    echo "$1" | awk -v marked=" $2 " -v left="$3" -v right="$4" '
        function value(digits,  high, low) {
            high = index("0123456789abcdef", substr(digits, 1, 1)) - 1
            low = index("0123456789abcdef", substr(digits, 2, 1)) - 1
            return 16 * high + low
        }
        {
            print "    disk     0    1    2    3    4    5"
            for (row = 0; row < 4; row++) {
                line = "    row " row "  "
                for (disk = 0; disk < 6; disk++) {
                    cell = 4 * disk + row
                    hit = index(marked, " " cell " ") > 0
                    line = line " " (hit ? left : " ") (hit && left == "(" ? "??" : $(cell + 1)) (hit ? right : " ")
                }
                sub(/ +$/, "", line)
                print line
            }
            order = ""
            for (cell = 0; cell < 16; cell++)
                order = order (left == "(" && index(marked, " " cell " ") > 0 ? "?" : sprintf("%c", value($(cell + 1))))
            print "    the order reads: " order
        }'
}

# answer STRIPE LOST: has the program answer the job, and shows the stripe as it was found and as it came back.
answer() {
    grid "$1" "$2" '(' ')'
    job "$(spoiled "$1" "$2")" "$2" >"$BUILD/asked"
    "$PROGRAM" <"$BUILD/asked" >"$BUILD/answer"
    set -- "$2" $(od -An -v -tx1 "$BUILD/answer")
    lost=$1
    shift
    echo "    the program answers $((0x$4))"
    if [ "$4" = 00 ]; then
        shift 7
        grid "$*" "$lost" '[' ']'
    fi
}

stripe='4f 52 44 45 52 53 20 37 20 40 20 31 39 2e 35 30 04 6f 71 73 24 41 44 1c'
echo 'RDP, p = 5: 4 rows on 6 disks, cells of one byte. Disks 0 to 3 hold an order, disk 4 the parity of the rows, disk 5 that of the diagonals.'
echo 'A cell is one letter, written as a number (4f is O): read down disk 0, then disks 1, 2 and 3.'
echo
echo '1. Disks 1 and 4 are gone. Cells (??) are lost: what stands there plays no part (the job sends ee).'
answer "$stripe" '4 5 6 7 16 17 18 19'
echo '   0 says: this is the one stripe that fits everything that is left, so it is the right one if all that is left is right. Cells in [ ] came back.'
echo
echo "2. Disks 1 and 4 are gone, and disk 2 can't read its first cell."
answer "$stripe" '4 5 6 7 8 16 17 18 19'
echo '   11 says: undetermined. More than one order would fit what is left, so nothing is filled in: no guess is given for an order.'
echo
echo '3. Disk 1 is gone, and a byte of disk 3 went bad that nobody named: 19.50 became 19.90.'
answer "$(echo "$stripe" | sed 's/35 30/39 30/')" '4 5 6 7'
echo '   12 says: survivors disagree. No stripe fits what is left, so a cell that was not named is wrong too; nothing is filled in.'
