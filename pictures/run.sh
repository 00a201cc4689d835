#!/usr/bin/env bash
# Builds the picture programs; makes the synthetic veneer and the pictures of what a quota leaves of it and of a smoothing step, and compares them with
# those kept here; turns the veneer, and two strips of it, into a sheet and back; restores its whole sheet as a master; cuts windows out of its sheet; smooths its sheet; makes a test image from a number, the one that every site has;
# prints what a tolerance and a list of coverings do to the veneer and to the test image; joins the sheets of the veneer's halves; makes calibration cards
# and their picture, and looks whether their sheet has the coverings that they show.
# Needs a C compiler. With --built the library is taken as it stands.
set -eu
cd "$(dirname "$0")/.."
mkdir -p target/pictures
if [ "${1:-}" != --built ]; then
    (cd crates/c_api && rt lib) >target/pictures/lib.log 2>&1 || { cat target/pictures/lib.log; exit 1; }
fi
archive=crates/c_api/out/libc_api.a
flags='-O2 -std=c11 -Wall -Wextra -Iinclude -Ibench -Iexamples -Ipictures'
height=256 width=256 levels=7 quota=1966
whole=$((height * width - height * width / 4 ** levels))

cc $flags pictures/veneer.c pictures/image.c -o target/pictures/veneer
target/pictures/veneer >target/pictures/veneer.pgm
cmp target/pictures/veneer.pgm pictures/veneer.pgm

cc $flags pictures/compare.c pictures/figures.c pictures/image.c bench/baseline.c "$archive" -o target/pictures/compare
target/pictures/compare $levels $quota <pictures/veneer.pgm >target/pictures/quota.png
cmp target/pictures/quota.png pictures/quota.png

cc $flags pictures/pgm.c pictures/image.c "$archive" -o target/pictures/pgm
target/pictures/pgm to-sheet $levels $quota <pictures/veneer.pgm >target/pictures/veneer.sheet
target/pictures/pgm to-pgm <target/pictures/veneer.sheet >target/pictures/kept.pgm
echo "target/pictures/veneer.sheet: $(wc -c <target/pictures/veneer.sheet) bytes; target/pictures/kept.pgm: what a quota of $quota leaves"

# Windows of the kept sheet: columns of it, and the part that the picture of the quota shows larger, by one window and by two.
target/pictures/pgm window 0 100 $height 33 <target/pictures/veneer.sheet | cmp - <(target/pictures/pgm columns 100 33 <target/pictures/kept.pgm)
target/pictures/pgm window 0 0 $height $width <target/pictures/veneer.sheet | cmp - target/pictures/kept.pgm
target/pictures/pgm window 128 48 64 64 <target/pictures/veneer.sheet >target/pictures/window.pgm
for at in '48 31' '79 33'; do
    read -r left wide <<<"$at"
    target/pictures/pgm columns $((left - 48)) $wide <target/pictures/window.pgm | cmp - <(target/pictures/pgm window 128 $left 64 $wide <target/pictures/veneer.sheet)
done
echo "target/pictures/window.pgm: 64 by 64 of it, restored alone; windows are what the whole sheet restores to at the same places"

# A smoothing step of the kept sheet; the step 0 is what to-pgm gives.
cc $flags pictures/smooth.c pictures/figures.c pictures/image.c "$archive" -o target/pictures/smooth
target/pictures/smooth $levels $quota 255 <pictures/veneer.pgm >target/pictures/smooth.png
cmp target/pictures/smooth.png pictures/smooth.png
target/pictures/pgm smooth 0 <target/pictures/veneer.sheet | cmp - target/pictures/kept.pgm
target/pictures/pgm smooth 255 <target/pictures/veneer.sheet >target/pictures/smooth.pgm
echo "target/pictures/smooth.pgm: it after a smoothing step of 255"
echo "a smoothing step: the veneer with $levels levels, quota $quota"
target/pictures/smooth $levels $quota <pictures/veneer.pgm

target/pictures/pgm to-sheet $levels $whole <pictures/veneer.pgm | target/pictures/pgm to-pgm | cmp - pictures/veneer.pgm
echo "the whole quota, $whole, gives the picture back"

# The whole sheet is a master's; the kept one is refused.
target/pictures/pgm to-sheet $levels $whole <pictures/veneer.pgm | target/pictures/pgm master | cmp - pictures/veneer.pgm
refused=$(target/pictures/pgm master <target/pictures/veneer.sheet || true)
[ "$refused" = $'refusal\n20' ]
echo "as a master too; what a quota of $quota leaves is refused as one"

for strip in '64 256 5' '512 4 1'; do
    read -r height width levels <<<"$strip"
    whole=$((height * width - height * width / 4 ** levels))
    target/pictures/veneer $height $width >target/pictures/strip.pgm
    target/pictures/pgm to-sheet $levels $whole <target/pictures/strip.pgm | target/pictures/pgm to-pgm | cmp - target/pictures/strip.pgm
    echo "so does $whole for a strip of height $height and width $width with $levels levels"
done

# `cksum` of the test image of 512 by 512 from 0, worked out without the library.
target/pictures/pgm test-image 512 512 0 >target/pictures/test.pgm
[ "$(cksum <target/pictures/test.pgm)" = '4122849855 524304' ]
target/pictures/pgm to-sheet 8 $((512 * 512 - 4)) <target/pictures/test.pgm | target/pictures/pgm to-pgm | cmp - target/pictures/test.pgm
echo "target/pictures/test.pgm: the test image of 512 by 512 from 0, with the checksum that every site has; the whole quota gives it back"

cc $flags pictures/choice.c pictures/figures.c pictures/image.c "$archive" -lm -o target/pictures/choice
echo "a tolerance, and a list of coverings: the veneer with 7 levels, quota 1966"
target/pictures/choice 7 1966 <pictures/veneer.pgm
echo "a tolerance, and a list of coverings: the test image with 8 levels, quota 7864"
target/pictures/choice 8 7864 <target/pictures/test.pgm

# The left and the right half of the veneer, each cut to its own quota, joined; then both whole.
half=128 levels=6 left=1100 right=866 each=983
whole=$((256 * half - 256 * half / 4 ** levels))
tool=target/pictures/pgm at=target/pictures
$tool columns 0 $half <pictures/veneer.pgm >$at/left.pgm
$tool columns $half $half <pictures/veneer.pgm >$at/right.pgm
for name in left right; do
    $tool to-sheet $levels ${!name} <$at/$name.pgm >$at/$name.sheet
    $tool to-sheet $levels $whole <$at/$name.pgm >$at/whole-$name.sheet
done
$tool join $at/left.sheet $at/right.sheet >$at/joined.sheet
$tool to-pgm <$at/joined.sheet >$at/joined.pgm
$tool columns 0 $half <$at/joined.pgm | cmp - <($tool to-pgm <$at/left.sheet)
$tool columns $half $half <$at/joined.pgm | cmp - <($tool to-pgm <$at/right.sheet)
echo "$at/joined.pgm: the two halves of the veneer, cut to $left and $right and joined, are those restored each by itself"
$tool join $at/whole-left.sheet $at/whole-right.sheet | $tool to-pgm | cmp - pictures/veneer.pgm
echo "the whole quota of each, $whole, gives the picture back"

cc $flags pictures/strips.c pictures/figures.c pictures/image.c "$archive" -o target/pictures/strips
for quotas in "$each $each" "$left $right"; do
    echo "two strips: the halves of the veneer with $levels levels, quotas $quotas"
    target/pictures/strips $levels $quotas <pictures/veneer.pgm
done

# The calibration cards. Blocks of level 1 come in the order of the coverings that they show; lines 4 to 120 of a sheet have the coverings of the first 117.
coverings() {
    $tool to-sheet 1 $((64 * 32 * 3 / 4)) | sed -n 4,120p | cut -d ' ' -f 4
}
$tool cards 0 1700 3000 4095 >$at/cards.pgm
cc $flags pictures/blocks.c pictures/figures.c pictures/image.c -o $at/blocks
$at/blocks <$at/cards.pgm >$at/cards.png
cmp $at/cards.png pictures/cards.png
coverings <$at/cards.pgm | cmp - <(seq 117)
echo "$at/cards.pgm: calibration cards of four steps; decomposed, they give coverings 1 to 117 in their order"
none=$($tool cards 0 4095 | coverings | awk '$1 != NR { print NR }' | xargs)
[ "$none" = '3 10 22 33 48 61 70 96 105 114' ]
echo "with two steps there is none for $none"
refused=$($tool cards 0 4095 4095 || true)
[ "$refused" = $'refusal\n21' ]
echo "steps that do not rise are refused"
