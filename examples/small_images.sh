#!/bin/sh
# Makes the files that the examples of cdscript(1) use, in the current directory, which must be empty: game.iso and game.bin, the image of a
# disc with English text; bad.bin and other.bin, two dumps of it with a damaged sector; and known.dat. It needs cdscript and genisoimage.
set -e
[ -z "$(ls -A)" ] || { echo 'small_images.sh: run this in an empty directory' >&2; exit 1; }
mkdir files files/DATA
printf '%s\0' 'Press start' 'New game' 'Continue' 'Options' > files/DATA/TEXT.DAT
printf '%-12s   \1' Potion Antidote Shield Lantern Key | tr ' ' '\0' > files/DATA/ITEMS.DAT
genisoimage -quiet -no-pad -V GAME -o game.iso files
cdscript raw game.iso game.bin
for copy in bad other; do cp game.bin "$copy.bin"; done
printf '\377' | dd of=bad.bin bs=1 seek=$((2352 * 24 + 16 + 80)) conv=notrunc status=none
printf '\377' | dd of=other.bin bs=1 seek=$((2352 * 3 + 16 + 80)) conv=notrunc status=none
printf "<datafile><game name='Game'><rom name='Game.bin' size='%s' sha1='%s'/></game></datafile>\n" \
    "$(wc -c < game.bin)" "$(sha1sum game.bin | cut -d ' ' -f 1)" > known.dat
rm -r files
