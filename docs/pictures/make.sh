#!/usr/bin/env bash
# Makes the pictures of docs/FILTERING.md: the program answers each pixel by a lookup in a demo picture.
[ "$*" = --write ] || { echo 'usage: docs/pictures/make.sh --write, which writes the pictures of docs/FILTERING.md'; [ "$*" = --help ]; exit; }
cd "$(dirname "${BASH_SOURCE[0]}")" || exit 1
picture() { python3 ../../demo/picture.py "$@" || exit 1; }

# the four wraps: the wall with what stands around it, three quarters of a wall on each side
picture bricks.tif wrap_black.png --wrap black --filter closest --from -0.75 -0.75 --to 1.75 1.75 --size 100 60
picture bricks.tif wrap_clamp.png --wrap clamp --filter closest --from -0.75 -0.75 --to 1.75 1.75 --size 100 60
picture bricks.tif wrap_periodic.png --wrap periodic --filter closest --from -0.75 -0.75 --to 1.75 1.75 --size 100 60
picture bricks.tif wrap_mirror.png --wrap mirror --filter closest --from -0.75 -0.75 --to 1.75 1.75 --size 100 60

# the three filters: the rings from level 0 at the left to level 3 at the right
picture rings.tif filter_closest.png --wrap clamp --filter closest --level 0 --levels-to 3 --size 100 60
picture rings.tif filter_bilinear.png --wrap clamp --filter bilinear --level 0 --levels-to 3 --size 100 60
picture rings.tif filter_trilinear.png --wrap clamp --filter trilinear --level 0 --levels-to 3 --size 100 60

# generated levels: the hills, of which the file stores one level, from level 0 at the left to level 5
picture hills.tif generated_levels.png --wrap clamp --filter trilinear --level 0 --levels-to 5 --size 96 64
