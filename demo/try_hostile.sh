#!/usr/bin/env bash
# Runs the program on files that are not images, or that contradict themselves, and compares what it
# prints. Each file is answered at once and with little memory, except blocks.tif: eight planes in tiles of
# 16 by 16, whose levels all share the offsets of the first. HOSTILE_SIDE=131072 makes it as large as it may
# be, a file of 2 GiB whose offsets take 5.3 GiB of memory. The sparse files have 5 GiB and take no space on
# the disk. The argument names another program.
set -u
case "${1-}" in -*) echo 'usage: demo/try_hostile.sh [PROGRAM]'; [ "$1" = --help ]; exit ;; esac
top=$(cd "$(dirname "${BASH_SOURCE[0]}")/.." && pwd) || exit 1
folder=$(mktemp -d) || exit 1
trap 'chmod -R u+rw "$folder"; rm -rf "$folder"' EXIT
program=${1:-$top/texcache}
picture=$top/crates/texcache/data/A.tif
wide=$top/crates/texcache/data/big.tif

# other bytes at a place of a file
put() { # NAME PLACE BYTES
  printf "$3" | dd of="$folder/$1" bs=1 seek="$2" conv=notrunc status=none
}
# a copy of the picture with other bytes at a place
changed() { # NAME PLACE BYTES
  cp "$picture" "$folder/$1"
  put "$1" "$2" "$3"
}
# and of the one with wide offsets
widened() { # NAME PLACE BYTES
  cp "$wide" "$folder/$1"
  put "$1" "$2" "$3"
}

: > "$folder/empty.tif"
head -c 1 "$picture" > "$folder/one.tif"
head -c 7 "$picture" > "$folder/seven.tif"
head -c 8 "$picture" > "$folder/eight.tif"
changed at_end.tif 4 '\x8a\x00\x00\x00'          # the first directory at the file's end
changed past_end.tif 4 '\xff\xff\xff\xff'        # and far behind it
changed in_header.tif 4 '\x00\x00\x00\x00'       # and at the header itself
changed many_entries.tif 8 '\xff\xff'            # 65535 entries
changed many_offsets.tif 74 '\xff\xff\xff\xff'   # 2^32 - 1 strip offsets
changed no_offsets.tif 74 '\x00\x00\x00\x00'     # none
changed far_strip.tif 78 '\xfb\xff\xff\xff'      # the strip near 2^32
changed one_too_far.tif 78 '\x7b\x00\x00\x00'    # the strip one byte past the end
# valid images: the next directory is the first one, or is far behind the end of the file
changed itself.tif 118 '\x08\x00\x00\x00'
changed next_far.tif 118 '\xff\xff\xff\xff'
# with wide offsets: offsets near 2^64, and a strip behind 5 GiB, whose first sample is 7
head -c 15 "$wide" > "$folder/fifteen.tif"
widened wide_end.tif 8 '\xf8\xff\xff\xff\xff\xff\xff\xff'
widened wide_entries.tif 16 '\xff\xff\xff\xff\xff\xff\xff\xff'
widened wide_offsets.tif 128 '\x01\x00\x00\x00\x00\x00\x00\x20'
widened wide_strip.tif 136 '\xf0\xff\xff\xff\xff\xff\xff\xff'
widened beyond.tif 136 '\x00\x00\x00\x40\x01\x00\x00\x00'
truncate -s 5368709136 "$folder/beyond.tif"; put beyond.tif 5368709120 '\x07'
mkdir "$folder/folder.tif"
cp "$picture" "$folder/secret.tif"; chmod 000 "$folder/secret.tif"
cp "$picture" "$folder/sparse.tif"; truncate -s 5G "$folder/sparse.tif"
truncate -s 5G "$folder/zeros.tif"

python3 - "$folder/blocks.tif" "${HOSTILE_SIDE:-4096}" << 'END'
import struct
import sys

name, side = sys.argv[1], int(sys.argv[2])
# at 4096 eight times 8 bits, at 4352 the one tile that all are, at 8192 the offsets
blocks, depths, tile, offsets = 8 * (side // 16) ** 2, 4096, 4352, 8192
with open(name, "wb") as file:
    file.write(b"II*\0" + struct.pack("<I", 8))
    while side:
        entries = [(256, side), (257, side), (258, depths), (259, 1), (262, 1), (277, 8), (284, 2), (322, 16),
                   (323, 16), (324, offsets)]
        file.write(struct.pack("<H", len(entries)))
        for tag, value in entries:
            kind, count = {258: (3, 8), 324: (4, blocks)}.get(tag, (4, 1))
            file.write(struct.pack("<HHII", tag, kind, count, value))
        side //= 2
        file.write(struct.pack("<I", file.tell() + 4 if side else 0))
    file.write(bytes(depths - file.tell()) + struct.pack("<8H", *[8] * 8))
    file.write(bytes(tile - file.tell()) + bytes([7]) * 256)
    file.write(bytes(offsets - file.tell()))
    part = struct.pack("<I", tile) * 2048
    for _ in range(blocks // 2048):
        file.write(part)
END

secret='read fault'
[ "$(id -u)" = 0 ] && secret='pixels 1 1 0' # root reads any file

ask() { # NAME LINE
  printf 'pixels 0 0 0 1 1 %s\n' "$1" >> "$folder.list"
  printf '%s\n' "$2" >> "$folder.want"
}
rm -f "$folder.list" "$folder.want"
for name in empty one seven fifteen; do ask "$name.tif" 'bad file 1 1'; done
ask zeros.tif 'bad file 1 2'
for name in eight at_end past_end in_header many_entries wide_end wide_entries; do
  ask "$name.tif" 'bad file 1 4'
done
for name in many_offsets no_offsets wide_offsets; do ask "$name.tif" 'bad file 1 6 273'; done
for name in far_strip one_too_far wide_strip; do ask "$name.tif" 'bad file 1 12 0 0'; done
ask itself.tif 'pixels 1 1 0'
ask next_far.tif 'pixels 1 1 0'
ask sparse.tif 'pixels 1 1 0'
ask beyond.tif 'pixels 1 1 1799'
ask folder.tif 'no such file'
ask secret.tif "$secret"
ask blocks.tif 'pixels 1 8 1799 1799 1799 1799 1799 1799 1799 1799'

"$program" "$folder" < "$folder.list" > "$folder.got" 2> "$folder.error"
status=$?
result=0
grep -v '^worker \|^total ' "$folder.got" | diff "$folder.want" - || result=1
# the program says nothing there, and the script that runs it whether it is proved
grep -v '^texcache: this program is not proved\|^texcache: building' "$folder.error" && result=1
[ "$status" = 1 ] || { echo "status $status, not 1"; result=1; }
rm -f "$folder.list" "$folder.want" "$folder.got" "$folder.error"
[ "$result" = 0 ] && echo 'each hostile file got its line'
exit "$result"
