#!/usr/bin/env bash
# Puts a source on a volume, assembles it there, and gets its tape. Compares its words with those of Debian's palbart on the same source. Puts and
# gets a file of 1,500 blocks. Prints the seconds that each command takes on a volume of 4095 blocks. Then it puts and gets 240 files at once. It
# checks 1,000 images of 3248 blocks: one program after the other, one program for all, and four side by side. Each stands beside cp or cat of the
# same bytes. It writes the index of 2,000 and of 10,000 images of 400 blocks, by one program and by four side by side. That stands beside cat and
# md5sum, with the most memory that one program took. It scans a volume of 4,088 tapes, and one of 4,088 blocks that each begin like a tape and have
# no trailer, which may take three times as long. Takes palbart from Debian's packages where it is missing.
set -eu
top=$(cd "$(dirname "${BASH_SOURCE[0]}")/.." && pwd)
. "$top/bench/seconds.sh"
dpkg -s palbart >/dev/null 2>&1 || { apt-get update && apt-get install -y palbart; } >&2
folder=$(mktemp -d)
trap 'rm -rf "$folder"' EXIT
cd "$folder"
"$top/prove" >/dev/null
program=$top/crates/pdp8/out/pdp8

printf '*200\n\tCLL STA\t\t/ AC IS 7777\n\tTAD ONE\n\tHLT\nONE,\t1\n$\n' >add.pal
"$top/pdp8" create V 4095
"$program" put V - --as ADD.PA --text <add.pal
printf 'ASSEMBLE ADD.BN<ADD.PA\nFINISH\n' | "$program" run V
"$program" get V ADD.BN --tape | "$program" tape >ours.txt
palbart add.pal >/dev/null
"$program" tape <add.bin >palbart.txt
cmp ours.txt palbart.txt || { echo "the words differ" >&2; exit 1; }
echo "$(wc -l <ours.txt) words, as palbart has them"

head -c 576000 /dev/urandom >bytes
put_bytes() { "$program" put V - --as BYTES <bytes >/dev/null; }
get_bytes() { "$program" get V BYTES >got; }
list_files() { "$program" list V; }
check_volume() { "$program" check V; }
create_volume() { "$program" create W 4095; }
for command in put_bytes get_bytes list_files check_volume create_volume; do
    printf '%s: %.3f seconds\n' "$command" "$(seconds "$command")"
done
cmp bytes got

{ "$program" get V ADD.BN --tape; head -c 384 /dev/zero; } | head -c 384 >tape
{ printf '\102\000'; for k in $(seq 191); do printf '\001\002'; done; } >origin
for name in tape origin; do
    "$program" create "V.$name" 4095 >/dev/null
    for k in $(seq 4088); do cat "$name"; done | "$program" put "V.$name" - --as A.BN >/dev/null
done
[ "$("$program" scan V.tape | wc -l) $("$program" scan V.origin | wc -l)" = '4088 0' ] || { echo "other pieces are scanned" >&2; exit 1; }
scan_volume() { "$program" scan "V.$1"; }
tapes=$(seconds scan_volume tape) origins=$(seconds scan_volume origin)
printf 'scan_volume of 4088 tapes: %.3f seconds; of 4088 blocks without a trailer: %.3f seconds\n' "$tapes" "$origins"
awk "BEGIN { exit $origins > 3 * $tapes }" || { echo "blocks without a trailer take too long" >&2; exit 1; }

mkdir files
for k in $(seq 240); do head -c 6000 /dev/urandom >"files/F$k.BN"; done
"$program" create M 4095 >/dev/null
put_many() { "$program" put M files/* >/dev/null; }
get_many() { "$program" get M --all --into got-files --force >/dev/null; }
copy_files() { cp files/* got-files; }
copy_image() { cp M N; }
for command in put_many copy_image get_many copy_files; do
    printf '%s: %.3f seconds\n' "$command" "$(seconds "$command")"
done
for file in files/*; do cmp "$file" <(head -c 6000 "got-${file}"); done

"$program" create I 3248 >/dev/null
"$program" put I --files files/F1* >/dev/null
mkdir images
for k in $(seq 1000); do cp I "images/$k"; done
check_each() { for image in images/*; do "$program" check "$image" >/dev/null; done; }
check_all() { "$program" check images/* >/dev/null; }
check_beside() { printf '%s\0' images/* | xargs -0 -P 4 -n 50 "$program" check >/dev/null; }
copy_images() { cat images/* >/dev/null; }
for command in check_each check_all check_beside copy_images; do
    printf '%s of 1000 images: %.3f seconds\n' "$command" "$(seconds "$command")"
done
rm -r images

"$program" create S 400 >/dev/null
"$program" put S files/F1?.BN >/dev/null
"$program" put S - --as ADD.PA --text <add.pal >/dev/null
mkdir images
for k in $(seq 10000); do cp S "images/$k"; done
names=(images/*)
index_images() { "$program" index "${names[@]:0:$1}" >lines; }
index_beside() { printf '%s\0' "${names[@]:0:$1}" | xargs -0 -P 4 -n 100 "$program" index >lines-beside; }
cat_images() { cat "${names[@]:0:$1}" >/dev/null; }
md5_images() { md5sum "${names[@]:0:$1}" >/dev/null; }
for count in 2000 10000; do
    for command in index_images index_beside cat_images md5_images; do
        printf '%s of %s images: %.3f seconds\n' "$command" "$count" "$(seconds "$command" "$count")"
    done
    cmp <(sort lines) <(sort lines-beside)
    /usr/bin/time -f "%M kilobytes of memory for the index of $count images" "$program" index "${names[@]:0:$count}" >/dev/null
done
