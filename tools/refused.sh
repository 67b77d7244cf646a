#!/usr/bin/env bash
# Callers that must not compile: each file of tools/refused is tried as a crate over the others, in a copy of the repository, and has
# to be refused with the error that its first line names. Prints what the compiler says; status 1 if one is not refused so. They
# are text files here, since `rt ci` refuses a .rt file that belongs to no crate.
set -u
cd "$(dirname "$0")/.." || exit 1
copy=$(mktemp -d) || exit 1
trap 'rm -rf "$copy"' EXIT
cp -r crates crates.txt "$copy" && mkdir "$copy/.git" || exit 1
libraries="ber components facility line tables controller operator reel"
status=0
for file in tools/refused/*.txt; do
    name=$(basename "$file" .txt)
    wanted=$(sed -n '1s|^// Refused: ||p' "$file")
    mkdir -p "$copy/crates/$name/src"
    cp "$file" "$copy/crates/$name/src/lib.rt"
    echo "$name: $libraries" >>"$copy/crates.txt"
    said=$(cd "$copy/crates/$name" && rt check 2>&1 | grep -m 1 '^src/lib.rt.*error')
    echo "$name: ${said:-not refused}"
    case $said in *"error[$wanted]"*) ;; *) status=1 ;; esac
done
exit $status
