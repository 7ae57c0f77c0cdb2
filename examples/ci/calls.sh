#!/bin/sh
# A small test suite: works in a folder by two processes at once, and checks what it sees: calls.sh FOLDER.
set -eu
cd "$1"

fail() {
    echo "calls.sh: $1" >&2
    exit 1
}

# Files that are made, written, read, cut, linked, moved and removed, in a folder of its own.
work() {
    mkdir "$1"
    cd "$1"
    for i in 1 2 3 4 5 6 7 8; do
        echo "text $i" > "file$i"
        [ "$(cat "file$i")" = "text $i" ] || fail "$1/file$i has other bytes"
        ln "file$i" linked
        echo more >> linked
        [ "$(wc -c < "file$i")" -eq 12 ] || fail "$1/file$i was not appended to"
        truncate -s 3 "file$i"
        truncate -s 5000 "file$i"
        [ "$(tail -c +4 "file$i" | tr -d '\0' | wc -c)" -eq 0 ] || fail "$1/file$i has bytes of before"
        mv linked "moved$i"
        chmod 640 "moved$i"
        [ "$(stat -c '%a %h' "file$i")" = "640 2" ] || fail "$1/file$i has other permissions or another number of links"
        mkdir "folder$i"
        mv "moved$i" "folder$i/name"
        ! rmdir "folder$i" 2> /dev/null || fail "$1/folder$i was removed with what is in it"
        ln -s "folder$i/name" "symbolic$i"
        [ "$(wc -c < "symbolic$i")" -eq 5000 ] || fail "$1/symbolic$i leads elsewhere"
        [ ! -e "none$i" ] || fail "$1/none$i is there"
    done
    rm -r folder1 folder2 symbolic1 file3
    [ "$(find . | wc -l)" -eq 27 ] || fail "$1 lists other names"
}

work one &
one=$!
work two || { wait "$one"; exit 1; }
wait "$one"
