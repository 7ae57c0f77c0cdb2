#!/usr/bin/env bash
# Works in a folder with several processes, each in a directory of its own, and checks what it sees: work.sh FOLDER.
set -euo pipefail
cd "$1"

fail() {
    echo "work.sh: $1" >&2
    exit 1
}

# One process: files made, written, read, linked, renamed over each other, cut and removed, and the errors on the way.
work() {
    mkdir "$1"
    cd "$1"
    for i in 1 2 3 4 5 6; do
        echo "text $i" > "file$i"
        [ "$(cat "file$i")" = "text $i" ] || fail "$1/file$i has other bytes"
        ln "file$i" "link$i"
        echo more >> "link$i"
        [ "$(wc -c < "file$i")" -eq 12 ] || fail "$1/file$i was not appended to"
        mv "link$i" moved
        truncate -s 3 moved
        [ "$(stat -c '%s %h' "file$i")" = "3 2" ] || fail "$1/file$i has another size or number of links"
        chmod 640 "file$i"
        ln -s "file$i" "symbolic$i"
        [ "$(cat "symbolic$i")" = tex ] || fail "$1/symbolic$i leads elsewhere"
        mkdir "directory$i"
        mv "symbolic$i" "directory$i/"
        ! rmdir "directory$i" 2> /dev/null || fail "$1/directory$i was removed with what is in it"
        [ ! -e "none$i" ] || fail "$1/none$i is there"
        ! mkdir "file$i" 2> /dev/null || fail "$1/file$i was made again"
    done
    exec 3<> open
    echo behind > open
    rm open
    # Not each server reads a file that has no name any more.
    line=behind
    read -r line <&3 2> /dev/null || true
    [ "${line:-behind}" = behind ] || fail "$1/open has other bytes without its name"
    exec 3<&-
    [ "$(ls | wc -l)" -eq 13 ] || fail "$1 lists other names"
    rm -r directory1 directory2 file3
    mkfifo pipe
    mv -T directory4 directory5 2> /dev/null && fail "$1/directory4 took the place of a directory that is not empty"
    rm directory5/*
    mv -T directory4 directory5
    ls -lR > /dev/null
}

for process in one two three four; do
    work "$process" &
done
for _ in one two three four; do
    wait -n || fail "a process failed"
done

# Messages of many pages, and a copy that the kernel is asked to make.
dd if=/dev/urandom of=large bs=300000 count=4 2> /dev/null
cp large copy
cmp large copy || fail "a copy has other bytes"
fallocate -l 100 room 2> /dev/null || true
stat -c '%w' large > /dev/null
find . | sort > /dev/null
