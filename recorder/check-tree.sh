#!/usr/bin/env bash
# Tries fuse-tree on folders with a file of each type that this user can make, and on what it has to refuse.
set -euo pipefail
here="$(cd "$(dirname "$0")" && pwd)"
command -v "${CC:-cc}" > /dev/null || { echo "check-tree: skipped: no compiler"; exit 0; }
folder="$(mktemp -d)"
trap 'rm -rf "$folder"' EXIT
cd "$folder"
export LC_ALL=C
passed=0
failed=0

# Counts one check: passed where the command behind its name succeeds.
check() {
    local name="$1"
    shift
    if "$@"; then
        passed=$((passed + 1))
    else
        failed=$((failed + 1))
        echo "check-tree: $name" >&2
    fi
}

# Runs fuse-tree: what it prints goes to the files found and errors, and its exit status into status.
run() {
    status=0
    ./fuse-tree "$@" > found 2> errors || status=$?
}

# The last run printed what is in the file expected, nothing on standard error, and ended with 0.
printed() {
    diff -a expected found | head -c 4000 >&2 && diff -a /dev/null errors >&2 && [ "$status" -eq 0 ]
}

# The last run printed so many bytes, nothing on standard error, and ended with 0.
printed_bytes() {
    [ "$(stat -c %s found)" -eq "$1" ] && diff -a /dev/null errors >&2 && [ "$status" -eq 0 ]
}

# The last run ended with this status and this line on standard error. What it printed is no tree text.
refused() {
    printf '%s\n' "$2" | diff -a - errors >&2 && [ "$status" -eq "$1" ] && [ "$(tail -c 5 found)" != $'\nend' ]
}

if ! ${CC:-cc} -std=c11 -Wall -Wextra -Wpedantic -Wshadow -Werror -O2 "$here/fuse-tree.c" -o fuse-tree; then
    echo "0 passed, 1 failed"
    exit 1
fi
cat > socket.c <<'LINES'
#include <string.h>
#include <sys/socket.h>
#include <sys/un.h>

int main(int count, char **words)
{
    struct sockaddr_un address = {.sun_family = AF_UNIX};
    strncpy(address.sun_path, words[count - 1], sizeof address.sun_path - 1);
    return bind(socket(AF_UNIX, SOCK_STREAM, 0), (struct sockaddr *)&address, sizeof address) != 0;
}
LINES
${CC:-cc} socket.c -o make-socket

# Each type and each kind of name.
mkdir root
(
    cd root
    mkdir d d/e d/none
    printf '\n' > $'\n'
    printf ' ' > ' '
    printf '%%' > 'no %41'
    printf 'x' > -dash
    : > A
    printf '\0\1\177\200\377' > a
    printf 'long' > d/e/f
    printf 'edge' > 'd/!~'
    ln a d/b
    ln -s ../a d/s
    ln -P d/s d/t
    : > d-
    : > bits
    mkfifo p
    ln p q
    ln -s $'to\n' s
    ln -s nowhere/at/all t
    ../make-socket u
    : > $'\x7f'
    printf '\377' > $'\xff\xc3\xa4'
    ln A v
    chmod 755 . d
    chmod 1777 d/e
    chmod 700 d/none
    chmod 644 $'\n' ' ' 'no %41' ./-dash A d/e/f 'd/!~' d- $'\x7f'
    chmod 640 a
    chmod 4751 bits
    chmod 406 $'\xff\xc3\xa4'
    chmod 600 p
    chmod 775 u
    if [ "$EUID" -eq 0 ]; then
        mknod -m 660 w b 7 0 || true
        mknod -m 620 x c 1 3 || true
    fi 2> /dev/null
)
{
    cat <<'LINES'
fuse-tree 1
root 755
f 644 %0A 0a
f 644 %20 20
f 644 -dash 78
f 644 A -
f 640 a 00017f80ff
f 751 bits -
d 755 d
f 644 d/!~ 65646765
h d/b a
d 777 d/e
f 644 d/e/f 6c6f6e67
d 700 d/none
s 777 d/s 2e2e2f61
h d/t d/s
f 644 d- -
f 644 no%20%2541 25
p 600 p
h q p
s 777 s 746f0a
s 777 t 6e6f77686572652f61742f616c6c
k 775 u
h v A
LINES
    if [ -b root/w ]; then echo 'b 660 w'; fi
    if [ -c root/x ]; then echo 'c 620 x'; fi
    cat <<'LINES'
f 644 %7F -
f 406 %FF%C3%A4 ff
end
LINES
} > expected
run root
check "each type" printed
run root/
check "a slash behind the folder" printed
ln -s root link
run link
check "a link to the folder" printed

# A folder without names.
mkdir -m 750 empty
printf 'fuse-tree 1\nroot 750\nend\n' > expected
run empty
check "an empty folder" printed

# More directories and files than it may hold open at once.
mkdir wide wide/{10..89}
touch wide/{10..89}/f
chmod 755 wide wide/*
chmod 644 wide/*/f
{
    printf 'fuse-tree 1\nroot 755\n'
    for name in {10..89}; do
        printf 'd 755 %s\nf 644 %s/f -\n' "$name" "$name"
    done
    echo end
} > expected
status=0
(ulimit -n 16 && exec ./fuse-tree wide > found 2> errors) || status=$?
check "many directories and files" printed

# A path of more than PATH_MAX bytes, and more levels than the lower limit of open files lets it hold.
mkdir deep
chmod 755 deep
name="$(printf 'n%.0s' {1..250})"
{
    printf 'fuse-tree 1\nroot 755\n'
    path="$name"
    for _ in {1..20}; do
        echo "d 755 $path"
        path="$path/$name"
    done
    printf 'f 644 %s 64656570\nend\n' "${path%"$name"}f"
} > expected
(
    cd deep
    for _ in {1..20}; do
        mkdir "$name"
        chmod 755 "$name"
        cd "$name"
    done
    printf 'deep' > f
    chmod 644 f
)
status=0
(ulimit -Sn 16 && exec ./fuse-tree deep > found 2> errors) || status=$?
check "a long path" printed

# The most bytes that a text may have, and more: a file of so many bytes has two digits for each, and 34 bytes stand beside them.
mkdir -m 755 large
truncate -s $(((268435456 - 34) / 2)) large/f
chmod 644 large/f
run large
check "a text of 268435456 bytes" printed_bytes 268435456
echo more >> large/f
run large
check "a longer text" refused 1 "fuse-tree: large: the tree text of this folder would have more than 268435456 bytes: take files out of it, or begin with a folder without them"
check "nothing is printed of it" [ ! -s found ]
truncate -s 300G large/f
run large
check "a file of 300 GiB" refused 1 "fuse-tree: large: the tree text of this folder would have more than 268435456 bytes: take files out of it, or begin with a folder without them"

# What cannot be read. No file is closed to root.
run missing
check "a missing folder" refused 1 "fuse-tree: missing: No such file or directory"
run ''
check "an empty word" refused 1 "fuse-tree: : No such file or directory"
run root/a
check "a file for a folder" refused 1 "fuse-tree: root/a: Not a directory"
mkdir -m 755 closed
: > closed/f
chmod 0 closed/f
if [ ! -r closed/f ]; then
    run closed
    check "a file that may not be read" refused 1 "fuse-tree: closed/f: Permission denied"
fi

# Output that fails, at the end and before it.
for name in root deep; do
    : > found
    status=0
    ./fuse-tree "$name" > /dev/full 2> errors || status=$?
    check "output of $name that fails" refused 1 "fuse-tree: standard output: No space left on device"
done

# A call for help.
run --help
check "help" [ "$status $(head -n 1 found)" = "0 usage: fuse-tree DIR" ]

# Another number of words than one.
run
check "no words" refused 2 "usage: fuse-tree DIR"
run root root
check "two words" refused 2 "usage: fuse-tree DIR"

echo "$passed passed, $failed failed"
[ "$failed" -eq 0 ]
