#!/usr/bin/env bash
# Records sessions of real mounts and has the built program judge them: recorder/test.sh [--threads] [PROGRAM].
# With --threads the recorder and what it records are built and run with ThreadSanitizer, which is to find nothing.
# What cannot be tried on this machine is told as skipped, with its reason.
set -uo pipefail
here="$(cd "$(dirname "$0")" && pwd)"
sanitizer=()
if [ "${1:-}" = --threads ]; then
    sanitizer=(-g -fsanitize=thread)
    shift
fi
program="$(realpath "${1:-$here/../crates/fa_audit_program/out/fa_audit_program}")"
examples=/usr/share/doc/libfuse3-dev/examples
passed=0
failed=0
servers=()
# How servers are recorded now: options of fuse-record, and words behind the names of checks.
how=()
by=""

skip_all() {
    echo "recorder: skipped: $1"
    exit 0
}
command -v "${CC:-cc}" > /dev/null || skip_all "no compiler"
[ -r /dev/fuse ] && [ -w /dev/fuse ] || skip_all "/dev/fuse can't be opened"
[ "$(id -u)" -eq 0 ] || skip_all "only root may mount without a helper"
[ -x "$program" ] || { echo "recorder: $program is not built" >&2; exit 1; }

work="$(mktemp -d)"
lower="$work/lower"
mnt="$work/mnt"
capture="$work/a.cap"
live="$work/live"
# What fuse-record is started by.
under=(env)
[ ${#sanitizer[@]} -eq 0 ] || under=(env "LD_PRELOAD=$("${CC:-cc}" -print-file-name=libtsan.so)" "TSAN_OPTIONS=log_path=$work/races")

# Takes down what was mounted, by its own path, and ends the servers.
clean_up() {
    for server in "${servers[@]}"; do
        kill -KILL "$server" 2> /dev/null
    done
    for folder in "$mnt" "$work/small"; do
        while grep -qs " $folder " /proc/self/mounts && timeout 20 umount -l "$folder"; do :; done
    done
    rm -rf --one-file-system "$work"
}
trap clean_up EXIT

# Counts one check, which holds where the words behind its name are a command that succeeds, and tells whether it does.
check() {
    local name="$1"
    shift
    if "$@"; then
        passed=$((passed + 1))
        return 0
    fi
    failed=$((failed + 1))
    echo "recorder: failed: $name$by" >&2
    for file in "$work/errors" "$capture.log"; do
        [ ! -s "$file" ] || head -n 20 "$file" >&2
    done
    return 1
}

finish() {
    [ ${#sanitizer[@]} -eq 0 ] || check "no races are found" no_races
    echo "$passed passed, $failed failed"
    exit $((failed > 0))
}

no_races() { ! cat "$work"/races.* 2> /dev/null; }

is_mounted() { grep -qs " $mnt " /proc/self/mounts; }

# Starts a server under fuse-record and waits for its mount: record_on [OPTIONS] -- SERVER WORDS..
# It is to stay in the foreground; its process is the last of servers.
record_on() {
    rm -f "$work/errors"
    "${under[@]}" "$work/recorder/fuse-record" -o "$capture" "${how[@]}" "$@" > /dev/null 2> "$work/errors" &
    servers+=($!)
    for _ in $(seq 100); do
        is_mounted && return 0
        kill -0 "${servers[-1]}" 2> /dev/null || return 1
        sleep 0.05
    done
    return 1
}

# The same without what was recorded before.
record() {
    rm -f "$work"/a.cap*
    record_on "$@"
}

# Waits for the last server, and keeps its status.
ended_server() {
    timeout 20 tail -s 0.1 --pid="${servers[-1]}" -f /dev/null || return
    status=0
    wait "${servers[-1]}" || status=$?
    unset 'servers[-1]'
}

# Takes the mount down and waits for its server.
stop() {
    timeout 20 umount "$mnt" 2> /dev/null || timeout 20 umount -l "$mnt"
    ended_server
}

# The recording ended with this status, and its line on standard error, the last one there, with these words.
ends() {
    [ "$status" -eq "$1" ] || { echo "recorder: status $status" >&2; return 1; }
    tail -n 1 "$work/errors" | grep -q "^fuse-record: $capture: [0-9]* messages, [0-9]* requests, [0-9]* answers; $2"
}
unanswered="[0-9]* requests were never answered, [0-9]* of them of operations that no order names"

# Prints the verdict on the capture, of all orders. The steps are a minute's work at most.
verdict() {
    local tree=()
    [ ! -e "$capture.tree" ] || tree=(--tree "$capture.tree")
    "$program" judge --steps 1000000 --capture "$capture" "${tree[@]}"
}

# The same by an order in a file, which this command makes: verdict_by COMMAND.
verdict_by() { "$program" "$1" --capture "$capture" > "$work/a.order" && "$program" check --capture "$capture" --order "$work/a.order"; }

# A capture is watched as this verdict says: the fault, or as many messages as are legal.
watched_as() {
    local messages="${1#legal: }" seen
    seen="$("$program" watch --capture - < "$capture")"
    case "$1" in
        fault:*) [ "$seen" = "$1" ] ;;
        legal:*) [ "$seen" = "good: ${messages%% messages*} messages" ] ;;
        *) [[ "$seen" == good:* ]] ;;
    esac || { echo "recorder: watched: $seen" >&2; return 1; }
}

# The verdict on a session, which is printed with its name, is like a pattern.
judged() {
    local found
    found="$(verdict)"
    echo "$1$by: $found"
    [[ "$found" == $2 ]] && watched_as "$found"
}

# What reads the FIFO has ended.
has_read() { timeout 20 tail -s 0.1 --pid="$reader" -f /dev/null; }

# The watch came to its end, with a line like this.
has_watched() { has_read && grep -q "^$1\$" "$work/watched"; }

# It was good, with as many messages as fuse-record told at the end.
has_watched_all() {
    local messages
    messages="$(tail -n 1 "$work/errors" | sed -n "s|^fuse-record: $capture: \([0-9]*\) messages.*|\1|p")"
    [ "${messages:-0}" -gt 0 ] && has_watched "good: $messages messages"
}

# Makes a FIFO without a reader: fifo, and what a stream was before is gone.
fifo() {
    rm -f "$work"/live* "$work/copy" "$work/watched"
    mkfifo "$live"
}

# Makes a FIFO, of which what is read is kept and watched.
fifo_watched() {
    fifo
    tee "$work/copy" < "$live" | "$program" watch --capture - > "$work/watched" &
    reader=$!
}

# Makes a FIFO that a watch reads alone, so that it has no reader once that has told a fault.
fifo_watched_alone() {
    fifo
    "$program" watch --capture "$live" > "$work/watched" &
    reader=$!
}

# Makes a FIFO that is open to be read, and of which nothing is read until read_on.
fifo_unread() {
    fifo
    { until [ -e "$work/read_on" ]; do sleep 0.05; done; cat > "$work/copy"; } < "$live" &
    reader=$!
}
read_on() { touch "$work/read_on" && has_read && rm "$work/read_on"; }

# The verdict is legal, and some hundred messages were recorded.
is_legal() { judged "$1" "legal: [1-9][0-9][0-9]* messages, *"; }

# The log has so many lines with these words, or some where no number is given.
logged() {
    local found
    found="$(grep -c -- "$1" "$capture.log")"
    [ "$found" -eq "${2:-$found}" ] && [ "$found" -gt 0 ]
}

# The bytes that were in the folder before.
fill_lower() {
    rm -rf "$lower"
    mkdir -p "$lower/old/deep"
    echo here > "$lower/old/deep/file"
    ln "$lower/old/deep/file" "$lower/second"
    ln -s old/deep/file "$lower/symbolic"
    mkfifo "$lower/old/pipe"
}

work_in_mount() { is_mounted && timeout 120 "$here/tests/work.sh" "$mnt"; }

fill_plain() {
    rm -rf "$lower" "$work/cache"
    (umask 022 && mkdir -p "$lower/old/deep" && echo here > "$lower/old/deep/file")
}
look_at_old() { [ "$(timeout 20 cat "$mnt/symbolic" "$mnt/second")" = $'here\nhere' ] && timeout 20 ls -lR "$mnt" > "$work/seen"; }

# Copies and moves files into the mount with their permission bits, from the file system of the work folder.
copy_in() {
    mkdir -p "$work/elsewhere/folder"
    echo text > "$work/elsewhere/program"
    cp "$work/elsewhere/program" "$work/elsewhere/folder/secret"
    chmod 755 "$work/elsewhere/program"
    chmod 640 "$work/elsewhere/folder/secret"
    chmod 2750 "$work/elsewhere/folder"
    timeout 20 cp -p "$work/elsewhere/program" "$mnt/one" && timeout 20 cp -a "$work/elsewhere" "$mnt/two" &&
        timeout 20 mv "$work/elsewhere/program" "$mnt/three" && timeout 20 mv "$work/elsewhere/folder" "$mnt/four" &&
        [ "$(cd "$mnt" && timeout 20 stat -c %a one two/program two/folder two/folder/secret three four four/secret | tr '\n' ' ')" = \
            "755 755 2750 640 755 2750 640 " ]
}

# Copies into the mount, takes it down, and has the session judged.
copying_session() {
    check "$1: files are copied and moved in, with their bits" copy_in
    check "$1: is unmounted" stop
    check "$1: access control lists are refused" logged "SETXATTR of system.posix_acl_access, .* answered EOPNOTSUPP in the server's"
    check "$1: is legal" is_legal "$1"
}

# Works in the mount, takes it down, and has the session judged.
whole_session() {
    check "$1: serves several processes" work_in_mount
    check "$1: is unmounted" stop
    check "$1: ends well" ends 0 "$unanswered\$"
    check "$1: is legal" is_legal "$1"
}

# A session of a server on the folder lower: session NAME SERVER WORDS..
session() {
    local name="$1"
    shift
    fill_lower
    check "$name: mounts" record --lower "$lower" --refuse FALLOCATE,COPY_FILE_RANGE,IOCTL -- "$@" || return
    check "$name: serves what was there" look_at_old
    whole_session "$name"
    check "$name: INIT is shown as one of 7.31" logged "INIT: minor .* shown to the server as minor 31"
}

# Names that are moved where there is none, kept where there is one, and exchanged: files and directories, of two directories too.
rename_in_mount() {
    (cd "$mnt" && timeout 20 bash -ec '
        mkdir one two one/inner
        echo text > file; echo other > two/name
        mv -n file moved; [ -e moved ]; [ ! -e file ]
        mv -n two/name moved; [ "$(cat two/name moved)" = "$(printf "other\ntext")" ]
        "$0" one/inner two/name; [ -d two/name ]; [ "$(cat one/inner)" = other ]
        "$0" one two; [ -d one/name ]
        "$0" moved one; [ "$(cat one)" = text ]; [ -d moved/name ]
        ! "$0" moved moved/name
        ! "$0" moved none
        ls -lR' "$work/exchange") > "$work/seen" 2>&1
}
# So many successes of RENAME2 are in the capture.
has_renamed() { [ "$("$program" show --capture "$capture" --operation RENAME2 | grep -c " < unique [0-9]* ok, ")" -ge "$1" ]; }

# Work with names by RENAME2: renaming_session NAME.
renaming_session() {
    check "$1: serves" rename_in_mount
    check "$1: is unmounted" stop
    check "$1: ends well" ends 0 "$unanswered\$"
    check "$1: by RENAME2" has_renamed 4
    check "$1: is legal" is_legal "$1"
}

# Starts the tests' own server: own NAME [OPTIONS OF fuse-record] -- [OPTIONS OF memory].
own() {
    local name="$1" options=()
    shift
    while [ "$1" != -- ]; do
        options+=("$1")
        shift
    done
    shift
    check "$name: mounts" record "${options[@]}" -- "$work/memory" "$@" "$mnt" || finish
}

# A session of a server on the folder lower, with one command in the mount: left_out NAME COMMAND SERVER WORDS..
# An operation succeeds in it that is left out, and that is a fault where it is not refused.
left_out() {
    local name="$1" command="$2"
    shift 2
    fill_lower
    check "$name: mounts" record --lower "$lower" -- "$@" || return
    (cd "$mnt" && timeout 20 sh -c "$command") > "$work/seen" 2>&1
    check "$name: is unmounted" stop
    check "$name: is a fault" judged "$name" "fault: message *: code 32: *"
}

# Compiles a server of libfuse's package, with all that it can do.
compile_example() { "${CC:-cc}" -O2 -w -DHAVE_POSIX_FALLOCATE -DHAVE_COPY_FILE_RANGE "${sanitizer[@]}" -I/usr/include/fuse3 -I"$examples" -o "$@" -lfuse3 -pthread; }

cp -r "$here" "$work/recorder"
plain=(-std=c11 -Wall -Wextra -Werror -O2 -pthread)
flags=("${plain[@]}" "${sanitizer[@]}")
mkdir "$mnt"
check "the recorder compiles" make -s -B -C "$work/recorder" CFLAGS="-O2 -Werror ${sanitizer[*]}" &&
    check "the server compiles" "${CC:-cc}" "${flags[@]}" -o "$work/memory" "$here/tests/memory.c" &&
    check "what exchanges names compiles" "${CC:-cc}" "${plain[@]}" -o "$work/exchange" "$here/tests/exchange.c" &&
    check "what replays messages compiles" "${CC:-cc}" "${flags[@]}" -D_DEFAULT_SOURCE -pthread -o "$work/replay" "$here/tests/replay.c" &&
    check "the server that splices compiles" "${CC:-cc}" "${flags[@]}" -DWITH_SPLICE -o "$work/memory-splicing" "$here/tests/memory.c" &&
    check "the server with the header compiles" \
        "${CC:-cc}" "${plain[@]}" -static -pthread -DWITH_HEADER -o "$work/memory-static" "$here/tests/memory.c" ||
    finish
# Where not even a mount without the recorder is allowed, there is nothing to try.
"$work/memory" "$mnt" 2> "$work/errors" &
servers+=($!)
for _ in $(seq 100); do
    is_mounted && break
    grep -qs "not permitted\|No such device" "$work/errors" && skip_all "$(cat "$work/errors")"
    sleep 0.05
done
stop

check "README's example compiles" "${CC:-cc}" "${flags[@]}" -D_DEFAULT_SOURCE -pthread -c -o "$work/example.o" "$here/example.c"
in_readme() { [[ "$(sed 's/^    //' "$here/README.md")" == *"$(cat "$here/$1")"* ]]; }
check "README has the example" in_readme example.c

# What the command refuses: its status, and a word of its line.
refuses() {
    local status="$1" words="$2" found=0
    shift 2
    "${under[@]}" "$work/recorder/fuse-record" "$@" > "$work/seen" 2> "$work/errors" || found=$?
    [ "$found" -eq "$status" ] && grep -q -- "$words" "$work/errors"
}
check "no server is a fault of the command line" refuses 2 "usage: fuse-record" -o "$capture"
check "no capture is a fault of the command line" refuses 2 "usage: fuse-record" -- true
check "two ways are a fault of the command line" refuses 2 "usage: fuse-record" --trace --preload -o "$capture" -- true
check "INIT can't be refused" refuses 2 "INIT: no operation" --refuse IOCTL,INIT -o "$capture" -- true
check "a device is no capture" refuses 1 "/dev/null: no regular file" -o /dev/null -- true
check "a folder that is not there has no tree" refuses 1 "no tree text of" --lower "$work/none" -o "$capture" -- true
check "a server that is not there" refuses 127 "No such file" -o "$capture" -- "$work/none"
check "standard output has no log beside it" refuses 2 "--live - writes it to standard output too" -o - -- true
check "a file is no stream" refuses 1 "errors: no FIFO and no pipe" --live "$work/errors" -o "$capture" -- true
check "a pipe of the shell has no log beside it" refuses 1 "no regular file" -o >(true) -- true
check "nothing is left of them" [ -z "$(cd "$work" && ls -d a.cap* 2> /dev/null)" ]
# A FIFO is waited for, before anything else is done.
fifo
check "two streams are a fault of the command line" refuses 2 "live: is a FIFO, and --live is" -o "$live" --live "$live" -- true
status=0
timeout 1 "$work/recorder/fuse-record" -o "$live" -- touch "$work/begun" || status=$?
check "no reader: is waited for" [ "$status" -eq 124 ]
check "no reader: nothing is begun" [ "$(cd "$work" && ls -d live* begun 2> /dev/null)" = live ]

# Made-up messages, which stand in texts as those of the cases do.
as_bytes() { "$here/../cases/messages.py" read - > "$work/given"; }
# Records the messages that as_bytes had, and checks the status: replay STATUS [OPTIONS OF fuse-record].
replay() {
    local expected="$1"
    shift
    rm -f "$work"/a.cap*
    status=0
    "${under[@]}" "$work/recorder/fuse-record" -o "$capture" "$@" -- "$work/replay" "$work/given" "$work/shown" 2> "$work/errors" || status=$?
    [ "$status" -eq "$expected" ]
}
# The most bytes that a capture may have, of which times are none, and one more.
most_messages() {
    printf '%s\n' '> unique 2 INIT' '< unique 2 init' '< INVAL_INODE zeros 2097136 times 127' "< INVAL_INODE zeros $1" | as_bytes
}
has_bytes() { [ "$(stat -c %s "$capture")" -eq "$1" ]; }
most_messages 2096342
check "most bytes: are recorded" replay 0
check "most bytes: and the times" has_bytes "$((268435456 + 130 * 8))"
check "most bytes: without times" replay 0 --plain
check "most bytes: are all" has_bytes 268435456
most_messages 2096343
check "one more: is recorded up to it" replay 0
check "one more: is told" grep -q "fuse-record: .*: a capture may have no more: the recording ends with 129 messages" "$work/errors"
check "one more: is not there" has_bytes "$((268435456 + 129 * 8 - 5 - 2096358))"

# What is asked of go-fuse's own file is left out, as long as it is known by look-ups that were. A line with a mark in front is given
# and not recorded, a line behind => is recorded and not given.
own_file() {
    cat << 'LINES'
> unique 2 INIT
< unique 2 init
- > unique 4 LOOKUP node 1 ".go-fuse-epoll-hack"
- < unique 4 entry node 9 mode 0100644 nlink 1
- > unique 6 OPEN node 9
> unique 8 LOOKUP node 1 "a"
- < unique 6 opened fh 9
- > unique 10 POLL node 9 zeros 40
> unique 12 GETATTR node 5
> unique 13 INTERRUPT bytes 0c00000000000000
- > unique 11 INTERRUPT bytes 0a00000000000000
- < unique 11 EAGAIN
< unique 8 entry node 5 mode 040755 nlink 2
< unique 12 attr ino 5 mode 040755 nlink 2
- < unique 10 ENOSYS
- > unique 11 INTERRUPT bytes 0a00000000000000
# The name in another folder, and names that are alike.
> unique 14 LOOKUP node 5 ".go-fuse-epoll-hack"
< unique 14 ENOENT
> unique 16 LOOKUP node 1 ".go-fuse-epoll-hack2"
< unique 16 ENOENT
> unique 18 LOOKUP node 1 ".go-fuse-epoll-hac"
< unique 18 ENOENT
- > unique 20 LOOKUP node 1 ".go-fuse-epoll-hack"
- > unique 22 FLUSH node 9 fh 9
- < unique 22 ok
- < unique 20 entry node 9 mode 0100644 nlink 1
# One of two look-ups is forgotten, and then the other one among nodes of the mount.
- > unique 24 FORGET node 9 nlookup 1
- > unique 26 GETATTR node 9
- < unique 26 attr ino 9 mode 0100644 nlink 1
- > unique 28 RELEASE node 9 fh 9
- < unique 28 ok
> unique 30 LOOKUP node 1 "a"
< unique 30 entry node 5 mode 040755 nlink 2
- > unique 32 BATCH_FORGET [node 5 nlookup 1] [node 9 nlookup 1] [node 6]
=> > unique 32 BATCH_FORGET [node 5 nlookup 1] [node 6]
# The number is another file's.
> unique 34 LOOKUP node 1 "b"
< unique 34 entry node 9 mode 0100644 nlink 1
> unique 36 GETATTR node 9
< unique 36 attr ino 9 mode 0100644 nlink 1
- > unique 38 LOOKUP node 1 ".go-fuse-epoll-hack"
- < unique 38 ENOENT
- > unique 40 LOOKUP node 1 ".go-fuse-epoll-hack"
- < unique 40 entry entry_valid 1
> unique 42 GETATTR node 9
< unique 42 attr ino 9 mode 0100644 nlink 1
# The name is that file's second one.
- > unique 44 LOOKUP node 1 ".go-fuse-epoll-hack"
- < unique 44 entry node 9 mode 0100644 nlink 2
- > unique 46 FORGET node 9 nlookup 2
=> > unique 46 FORGET node 9 nlookup 1
> unique 48 LOOKUP node 1 "b"
< unique 48 entry node 9 mode 0100644 nlink 2
> unique 50 READLINK node 9
< unique 50 EINVAL
# Of two nodes one stays.
- > unique 52 LOOKUP node 1 ".go-fuse-epoll-hack"
- < unique 52 entry node 18446744073709551615 mode 0100644 nlink 1
- > unique 54 LOOKUP node 1 ".go-fuse-epoll-hack"
- < unique 54 entry node 11 mode 0100644 nlink 1
- > unique 56 BATCH_FORGET [node 11 nlookup 1]
> unique 58 GETATTR node 11
< unique 58 ENOENT
- > unique 60 GETATTR node 18446744073709551615
- < unique 60 ENOENT
> unique 62 BATCH_FORGET [node 9 nlookup 1] [node 5 nlookup 1]
LINES
    # More requests than are kept for their answers.
    for unique in $(seq 100 2 238); do
        printf '%s\n' "- > unique $unique GETATTR node 18446744073709551615" "- < unique $unique ERANGE"
    done
    printf '%s\n' "> unique 240 LOOKUP node 1 \"a\"" "< unique 240 ENOENT" "< INVAL_INODE zeros 40"
}
left_out_of() { sed -n 's/^=> //; /^[<>]/p' "$work/own"; }
given_of() { sed '/^#/d; /^=> /d; s/^- //' "$work/own"; }
# The capture, which has no times, is that of this text.
has_messages() { "$here/../cases/messages.py" write "$capture" | diff - "$1" >&2; }
own_file > "$work/own"
left_out_of > "$work/expected"
given_of > "$work/everything"
as_bytes < "$work/everything"
check "own file: is recorded" replay 0 --plain
check "own file: is left out" has_messages "$work/expected"
check "own file: the server sees it, and the device its answers" cmp "$work/given" "$work/shown"
check "own file: each request is told" logged "[A-Z]* of node [0-9]*, unique [0-9]*: left out, since it is for go-fuse's own file" 87
check "own file: so is what was taken out of others" logged "_FORGET, unique 32: recorded without what it says of go-fuse's own file" 1
check "own file, kept: is recorded" replay 0 --plain --keep-own
check "own file, kept: with all" has_messages "$work/everything"
check "own file, kept: nothing is told of it" [ "$(grep -c go-fuse "$capture.log")" -eq 0 ]
# A request that is answered in the server's place, and an answer that the kernel refuses.
cat > "$work/own" << 'LINES'
> unique 2 INIT
< unique 2 init
- > unique 4 LOOKUP node 1 ".go-fuse-epoll-hack"
- < unique 4 entry node 9 mode 0100644 nlink 1
- < unique 4 entry node 9 mode 0100644 nlink 1
- > unique 6 POLL node 9 zeros 40
> unique 8 POLL node 1 zeros 40
=> < unique 8 ENOSYS
- > unique 10 FORGET node 9 nlookup 1
> unique 12 GETATTR node 9
< unique 12 ENOENT
LINES
left_out_of > "$work/expected"
given_of | as_bytes
check "own file, refused: is recorded" replay 0 --plain --refuse POLL
check "own file, refused: is left out" has_messages "$work/expected"
check "own file, refused: is told" logged "^POLL, unique 6: answered ENOSYS in the server's place" 1
# Nothing is handed on from a message that the kernel may refuse, which it does here after two seconds, and all before it is.
cat > "$work/own" << 'LINES'
> unique 2 INIT
< unique 2 init
> unique 4 LOOKUP node 1 "a"
< unique 4 ENOENT
LINES
as_bytes < "$work/own"
before="$(stat -c %s "$work/given")"
printf '%s\n' '< unique 4 ENOENT' '> unique 6 LOOKUP node 1 "b"' '< unique 6 ENOENT' | cat "$work/own" - > "$work/everything"
printf '%s\n' '< INVAL_INODE' '> unique 6 LOOKUP node 1 "b"' '< unique 6 ENOENT' | cat "$work/own" - > "$work/expected"
as_bytes < "$work/everything"
reads_up_to() {
    for _ in $(seq 36); do
        [ ! -e "$work/copy" ] || [ "$(stat -c %s "$work/copy")" -lt "$1" ] || break
        sleep 0.05
    done
    [ "$(stat -c %s "$work/copy")" -eq "$1" ]
}
held_back() {
    local name="$1"
    shift
    rm -f "$work"/a.cap*
    "${under[@]}" "$work/recorder/fuse-record" "$@" -- "$work/replay" "$work/given" "$work/shown" 2000 2> "$work/errors" &
    servers+=($!)
    check "$name: up to it" reads_up_to "$before"
    check "$name: ends" ended_server
    check "$name: ends well" ends 0 "$unanswered\$"
    check "$name: is good" has_watched_all
}
fifo_watched
held_back "held back" --plain -o "$capture" --live "$live"
check "held back: the capture is as ever" has_messages "$work/expected"
check "held back: is the capture" cmp "$capture" "$work/copy"
capture="$live"
fifo_watched
held_back "held back alone" --plain -o "$capture"
capture="$work/a.cap"
check "held back alone: is the capture" cp "$work/copy" "$capture"
check "held back alone: with all messages" has_messages "$work/expected"
rm -f "$work/given" "$work/shown"

# Servers that others wrote, by the library and by their system calls: libfuse's own example, and bindfs.
compile_examples() {
    compile_example "$work/passthrough_ll" "$examples/passthrough_ll.c" || return
    # The same with answers that are spliced.
    sed '/if(conn->capable & FUSE_CAP_EXPORT_SUPPORT)/i conn->want |= conn->capable & FUSE_CAP_SPLICE_WRITE;' \
        "$examples/passthrough_ll.c" > "$work/splicing.c" && compile_example "$work/splicing" "$work/splicing.c"
}
bindfs_words=(bindfs -f -o "hard_remove,attr_timeout=0,entry_timeout=0" "$lower" "$mnt")
sessions_of_others() {
    if [ -x "$work/splicing" ]; then
        session passthrough_ll "$work/passthrough_ll" -f -o "source=$lower" "$mnt"
        check "passthrough_ll: an operation is refused" logged "FALLOCATE.*answered ENOSYS in the server's place"
        # With a descriptor for each thread.
        session "passthrough_ll, splicing" "$work/splicing" -f -o clone_fd -o "source=$lower" "$mnt"
    fi
    # Two names of a file are two nodes here: without timeouts the kernel asks for the attributes of each.
    ! command -v bindfs > /dev/null || session bindfs "${bindfs_words[@]}"
    ! has_fusepy || session fusepy /usr/bin/python3 "$here/tests/folder.py" "$lower" "$mnt"
}
has_fusepy() { /usr/bin/python3 -c "import fusepy" 2> /dev/null; }
has_fusepy || echo "recorder: skipped: a server in Python: python3-fusepy is not installed"
if [ -e "$examples/passthrough_ll.c" ]; then
    check "passthrough_ll compiles" compile_examples
    left_out "passthrough_ll, FALLOCATE" "fallocate -l 100 room" "$work/passthrough_ll" -f -o "source=$lower" "$mnt"
    left_out "passthrough_ll, COPY_FILE_RANGE" "cp second third" "$work/passthrough_ll" -f -o "source=$lower" "$mnt"
else
    echo "recorder: skipped: passthrough_ll: libfuse3-dev is not installed"
fi
if command -v bindfs > /dev/null; then
    fill_lower
    check "bindfs, copied to: mounts" record --lower "$lower" -- "${bindfs_words[@]}" &&
        copying_session "bindfs, copied to"
    if command -v lsattr > /dev/null; then
        left_out "bindfs, IOCTL" "lsattr second" bindfs -f -o hard_remove "$lower" "$mnt"
    else
        echo "recorder: skipped: bindfs, IOCTL: lsattr is not installed"
    fi
else
    echo "recorder: skipped: bindfs is not installed"
fi

# It hands RENAME2 on with all flags. What it says ends without a line feed, and its copy of a file with two names has one.
if command -v fuse-overlayfs > /dev/null; then
    fill_plain
    mkdir -p "$work/upper" "$work/other"
    check "fuse-overlayfs: mounts" record --lower "$lower" --refuse FALLOCATE,COPY_FILE_RANGE,IOCTL -- \
        sh -c 'exec fuse-overlayfs -f -o "$0" "$1" 2> /dev/null' "lowerdir=$lower,upperdir=$work/upper,workdir=$work/other,timeout=0" "$mnt" &&
        renaming_session fuse-overlayfs
else
    echo "recorder: skipped: fuse-overlayfs is not installed"
fi
sessions_of_others

# A server with an image: its tree text is that of a mount before.
image_tree() {
    truncate -s 16M "$work/image"
    mkfs.ext4 -q "$work/image" || return
    for round in make look; do
        fuse2fs -f -o fakeroot "$work/image" "$mnt" > "$work/seen" 2>&1 &
        servers+=($!)
        for _ in $(seq 100); do
            is_mounted && break
            sleep 0.05
        done
        is_mounted || return
        if [ "$round" = make ]; then
            timeout 20 sh -c "mkdir -m 700 '$mnt/folder' && echo kept > '$mnt/folder/kept'"
        else
            timeout 20 "$work/recorder/fuse-tree" "$mnt" > "$work/image.tree"
        fi || return
        stop || return
    done
    grep -q "^f 644 folder/kept 6b6570740a$" "$work/image.tree"
}
if command -v fuse2fs > /dev/null && command -v mkfs.ext4 > /dev/null; then
    work_on_image() {
        timeout 20 sh -c "cd '$mnt' && cat folder/kept && echo more >> folder/kept && mv folder other && mkdir folder" > "$work/seen"
    }
    if check "image: the tree text of a mount" image_tree &&
        check "image: mounts" record --refuse FALLOCATE -- fuse2fs -f -o fakeroot "$work/image" "$mnt"; then
        check "image: serves what was there" work_on_image
        check "image: is unmounted" stop
        cp "$work/image.tree" "$capture.tree"
        check "image: is legal" judged "fuse2fs with the tree of a mount before" "legal: [1-9]* messages, *"
    fi
else
    echo "recorder: skipped: a server with an image: fuse2fs is not installed"
fi

# The tests' own server, by the library and by its system calls: by read and writev, and by splice both ways.
# A server that fails and leaves a process behind has ended, and is not in the background.
failing() {
    status=0
    timeout 20 "${under[@]}" "$work/recorder/fuse-record" --force -o "$capture" "${how[@]}" -- sh -c "sleep 0.5 & exit 3" 2> "$work/errors" || status=$?
}
# Servers that go into the background: fuse-record ends when the first message is there, and tells the rest when they end.
in_background() {
    rm -f "$work"/a.cap*
    status=0
    timeout 20 "${under[@]}" "$work/recorder/fuse-record" -o "$capture" "${how[@]}" -- sh -c "'$1' '$mnt' > '$work/seen' 2>&1 &" 2> "$work/errors" || status=$?
    is_mounted
}
told() {
    for _ in $(seq 100); do
        ! grep -q "^fuse-record: $capture: .* messages, .*$1" "$work/errors" || return 0
        sleep 0.05
    done
    return 1
}
# A full disk, and a limit of the file's size, end the recording and not the server.
ended() { [ "$(wc -l < "$work/errors")" -eq 2 ] && grep -q "fuse-record: .*$1: the recording ends with [0-9]* messages" "$work/errors"; }
# A server of which the recording may write so much to a file. Its standard error is descriptor 5.
limited() {
    rm -f "$work"/a.cap*
    ( ulimit -f 100; trap - EXIT; exec "${under[@]}" "$work/recorder/fuse-record" -o "$capture" "${how[@]}" -- "$work/memory" "$mnt" 2>&5 ) &
    servers+=($!)
    for _ in $(seq 100); do
        is_mounted && return 0
        sleep 0.05
    done
    return 1
}
# A second server of the same recording does not touch what the first one left: again CAUSE.
started_again() {
    check "again: mounts" record -- sh -c "'$work/memory' '$mnt'; exec '$work/memory' '$mnt'"
    check "again: serves" work_in_mount
    timeout 20 umount "$mnt"
    for _ in $(seq 100); do
        is_mounted && break
        sleep 0.05
    done
    timeout 20 ls "$mnt" > "$work/seen"
    check "again: is unmounted" stop
    check "again: is told once" ended "$1"
    check "again: is legal" is_legal "memory, started again"
}

# The time of the clock that the recorder takes, in nanoseconds.
monotonic() { python3 -c "import time; print(time.clock_gettime_ns(time.CLOCK_MONOTONIC))"; }
# The times of the capture rise from one between these two: has_times FIRST LAST.
has_times() {
    python3 - "$capture" "$1" "$2" << 'END'
import struct, sys
record, at, times = open(sys.argv[1], "rb").read(), 8, []
while at < len(record):
    direction, time, length = struct.unpack_from("<BQI", record, at)
    times.append(time)
    at += 13 + length
sys.exit(not (record[:8] == b"FUSECAP2" and len(times) >= 4 and times == sorted(times) and times[0] < times[-1]
    and int(sys.argv[2]) <= times[0] and times[-1] <= int(sys.argv[3])))
END
}
has_no_times() { [ "$(head -c 8 "$capture")" = FUSECAP1 ] && "$program" show --capture "$capture" > "$work/seen" && ! grep -q " ms$" "$work/seen"; }
# A file of 300 GiB with bytes at both ends, cut and made longer again.
work_on_sparse() {
    timeout 20 bash -ec 'cd "$0"; size=$((300 << 30))
        ends_in() { tail -c 4 file | od -A n -t x1 | grep -qx " $1"; }
        truncate -s $size file
        printf begin | dd of=file conv=notrunc status=none
        printf last | dd of=file bs=4 seek=$(((size - 4) / 4)) conv=notrunc status=none
        [ "$(stat -c %s file)" -eq $size ]
        [ "$(head -c 5 file)" = begin ]; ends_in "6c 61 73 74"
        truncate -s $((size - 2)) file; ends_in "00 00 6c 61"
        truncate -s $size file; ends_in "6c 61 00 00"
        truncate -s $((size / 2)) file; ends_in "00 00 00 00"
        truncate -s 3 file; [ "$(cat file)" = beg ]
        truncate -s $size file; ends_in "00 00 00 00"
        [ "$(head -c 5 file | od -A n -t x1)" = " 62 65 67 00 00" ]
        echo more >> file; [ "$(tail -c 5 file)" = more ]' "$mnt"
}
of_own_server() {
    own memory --
    whole_session memory
    check "memory: the order that is proposed is legal" [ "$(verdict_by propose)" = "$(verdict)" ]
    check "memory: and the one that is found" [ "$(verdict_by search)" = "$(verdict)" ]
    own "memory, names exchanged" --
    renaming_session "memory, names exchanged"
    check "memory, splicing: mounts" record -- "$work/memory-splicing" "$mnt" && whole_session "memory, splicing"
    own copied --
    copying_session "memory, copied to"

    # The time of each message, by the clock of before and behind; and a capture without times.
    before="$(monotonic)"
    own timed --
    timeout 20 ls "$mnt" > "$work/seen"
    check "timed: is unmounted" stop
    check "timed: each message, and none before another" has_times "$before" "$(monotonic)"
    own plain --plain --
    whole_session "memory, plain"
    check "plain: has no times" [ "$(head -c 8 "$capture")" = FUSECAP1 ]
    check "plain: and none are printed" has_no_times

    # A file of which the first and the last bytes are written alone.
    own sparse --
    check "sparse: serves" work_on_sparse
    check "sparse: is unmounted" stop
    check "sparse: ends well" ends 0 "$unanswered\$"
    check "sparse: is legal" is_legal "memory, a file of 300 GiB"

    # A server that ends in the middle of its work.
    own killed -- --die-after 200
    ! work_in_mount 2> /dev/null
    stop
    check "killed: is told" ends 125 "[1-9]$unanswered: the server was ended by signal 9 (Killed) with requests unanswered\$"
    check "killed: the request is told" logged "message [0-9]*: [A-Z0-9]* of node .*: never answered" 1
    check "killed: is legal" is_legal "memory, killed"

    # A crash in an operation that is not judged: the verdict is legal, with nothing left out, so the end has to tell it.
    own crashed -- --die-at 20
    timeout 20 sh -c "echo text > '$mnt/name'; sync '$mnt/name'" 2> /dev/null
    stop
    check "crashed: is told" ends 125 "1 requests were never answered, 1 of them of .*: the server was ended by signal 9 (Killed) with requests un"
    check "crashed: in FSYNC" logged "message [0-9]*: FSYNC of node .*, unique .*: never answered" 1
    check "crashed: is legal" judged "memory, killed in FSYNC" "legal: [1-9]* messages, *, 0 left out"

    # A server that fails and leaves a process behind.
    failing
    check "failing: is told" ends 125 "$unanswered: no message was seen, and the server ended with status 3"

    # A server that goes into the background.
    check "background: mounts" in_background "$work/memory"
    check "background: fuse-record ends" [ "$status" -eq 0 ]
    check "background: serves" work_in_mount
    check "background: has told nothing" [ ! -s "$work/errors" ]
    timeout 20 umount "$mnt"
    check "background: is told at the end" told "$unanswered\$"
    check "background: is legal" is_legal "memory, in the background"
    # A planted bug: a name that is there is denied.
    own denied -- --deny name
    timeout 20 sh -c "echo text > '$mnt/name'; cat '$mnt/name' '$mnt/name'" > "$work/seen" 2> /dev/null
    stop
    denied="$("$program" show --capture "$capture" --name name | awk '
        / > unique [0-9]* CREATE / { made = 1 } made && / < unique [0-9]* ENOENT, answers [0-9]* \(LOOKUP / { print $1; exit }')"
    check "denied: has no order at that answer" judged "memory with a denied name" "no order: message $denied: code 82: *"

    # What the kernel refuses is taken out of the capture, unless it is to be kept.
    own twice -- --answer-twice name
    timeout 20 ls "$mnt/name" 2> /dev/null
    stop
    check "twice: the second answer is told" logged "refused it (No such file or directory): an answer to LOOKUP of node 1, .*: it was answered before; it"
    check "twice: and no part of the capture" judged "memory that answers twice" "legal: 1* messages, *"
    own forgetful -- --answer-forget
    timeout 20 sh -c "echo text > '$mnt/name'; rm '$mnt/name'"
    stop
    check "forgetful: the answer is told" logged "refused it (No such file or directory): an answer to FORGET of node .*: this operation is to have no"
    check "forgetful: and no part of the capture" judged "memory that answers FORGET" "legal: [1-9]* messages, *"
    own kept --keep-refused -- --answer-twice name
    timeout 20 ls "$mnt/name" 2> /dev/null
    stop
    check "kept: it is a fault" judged "memory that answers twice, with what was refused" "fault: message *: code 31: *"

    # A reply of which it refuses the body alone has ended its request, and stays.
    own short -- --answer-short name
    timeout 20 sh -c "echo text > '$mnt/name'; cat '$mnt/name'" 2> "$work/seen"
    stop
    check "short: its request ended" grep -q "Input/output error" "$work/seen"
    check "short: it is a fault" judged "memory that answers short" "fault: message *: code 16: *"

    # INIT as it is.
    own init --keep-init --
    timeout 20 ls "$mnt" > /dev/null
    stop
    check "init: the kernel's own" judged "memory with the kernel's INIT" "fault: message 1: code 24: *"

    # A full disk, and a limit of the file's size.
    mkdir -p "$work/small"
    check "full: a small disk" mount -t tmpfs -o size=128k none "$work/small"
    capture="$work/small/a.cap"
    own full --
    check "full: serves on" work_in_mount
    check "full: is unmounted" stop
    check "full: is told once" ended "No space left on device"
    check "full: is legal" is_legal "memory, on a full disk"
    umount "$work/small"
    capture="$work/a.cap"
    # Standard error is a file, and then a pipe that nobody reads.
    exec 5> "$work/errors"
    check "limited: mounts" limited
    check "limited: serves on" work_in_mount
    check "limited: is unmounted" stop
    check "limited: is told once" ended "File too large"
    check "limited: is legal" is_legal "memory, with a limit of the file's size"
    exec 5> >(true)
    check "unread: mounts" limited
    check "unread: serves on" work_in_mount
    check "unread: is unmounted" stop
    exec 5>&-
    check "unread: is legal" is_legal "memory, with standard error to nobody"
}
of_own_server
started_again "another process has written to it"

# A file that takes most of a capture: its bytes are written to the server, and read from it.
large_file() {
    head -c 100000000 /dev/urandom > "$work/large" && timeout 60 cp "$work/large" "$mnt/large" && timeout 60 cmp "$work/large" "$mnt/large"
}
own large --
check "large: is copied in and read back" large_file
check "large: is unmounted" stop
check "large: ends well" ends 0 "$unanswered\$"
check "large: its bytes are there twice" [ "$(stat -c %s "$capture")" -gt 200000000 ]
check "large: is legal" is_legal "memory, a file of 100 MB"
rm -f "$work/large"
check "memory, linked statically: mounts" record -- "$work/memory-static" "$mnt" && whole_session "memory, linked statically"
check "memory, linked statically: records itself" [ "$(grep -c "system calls are stopped" "$capture.log")" -eq 0 ]

# A server that a sanitizer watches, whose library the user preloads.
if [ ${#sanitizer[@]} -gt 0 ]; then
    echo "recorder: skipped: a server with AddressSanitizer, which is not for use beside another"
elif "${CC:-cc}" "${flags[@]}" -fsanitize=address -o "$work/memory-watched" "$here/tests/memory.c" 2> "$work/errors"; then
    under=(env "LD_PRELOAD=$("${CC:-cc}" -print-file-name=libasan.so)")
    check "memory, with AddressSanitizer: mounts" record -- "$work/memory-watched" "$mnt" && whole_session "memory, with AddressSanitizer"
    under=(env)
else
    echo "recorder: skipped: a server with AddressSanitizer: $(tail -n 1 "$work/errors")"
fi

# A server of which nothing is recorded: one that makes its system calls itself.
check "the server without the recorder compiles" "${CC:-cc}" "${plain[@]}" -static -o "$work/memory-unseen" "$here/tests/memory.c"
check "unseen: mounts" record --preload -- "$work/memory-unseen" "$mnt"
check "unseen: serves" timeout 20 ls "$mnt"
check "unseen: is unmounted" stop
check "unseen: is told" ends 125 "$unanswered: no message was seen, and the server ended with status 0\$"
how=(--preload)
check "background, unseen: mounts" in_background "$work/memory-unseen"
how=()
check "background, unseen: fuse-record ends with its own status" [ "$status" -eq 125 ]
check "background, unseen: says so" grep -q "no message was seen in the 5 seconds since" "$work/errors"
timeout 20 umount "$mnt"
check "background, unseen: is told at the end" told "$unanswered: no message was seen, and the server ended with status 0\$"

# No capture is lost: it is held while it is recorded, and stays whole where the next recording is refused or does not begin.
own first --
timeout 20 sh -c "echo text > '$mnt/name'"
check "held: by the recorder that runs" refuses 1 "a.cap: a recorder that runs holds it" --force -o "$capture" -- "$work/memory" "$mnt"
check "held: is unmounted" stop
echo "of the first" > "$capture.tree"
sums() { (cd "$work" && cksum a.cap*); }
before="$(sums)"
is_as_before() { [ "$(sums)" = "$before" ]; }
check "there: is refused" refuses 1 "a.cap: is there already" -o "$capture" -- "$work/memory" "$mnt"
check "there: with a server that is not there" refuses 127 "No such file" --force -o "$capture" -- "$work/none"
check "there: with a folder that is not there" refuses 1 "no tree text of" --force --lower "$work/none" -o "$capture" -- true
check "there: is whole" is_as_before
mv "$capture" "$work/b"
check "there: so is a log alone" refuses 1 "a.cap.log: is there already" -o "$capture" -- "$work/memory" "$mnt"
mv "$work/b" "$capture"
check "forced: mounts" record_on --force -- "$work/memory" "$mnt"
whole_session "memory, forced"
check "forced: no tree text of the first is left" [ "$(cd "$work" && echo a.cap*)" = "a.cap a.cap.log" ]
# Nor does it stand where the recording would change it.
mkdir -p "$mnt/deep" "$lower/deep"
check "below: the mount" refuses 1 "is below $mnt, which is taken for the mount" -o "$mnt/deep/a.cap" -- "$work/memory" "$mnt"
check "below: the folder" refuses 1 "is in the folder of --lower" --lower "$lower" -o "$lower/deep/a.cap" -- "$work/memory" "$mnt"
check "below: nothing is left there" [ -z "$(ls "$mnt/deep" "$lower/deep" | grep cap)" ]
rmdir "$mnt/deep"
# An empty recording is no loss.
check "empty: is told" refuses 125 "no message was seen" --force -o "$capture" -- true
echo 1234567 > "$work/b"
check "empty: another file of its length does not" refuses 1 "b: is there already" -o "$work/b" -- true
check "empty: gives way" refuses 125 "no message was seen" -o "$capture" --plain -- true
check "empty: so does one without times" refuses 125 "no message was seen" -o "$capture" -- true

# A signal that fuse-record gets is the server's.
own signalled --
kill -TERM "${servers[-1]}"
check "signalled: ends" ended_server
check "signalled: as the server ends" ends 0 "$unanswered\$"
! is_mounted || timeout 20 umount -l "$mnt"

# Streams that are watched while they are recorded, beside a capture that is kept and in its place. From a server of four threads, of
# which the kernel refuses many an answer, each message comes once and as it stands in the capture.
look_often() { timeout 60 bash -c 'for i in {1..1000}; do [ ! -e "$0/name" ] || exit; done' "$mnt"; }
work_and_look() {
    look_often &
    local looks=$!
    work_in_mount && wait "$looks"
}
# What of the capture has no name takes so many blocks of 512 bytes at most.
takes_blocks() {
    local watcher file
    watcher="$(ps -o pid= --ppid "${servers[-1]}" | head -n 1)"
    for _ in $(seq 100); do
        for file in "/proc/${watcher// /}"/fd/*; do
            [[ "$(readlink "$file")" != /memfd:* && "$(readlink "$file")" == *" (deleted)" ]] && [ "$(stat -L -c %b "$file")" -lt "$1" ] && return
        done
        sleep 0.05
    done
    return 1
}
streams() {
    fifo_watched
    own live --live "$live" -- --threads 4 --answer-twice name
    check "live: serves" work_and_look
    check "live: is unmounted" stop
    check "live: ends well" ends 0 "$unanswered\$"
    check "live: some were refused" logged "it was answered before; it stands as a notification"
    check "live: is good, with all messages" has_watched_all
    check "live: is the capture" cmp "$capture" "$work/copy"

    capture="$live"
    fifo_watched
    own fifo --
    check "fifo: serves" work_in_mount
    check "fifo: what was read takes no room" takes_blocks 8192
    check "fifo: is unmounted" stop
    check "fifo: ends well" ends 0 "$unanswered\$"
    check "fifo: is good, with all messages" has_watched_all
    check "fifo: nothing else is made" [ "$(cd "$work" && echo live*)" = "live live.log" ]
    capture="$work/a.cap"
    cp "$work/copy" "$capture"
    check "fifo: is legal" is_legal "memory, read from a FIFO"

    # A server that is killed: the line is that of a capture, and the stream has all that was recorded.
    capture="$live"
    fifo_watched
    own "fifo, killed" -- --die-after 200
    ! work_in_mount 2> /dev/null
    stop
    check "fifo, killed: is told" ends 125 "[1-9]$unanswered: the server was ended by signal 9 (Killed) with requests unanswered\$"
    check "fifo, killed: is good, with all messages" has_watched_all

    # A fault is told while the server runs. The watch then reads no more, and the mount goes on.
    fifo_watched_alone
    own told --keep-refused -- --answer-twice name
    timeout 20 sh -c "echo text > '$mnt/name'; cat '$mnt/name'" > "$work/seen" 2>&1
    check "told: the fault, while the server runs" has_watched "fault: message [0-9]*: code 31: .*"
    check "told: serves on" work_in_mount
    check "told: that the reader went away" grep -q "^fuse-record: $live: its reader went away: the stream ends with [0-9]* messages\$" "$work/errors"
    check "told: is unmounted" stop
    check "told: ends so" ends 125 "$unanswered: the stream ended with [0-9]* messages\$"
    capture="$work/a.cap"
    fifo_watched_alone
    own "told, kept" --keep-refused --live "$live" -- --answer-twice name
    timeout 20 sh -c "echo text > '$mnt/name'; cat '$mnt/name'" > "$work/seen" 2>&1
    check "told, kept: the fault, while the server runs" has_watched "fault: message [0-9]*: code 31: .*"
    check "told, kept: serves on" work_in_mount
    check "told, kept: is unmounted" stop
    check "told, kept: that the reader went away" logged "live: its reader went away: the stream ends with [0-9]* messages" 1
    check "told, kept: ends as without it" ends 0 "$unanswered\$"
    check "told, kept: the capture is whole" judged "memory that answers twice, watched" "$(cat "$work/watched")"

    # A reader that reads nothing holds neither the server up nor its end, and then has all; or a signal comes first.
    fifo_unread
    own unread --live "$live" --
    check "unread: serves" work_in_mount
    timeout 20 umount "$mnt"
    sleep 0.5
    check "unread: the reader is waited for" kill -0 "${servers[-1]}"
    check "unread: is read" read_on
    check "unread: ends" ended_server
    check "unread: ends well" ends 0 "$unanswered\$"
    check "unread: is the capture" cmp "$capture" "$work/copy"
    capture="$live"
    fifo_unread
    own "given up" --
    check "given up: serves" work_in_mount
    timeout 20 umount "$mnt"
    sleep 0.5
    kill -TERM "${servers[-1]}"
    check "given up: ends" ended_server
    check "given up: ends so" ends 125 "$unanswered: the stream ended with [0-9]* messages\$"
    check "given up: is told" logged "live: a signal came before its reader took all: the stream ends with [0-9]* messages" 1
    check "given up: what was written is read" read_on
    capture="$work/a.cap"

    # A server in the background, and standard output, which then has nothing but the capture.
    fifo_watched
    how+=(--live "$live")
    check "live, in the background: mounts" in_background "$work/memory"
    unset 'how[-1]' 'how[-1]'
    check "live, in the background: serves" work_in_mount
    timeout 20 umount "$mnt"
    check "live, in the background: is told at the end" told "$unanswered\$"
    check "live, in the background: is good, with all messages" has_watched_all
    rm -f "$work"/a.cap*
    "${under[@]}" "$work/recorder/fuse-record" -o "$capture" "${how[@]}" --live - -- sh -c "echo words; exec '$work/memory' '$mnt'" \
        2> "$work/errors" | "$program" watch --capture - > "$work/watched" &
    reader=$!
    for _ in $(seq 100); do
        is_mounted && break
        sleep 0.05
    done
    check "output: serves" work_in_mount
    timeout 20 umount "$mnt"
    check "output: is told at the end" told "$unanswered\$"
    check "output: is good, with all messages" has_watched_all
    check "output: has none of the server's words" grep -q "^words\$" "$work/errors"
}
streams

# Servers that are tried: what is told, by which status it ends, and that nothing is left of it.
trying() {
    status=0
    TMPDIR="$work" timeout 60 "$work/recorder/fuse-try" --audit "$program" "$@" > "$work/seen" 2> "$work/errors" || status=$?
}
tries() { [ "$status" -eq "$1" ] && grep -q -- "$2" "$work/seen"; }
leaves_nothing() { ! grep -qs " $work/fuse-try" /proc/self/mounts && [ -z "$(ls "$work" | grep fuse-try)" ]; }
tried_checks() {
    trying --script "$work/none" -- "$work/memory"
    check "tried: no script is a fault of the command line" [ "$status" -eq 4 ]
    trying --rounds 1 --calls 200 -- "$work/memory"
    check "tried: is legal" tries 0 "^seed 1: [0-9]* calls, [0-9]* messages, [0-9]* in flight: legal: "
    trying --rounds 20 --calls 200 --keep "$work/kept" --shrink 5 -- "$work/memory" --bug lost-mode
    check "tried, a bug: is found" tries 6 ": no order: message [0-9]*: code 83: attributes$"
    check "tried, a bug: the shortest capture shows it" grep -q "^no order: message [0-9]*: code 83: attributes$" "$work/kept/verdict"
    check "tried, a bug: is explained" grep -q " bits: answered 0" "$work/kept/why"
    check "tried, a bug: has a page" grep -q '^<h1 class="fault">no order: message [0-9]*: code 83: attributes</h1>$' "$work/kept/report.html"
    check "tried, a bug: has few messages" [ "$("$program" show --capture "$work/kept/shortest.cap" | wc -l)" -lt 60 ]
    trying --rounds 5 --script "$work/kept/script" -- "$work/memory" --bug lost-mode
    check "tried, a bug: its script shows it" tries 6 "^script: .*: no order: .*code 83: attributes$"
    mkdir "$work/plain"
    trying --script "$work/kept/script" --in "$work/plain"
    check "tried, a bug: its script's calls are told" tries 0 "^0 [a-z]* .*: ok$"
    trying --rounds 5 --script "$work/kept/script" -- "$work/memory"
    check "tried, a bug: and nothing without it" tries 0 "^script: .*: legal: "
    trying --rounds 5 --seconds 40 -- "$work/memory" --threads 4
    check "tried, threads: are legal" tries 0 "^seed 5: .*: legal: "
    trying --rounds 1 -- "$work/memory" --bug answered-twice
    check "tried, a fault: is found" tries 1 "fault: message [0-9]*: code 31: "
    # An auditor that ends as it is told, by a line and a status.
    printf '%s\n' '#!/bin/sh' "echo 'gave up: message 9'" "exit 7" > "$work/gives-up"
    printf '%s\n' '#!/bin/sh' "echo 'audit failed: memory' >&2" "exit 5" > "$work/fails"
    chmod +x "$work/gives-up" "$work/fails"
    trying --audit "$work/gives-up" --rounds 2 --calls 50 --keep "$work/given" -- "$work/memory"
    check "tried, given up: is no finding" tries 7 "^seed 2: .*: gave up: message 9$"
    check "tried, given up: one client finds none" [ "$(wc -l < "$work/seen")" -eq 2 ]
    check "tried, given up: the capture is kept" [ "$(ls "$work/given")" = gave-up.cap ]
    trying --audit "$work/fails" --rounds 2 --calls 50 -- "$work/memory"
    check "tried, no verdict: is told" tries 125 "not tried: fails judge ended with status 5: audit failed: memory$"
    trying -- "$work/memory" --die-after 100
    check "tried, killed: is told" tries 125 "not tried: the server was ended by signal 9 (Killed) with requests unanswered"
    trying --patience 1 -- "$work/memory" --hang-after 100
    check "tried, hanging: is told" tries 125 "not tried: requests were never answered: no client got on for 1 seconds"
    trying -- false
    check "tried, no mount: is told" tries 125 "not tried: no mount: "
    trying -- "$work/no-server"
    check "tried, no server: is told" tries 125 "not tried: no mount: $work/no-server: No such file or directory$"
    if compile_example "$work/hello" "$examples/hello_ll.c"; then
        trying --rounds 2 --calls 100 -- "$work/hello" -f
        check "tried, with files of its own: is legal" tries 0 "^seed 2: .*: legal: "
        check "tried, with files of its own: is told" grep -q "^fuse-try: the server begins with files of its own" "$work/errors"
    fi
    trying --rounds 2 --calls 100 --mounted -- "$work/memory"
    check "tried, from a mount: is legal" tries 0 "^seed 2: .*: legal: "
    trying --mounted --lower -- "$work/memory"
    check "tried, from a mount and a folder: is no call" [ "$status" -eq 4 ]
    check "tried: nothing is left" leaves_nothing
    TMPDIR="$work" "$work/recorder/fuse-try" --audit "$program" --seconds 60 -- "$work/memory" > "$work/seen" 2> "$work/errors" &
    servers+=($!)
    for _ in $(seq 100); do
        ! grep -qs " $work/fuse-try" /proc/self/mounts || break
        sleep 0.05
    done
    kill -TERM "${servers[-1]}"
    check "tried, by a signal: ends" ended_server
    check "tried, by a signal: is told" [ "$status" -eq 143 ]
    check "tried, by a signal: nothing is left" leaves_nothing
}

# The example for a server's own repository: its status, its last line, and that nothing is left mounted.
in_ci() {
    status=0
    (cd "$work" && FA_AUDIT="${auditor:-$program}" KIGZELT="$work" timeout 60 "$here/../examples/ci/record-and-judge.sh" "$@") \
        > "$work/seen" 2> "$work/errors" || status=$?
}
says() { [ "$status" -eq "$1" ] && tail -n 1 "$work/seen" | grep -q -- "$2" && ! is_mounted; }
calls="$here/../examples/ci/calls.sh"
ci_checks() {
    in_ci "$mnt" "$calls" -- "$work/memory" "$mnt"
    check "in ci: is legal" says 0 "^legal: "
    in_ci "$mnt" "$calls" -- "$work/memory" --bug link-count "$mnt"
    check "in ci, a bug: has no order" says 6 "^the first [0-9]* messages alone have no order$"
    check "in ci, a bug: at an answer" grep -q "^no order: message [0-9]*: code 83: attributes$" "$work/seen"
    in_ci "$mnt" "$calls" -- "$work/memory" --answer-short name "$mnt"
    check "in ci, a fault: is told" says 1 "^fault: message [0-9]*: code 16: "
    in_ci "$mnt" "$calls" -- "$work/memory" --die-after 100 "$mnt"
    check "in ci, killed: is told" says 125 "^legal: "
    in_ci --seconds 1 "$mnt" "$calls" -- "$work/memory" --hang-after 100 "$mnt"
    check "in ci, hanging: is told" says 125 "^legal: "
    in_ci "$mnt" false -- "$work/memory" "$mnt"
    check "in ci, a suite that fails: is told" says 8 "^legal: "
    in_ci "$mnt" true -- false
    check "in ci, no mount: is told" [ "$status" -eq 125 ]
    in_ci "$mnt" true
    check "in ci, no server: is a fault of the command line" [ "$status" -eq 4 ]
    auditor="$work/gives-up"
    in_ci "$mnt" true -- "$work/memory" "$mnt"
    check "in ci, given up: passes" says 0 "^gave up: message 9$"
    in_ci --strict "$mnt" true -- "$work/memory" "$mnt"
    check "in ci, given up: does not where it is not to" says 7 "^gave up: message 9$"
    auditor="$work/fails"
    in_ci "$mnt" true -- "$work/memory" "$mnt"
    check "in ci, no verdict: is told" [ "$status" -eq 5 ]
    auditor=''
    if command -v bindfs > /dev/null; then
        fill_plain
        in_ci --lower "$lower" "$mnt" "$calls" -- bindfs -f --no-allow-other \
            -o hard_remove,attr_timeout=0,entry_timeout=0 "$lower" "$mnt"
        check "in ci, bindfs: is legal" says 0 "^legal: "
    fi
}
if [ ${#sanitizer[@]} -gt 0 ]; then
    echo "recorder: skipped: servers that are tried, by a recorder with ThreadSanitizer"
else
    tried_checks
    ci_checks
fi

# By their system calls, where these may be stopped.
how=(--trace)
by=", traced"
permitted() {
    status=0
    "$work/recorder/fuse-record" --force -o "$capture" --trace -- true 2> "$work/errors" || status=$?
    [ "$status" -ne 126 ] || ! grep -q "not permitted\|not implemented" "$work/errors"
}
traced_checks() {
    check "a call that traces nothing ends" [ "$status" -eq 125 ]
    sessions_of_others
    of_own_server
    started_again "a second mount begins"
    streams
    check "a server that is not there" refuses 127 "No such file" --trace --force -o "$capture" -- "$work/none"

    # Without a filter all system calls are stopped.
    check "what takes system calls away compiles" "${CC:-cc}" "${plain[@]}" -o "$work/without" "$here/tests/without.c" || return
    under=("$work/without" seccomp)
    own "memory, without a filter" --
    whole_session "memory, without a filter"
    under=("$work/without" ptrace)
    rm -f "$work"/a.cap*
    check "not permitted: is told" refuses 126 "calls of true can't be traced: ptrace: Operation not permitted" --trace -o "$capture" -- true
    check "not permitted: leaves nothing" [ -z "$(ls "$work" | grep a.cap)" ]
    under=(env)

    # It is chosen by itself, and told.
    how=()
    check "memory, static: mounts" record -- "$work/memory-unseen" "$mnt" && whole_session "memory, static"
    check "memory, static: is told" logged "is linked statically: its system calls are stopped" 1
    # So is a server with a header of before, which wrote no times.
    echo '__attribute__((used, section("fuse_record"))) static const char mark[] = "fuse_record";' > "$work/mark.c"
    check "the server with an older header compiles" "${CC:-cc}" -O2 -o "$work/memory-older" "$here/tests/memory.c" "$work/mark.c" &&
        check "memory, older: mounts" record -- "$work/memory-older" "$mnt" && whole_session "memory, older"
    check "memory, older: is told" logged "has an older recorder in itself, which writes no times: its system calls are stopped" 1
    # And one with a header that tells nothing of what is held back, where that is needed.
    echo '__attribute__((used, section("fuse_record_timed"))) static const char mark[] = "fuse_record_timed";' > "$work/mark.c"
    fifo_watched
    check "the server with a header without streams compiles" "${CC:-cc}" -O2 -o "$work/memory-older" "$here/tests/memory.c" "$work/mark.c" &&
        check "memory, without streams: mounts" record --live "$live" -- "$work/memory-older" "$mnt" && whole_session "memory, without streams"
    check "memory, without streams: is told" logged "has an older recorder in itself, which holds nothing back from a stream: its" 1
    check "memory, without streams: is good, with all messages" has_watched_all
    servers_in_go
}
servers_in_go() {
    if command -v gocryptfs > /dev/null; then
        mkdir -m 755 "$work/secret"
        echo words > "$work/password"
        check "gocryptfs: makes its folder" gocryptfs -q -init -scryptn 10 -passfile "$work/password" "$work/secret"
        check "gocryptfs: mounts" record "${refused[@]}" -- "${gocryptfs_words[@]}" && {
            check "gocryptfs: serves" work_without_links
            check "gocryptfs: is unmounted" stop
            check "gocryptfs: ends well" ends 0 "$unanswered\$"
            check "gocryptfs: is legal" is_legal gocryptfs
            check "gocryptfs: has no name of go-fuse's own" [ "$(names_of_go_fuse)" -eq 0 ]
            check "gocryptfs: which is told" logged "^LOOKUP of node 1, unique 4: left out, since it is for go-fuse's own file" 1
        }
        check "gocryptfs: is told" logged "gocryptfs was made by Go, .*: its system calls are stopped" 1
        check "gocryptfs, with all: mounts" record --keep-own "${refused[@]}" -- "${gocryptfs_words[@]}" && {
            check "gocryptfs, with all: serves" work_without_links
            check "gocryptfs, with all: is unmounted" stop
            # All messages keep the protocol. The first name that is looked up is one that no tree has.
            check "gocryptfs, with all: has no order" judged "gocryptfs, with all" "no order: message 3: code 81: *"
            check "gocryptfs, with all: at go-fuse's own name" [ "$(names_of_go_fuse)" -eq 1 ]
        }
        # What it tells of a file that got a second name is the size of the encrypted one.
        check "gocryptfs, LINK: mounts" record "${refused[@]}" -- "${gocryptfs_words[@]}" && {
            check "gocryptfs, LINK: serves" timeout 20 sh -ec "cd '$mnt'; echo text > text; ln text linked"
            check "gocryptfs, LINK: is unmounted" stop
            check "gocryptfs, LINK: has no order there" judged "gocryptfs, LINK" "no order: message $(first_link): code 83: *"
        }
    else
        echo "recorder: skipped: gocryptfs is not installed"
    fi
    if command -v rclone > /dev/null; then
        fill_plain
        check "rclone: mounts" record --lower "$lower" -- "${rclone_words[@]}" "$lower" "$mnt" && plain_session rclone
        fill_plain
        rm -f "$work"/a.cap*
        status=0
        timeout 60 "$work/recorder/fuse-record" -o "$capture" --lower "$lower" -- "${rclone_words[@]}" --daemon "$lower" "$mnt" \
            > "$work/seen" 2> "$work/errors" || status=$?
        check "rclone, in the background: fuse-record ends" [ "$status" -eq 0 ] &&
            check "rclone, in the background: mounts" is_mounted &&
            check "rclone, in the background: serves" work_plainly
        timeout 20 umount "$mnt"
        check "rclone, in the background: is told at the end" told "$unanswered\$"
        check "rclone, in the background: is legal" is_legal "rclone, in the background"
    else
        echo "recorder: skipped: rclone is not installed"
    fi
}
refused=(--refuse "FALLOCATE,COPY_FILE_RANGE,IOCTL")
gocryptfs_words=(gocryptfs -fg -nosyslog -sharedstorage -passfile "$work/password" "$work/secret" "$mnt")
names_of_go_fuse() { "$program" show --capture "$capture" --operation LOOKUP --name .go-fuse-epoll-hack | grep -c " > "; }
# The answer to the first LINK.
first_link() {
    "$program" show --capture "$capture" --operation LINK | awk '$2 == ">" && !asked { asked = $4 } $2 == "<" && $4 == asked { print $1; exit }'
}
work_without_links() {
    is_mounted && timeout 60 sh -ec "cd '$mnt'; rm -rf *
        for i in 1 2 3 4; do mkdir new\$i; echo \$i > new\$i/file; echo more >> new\$i/file; ln -s file new\$i/symbolic; done
        [ \"\$(cat new1/symbolic new2/file new3/file | wc -l)\" -eq 6 ]
        mv new1/file moved; rm new1/symbolic; rmdir new1; mv moved new2/file; rm -r new3; truncate -s 3 new2/file
        [ ! -e moved ]
        [ \"\$(cat new2/file)\" = \"\$(printf '1\nm')\" ]
        ls -lR > '$work/seen'"
}
# rclone has one mode for all files, and one for all folders, and neither links nor pipes.
rclone_words=(rclone mount --config /dev/null --vfs-cache-mode writes --cache-dir "$work/cache" --file-perms 0644 --dir-perms 0755)
work_plainly() {
    is_mounted && timeout 60 sh -ec "umask 022; cd '$mnt'
        [ \"\$(cat old/deep/file)\" = here ]
        for i in 1 2 3 4 5 6 7 8; do mkdir new\$i; echo \$i > new\$i/file; echo more >> new\$i/file; done
        mv new1/file old/moved; rmdir new1; rm new3/file; rmdir new3
        [ \"\$(cat old/moved new2/file new4/file | wc -l)\" -eq 6 ]
        [ ! -e new3 ]
        ls -lR > '$work/seen'"
}
plain_session() {
    check "$1: serves" work_plainly
    check "$1: is unmounted" stop
    check "$1: ends well" ends 0 "$unanswered\$"
    check "$1: is legal" is_legal "$1"
}
if [ ${#sanitizer[@]} -gt 0 ]; then
    echo "recorder: skipped: servers that are traced, by a process of one thread"
elif permitted; then
    traced_checks
else
    echo "recorder: skipped: servers that are traced: $(tail -n 1 "$work/errors")"
fi
how=()
by=""
finish
