#!/bin/sh
# Records a FUSE server while a test suite works in its mount, and has the capture judged.
#
# usage: record-and-judge.sh [--strict] [--steps N] [--seconds S] [--lower FOLDER] [--out FOLDER] MOUNTPOINT SUITE -- SERVER WORDS..
#
# SUITE is a program that is called with the mount point; it may take S seconds, 600. SERVER mounts there, is none that goes into the
# background, and ends when it is unmounted. --lower names the folder that it passes on. Without it the server begins with an empty root.
# --out is the folder of what is kept, 'recorded': the capture, its log and tree text, what was said, the verdict, and where one fails it
# report.html, a page that says why. What an earlier recording left there is replaced.
# FA_AUDIT is the auditor, 'fa_audit' on the path, and KIGZELT a clone of its repository, the one that this file is in.
#
# The verdict is the last line; where no order explains the replies it is the last two. The status is that of 'fa_audit judge', which is
#   0    some order explains each reply
#   1    a message breaks the protocol
#   6    no order explains the replies
#   7    its budget was spent, of N steps, 10000000: it is told, and the status is 0 without --strict
#   3, 5 the tree text is none, or a file was not read or memory refused: no verdict
# or, where that is 0
#   125  the recording is none of the whole session: a line says why
#   8    the suite failed, or did not end in its time
# or, before anything is judged
#   4    the command line is none, or there is no auditor
#   125  there was no mount
set -eu

usage() {
    sed -n 's/^# usage: /usage: /p' "$0" >&2
    exit 4
}

strict='' steps=10000000 lower='' out=recorded seconds=600
while [ $# -gt 0 ]; do
    case "$1" in
        --strict) strict=yes && shift && continue ;;
        --steps | --seconds | --lower | --out) [ $# -gt 1 ] || usage ;;
        *) break ;;
    esac
    case "$1" in
        --steps) steps="$2" ;;
        --seconds) seconds="$2" ;;
        --lower) lower="$2" ;;
        --out) out="$2" ;;
    esac
    shift 2
done
if [ $# -lt 4 ] || [ "$3" != -- ]; then usage; fi
case "$seconds" in '' | *[!0-9]*) usage ;; esac
mount="$(realpath "$1")"
suite="$2"
shift 3

kigzelt="${KIGZELT:-$(dirname "$0")/../..}"
audit="${FA_AUDIT:-fa_audit}"
if ! command -v "$audit" > /dev/null; then
    echo "there is no auditor: FA_AUDIT is $audit" >&2
    exit 4
fi
make -s -C "$kigzelt/recorder"
mkdir -p "$out"
rm -f "$out/verdict" "$out/report.html" "$out/suite.said"
capture="$out/session.cap"

is_mounted() { grep -qs " $mount fuse" /proc/self/mounts; }
is_running() { kill -0 "$1" 2> /dev/null; }

# Waits for the end of a process, so many seconds at most. Whether it has ended.
has_ended() {
    waited=0
    while is_running "$1"; do
        [ "$waited" -lt $(($2 * 5)) ] || return 1
        sleep 0.2
        waited=$((waited + 1))
    done
}

unmount() {
    if [ "$(id -u)" -eq 0 ]; then umount "$@" "$mount"; else fusermount3 -u ${1:+-z} "$mount"; fi
}

# Ends the server, whatever it does: fuse-record hands the signal on, and a server that it does not end is killed. It is below the one
# process that fuse-record has below itself.
end_server() {
    kill "$recorder" 2> /dev/null || return 0
    ! has_ended "$recorder" 5 || return 0
    watcher="$(ps -o pid= --ppid "$recorder")" || return 0
    ps -o pid= --ppid "${watcher##* }" | while read -r server; do kill -KILL "$server"; done
}

recorder=''
clean_up() {
    [ -z "$recorder" ] || end_server
    ! is_mounted || unmount -l
}
trap clean_up EXIT
trap 'exit 130' HUP INT TERM

# The words of fuse-record.
set -- -- "$@"
[ -z "$lower" ] || set -- --lower "$lower" "$@"
"$kigzelt/recorder/fuse-record" --force -o "$capture" --refuse FALLOCATE,COPY_FILE_RANGE,IOCTL "$@" > "$out/server.said" 2>&1 &
recorder=$!
waited=0
until is_mounted; do
    if ! is_running "$recorder" || [ "$waited" -ge 100 ]; then
        cat "$out/server.said" >&2
        echo "no mount at $mount" >&2
        exit 125
    fi
    sleep 0.2
    waited=$((waited + 1))
done

"$suite" "$mount" > "$out/suite.said" 2>&1 &
suite_process=$!
# What waits for the server ends with it.
if ! has_ended "$suite_process" "$seconds"; then
    echo "the suite is ended after $seconds seconds, and the server with it" >&2
    kill "$suite_process"
    end_server
fi
suite_status=0
wait "$suite_process" || suite_status=$?
unmount 2> /dev/null || unmount -l 2> /dev/null || true
has_ended "$recorder" 20 || end_server
recorder_status=0
wait "$recorder" || recorder_status=$?
recorder=''
tail -n 1 "$out/server.said"
[ "$suite_status" -eq 0 ] || { tail -n 5 "$out/suite.said" >&2; echo "the suite ended with status $suite_status" >&2; }

set -- --steps "$steps" --capture "$capture"
[ ! -e "$capture.tree" ] || set -- "$@" --tree "$capture.tree"
status=0
"$audit" judge "$@" > "$out/verdict" || status=$?
cat "$out/verdict"
case "$status" in 1 | 6 | 7) "$audit" report "$@" > "$out/report.html" || true ;; esac
if [ "$status" -eq 7 ] && [ -z "$strict" ]; then
    echo "the auditor gave up: this says nothing for the server, and nothing against it" >&2
    status=0
fi
[ "$status" -eq 0 ] || exit "$status"
[ "$recorder_status" -ne 125 ] || exit 125
[ "$suite_status" -eq 0 ] || exit 8
