#!/usr/bin/env bash
# Records servers that are installed, has each capture judged, tries those that need no other files by fuse-try, and prints a table
# of what came of it: recorder/servers.sh [PROGRAM]. It needs root and /dev/fuse, and is no part of the gate. A server that is not installed has no row.
set -uo pipefail
here="$(cd "$(dirname "$0")" && pwd)"
program="$(realpath "${1:-$here/../crates/fa_audit_program/out/fa_audit_program}")"
[ -x "$program" ] || { echo "servers.sh: $program is not built" >&2; exit 1; }
work="$(mktemp -d)"
lower="$work/lower"
mnt="$work/mnt"
capture="$work/a.cap"
examples=/usr/share/doc/libfuse3-dev/examples
# The process that serves, and that of sshd. What the server reads from its standard input.
running=
sshd=
typed=/dev/null
mkdir "$mnt"

clean_up() {
    for process in $running $sshd; do
        kill "$process" && wait "$process"
    done
    while grep -qs " $mnt " /proc/self/mounts && timeout 20 umount -l "$mnt"; do :; done
    rm -rf --one-file-system "$work"
}
trap clean_up EXIT
trap 'exit 1' HUP INT TERM

# Waits until the mount is there, as long as the server runs. (cryfs makes a key of the password for 20 seconds.)
mounted() {
    for _ in $(seq 800); do
        ! grep -qs " $mnt " /proc/self/mounts || return 0
        kill -0 "$running" 2> /dev/null || return 1
        sleep 0.05
    done
    return 1
}

# Ends the server by an unmount. Without a mount it is told to end.
unmounted() {
    timeout 20 umount "$mnt" 2> /dev/null || timeout 20 umount -l "$mnt" 2> /dev/null || kill "$running" 2> /dev/null
    local status=0
    wait "$running" || status=$?
    running=
    return "$status"
}

fill() {
    rm -rf "$lower" "$work/other" "$work/cache" "$work/tree" "$work"/image*
    typed=/dev/null
    (umask 022 && mkdir -p "$lower/old/deep" "$work/other" "$work/cache" && echo here > "$lower/old/deep/file")
}

# The work of tests/work.sh, some work with files and folders alone, or reading alone.
everything() { timeout 120 "$here/tests/work.sh" "$mnt"; }
plainly() {
    timeout 60 sh -ec "umask 022; cd '$mnt'
        for i in 1 2 3 4; do mkdir new\$i; echo \$i > new\$i/file; echo more >> new\$i/file; cat new\$i/file; done
        mv new1/file moved; rmdir new1; rm new2/file; rmdir new2; ls -lR"
}
reading() { timeout 60 sh -ec "cd '$mnt'; ls -lR; cat old/deep/file; [ ! -e none ]"; }

# The tree text of a server's mount, which is made without the recorder: own_tree SERVER WORDS..
own_tree() {
    timeout -k 5 100 "$@" > "$work/said" 2>&1 < "$typed" &
    running=$!
    ! mounted || timeout 20 "$here/fuse-tree" "$mnt" > "$work/tree"
    unmounted
}

# What fuse-try says of a server in ten seconds, where it begins with an empty root or passes a folder on: tried SERVER WORDS..
tried() {
    local words=() options=() word lines status=0
    for word in "$@"; do
        word="${word//$lower/{lower\}}"
        word="${word//$mnt/{mnt\}}"
        # A file or a folder beside these would be another one in each round.
        [[ "$word" != *"$work/"* ]] || [ ${#words[@]} -eq 0 ] || return 0
        words+=("$word")
    done
    [[ "${words[*]}" != *"{lower}"* ]] || options=(--lower)
    lines="$(TMPDIR="$work" timeout -k 5 200 "$here/fuse-try" --audit "$program" --seconds 10 "${options[@]}" -- "${words[@]}" 2>&1)" || status=$?
    if [ "$status" -eq 0 ]; then
        echo "legal, $(wc -l <<< "$lines") rounds"
    elif [ "$status" -eq 7 ]; then
        echo "$(grep -c ": legal: " <<< "$lines") rounds legal, $(grep -c ": gave up: " <<< "$lines") given up"
    else
        tail -n 1 <<< "$lines"
    fi
}

# One row: row NAME VERSION WORK [OPTIONS OF fuse-record] -- SERVER WORDS.. It stays in the foreground.
row() {
    local name="$1" version="$2" labour="$3" options=() found worked="done" shown status=0
    shift 3
    while [ "$1" != -- ]; do
        options+=("$1")
        shift
    done
    shift
    rm -f "$capture"*
    timeout -k 5 200 "$here/fuse-record" -o "$capture" "${options[@]}" -- "$@" > "$work/said" 2>&1 < "$typed" &
    running=$!
    if mounted; then
        "$labour" > "$work/seen" 2>&1 || worked="failed: $(grep -v "a process failed" "$work/seen" | tail -n 1)"
    else
        worked="not mounted"
    fi
    unmounted || status=$?
    local tree=() text
    for text in "$work/tree" "$capture.tree"; do
        [ ! -e "$text" ] || tree=(--tree "$text")
    done
    found="$("$program" judge --steps 1000000 --capture "$capture" "${tree[@]}" 2>&1)"
    [ "$status" -eq 0 ] || found="$found; fuse-record: status $status"
    shown="$*"
    shown="${shown//$work\//}"
    local way=library
    ! grep -q "system calls are stopped" "$capture.log" || way=trace
    # shellcheck disable=SC2016
    printf '| %s | %s | `%s` | %s | %s | %s | %s | %s |\n' "$name" "$version" "${shown//$here\//}" "$way" "$labour" "${worked//$work\//}" "$found" \
        "$(tried "$@")"
}

version_of() { dpkg-query -W -f '${Version}' "$1" 2> /dev/null; }

# A row of a server whose package is installed: try PACKAGE WORK WORDS OF row FROM ITS OPTIONS ON..
try() {
    local package="$1" labour="$2" version
    shift 2
    version="$(version_of "$package")" && [ -n "$version" ] || return 0
    row "$package" "$version" "$labour" "$@"
}

refused=(--refuse "FALLOCATE,COPY_FILE_RANGE,IOCTL")
make -s -C "$here" || exit
echo "| server | version | started by | by | work | it was | verdict | tried |"
echo "|---|---|---|---|---|---|---|---|"
fill
try bindfs everything "${refused[@]}" --lower "$lower" -- bindfs -f -o hard_remove,attr_timeout=0,entry_timeout=0 "$lower" "$mnt"
fill
try unionfs-fuse everything "${refused[@]}" --lower "$lower" -- unionfs -f -o hard_remove,attr_timeout=0,entry_timeout=0 "$lower=RW" "$mnt"
fill
try mergerfs everything "${refused[@]}" --lower "$lower" -- \
    mergerfs -f -o cache.attr=0,cache.entry=0,cache.negative_entry=0,cache.files=off,inodecalc=path-hash "$lower" "$mnt"
fill
try fuse-overlayfs plainly "${refused[@]}" --lower "$lower" -- \
    fuse-overlayfs -f -o "lowerdir=$lower,upperdir=$work/other,workdir=$work/cache,timeout=0" "$mnt"
if command -v mksquashfs > /dev/null; then
    fill
    mksquashfs "$lower" "$work/image" -quiet -no-progress > /dev/null
    try squashfuse reading --lower "$lower" -- squashfuse -f "$work/image" "$mnt"
fi
fill
try rclone plainly --lower "$lower" -- rclone mount --config /dev/null --vfs-cache-mode writes --cache-dir "$work/cache" \
    --file-perms 0644 --dir-perms 0755 "$lower" "$mnt"
if command -v gocryptfs > /dev/null; then
    fill
    echo words > "$work/password"
    gocryptfs -q -init -scryptn 10 -passfile "$work/password" "$work/other" > /dev/null
    try gocryptfs plainly "${refused[@]}" -- gocryptfs -fg -nosyslog -sharedstorage -passfile "$work/password" "$work/other" "$mnt"
    fill
    gocryptfs -q -init -scryptn 10 -passfile "$work/password" "$work/other" > /dev/null
    try gocryptfs everything "${refused[@]}" -- gocryptfs -fg -nosyslog -sharedstorage -passfile "$work/password" "$work/other" "$mnt"
fi
fill
try python3-fusepy everything "${refused[@]}" --lower "$lower" -- /usr/bin/python3 "$here/tests/folder.py" "$lower" "$mnt"
fill
try python3-pyfuse3 everything "${refused[@]}" -- /usr/bin/python3 "$here/tests/nodes.py" pyfuse3 "$mnt"
fill
try python3-llfuse everything "${refused[@]}" -- /usr/bin/python3 "$here/tests/nodes.py" llfuse "$mnt"
if [ -e "$examples/passthrough_ll.c" ]; then
    fill
    "${CC:-cc}" -O2 -w -I/usr/include/fuse3 -I"$examples" -o "$work/passthrough_ll" "$examples/passthrough_ll.c" -lfuse3 -pthread &&
        row passthrough_ll "$(version_of libfuse3-dev)" everything "${refused[@]}" --lower "$lower" -- \
            "$work/passthrough_ll" -f -o "source=$lower" "$mnt"
fi
fill
# It is mounted over the folder that it passes on.
cp -a "$lower/." "$mnt"
try loggedfs everything "${refused[@]}" --lower "$mnt" -- loggedfs -f -p -e -l /dev/null "$mnt"
rm -rf "${mnt:?}"/*

# A server of files on the loopback address, with keys of its own. It needs a folder /run/sshd: nobody else sees this one.
serve_files() {
    local port=$((20000 + RANDOM % 10000))
    ssh-keygen -q -t ed25519 -N "" -f "$work/host" && ssh-keygen -q -t ed25519 -N "" -f "$work/user" || return
    printf '%s\n' "ListenAddress 127.0.0.1" "Port $port" "HostKey $work/host" "AuthorizedKeysFile $work/user.pub" "PidFile none" \
        "StrictModes no" "UsePAM no" "Subsystem sftp internal-sftp -u 0" > "$work/sshd.options"
    printf '%s\n' "Host loopback" "HostName 127.0.0.1" "Port $port" "IdentityFile $work/user" "UserKnownHostsFile $work/known" \
        "StrictHostKeyChecking no" > "$work/ssh.options"
    # shellcheck disable=SC2016
    unshare -m sh -ec 'mount -t tmpfs none /run; mkdir /run/sshd; exec timeout -k 5 300 /usr/sbin/sshd -D -e -f "$0"' \
        "$work/sshd.options" > "$work/sshd.said" 2>&1 &
    sshd=$!
    for _ in $(seq 100); do
        ! grep -qs "listening on" "$work/sshd.said" || return 0
        sleep 0.05
    done
    echo "servers.sh: sshd: $(tail -n 1 "$work/sshd.said")" >&2
    return 1
}
if command -v sshfs > /dev/null && [ -x /usr/sbin/sshd ]; then
    fill
    ! serve_files || try sshfs plainly "${refused[@]}" --lower "$lower" -- sshfs -f -F "$work/ssh.options" "loopback:$lower" "$mnt"
    [ -z "$sshd" ] || { kill "$sshd" && wait "$sshd"; }
    sshd=
fi

# Servers of images and of encrypted folders.
if command -v mkntfs > /dev/null; then
    fill
    truncate -s 16M "$work/image"
    mkntfs -q -F "$work/image" > /dev/null 2>&1
    own_tree ntfs-3g -o no_detach,permissions "$work/image" "$mnt"
    try ntfs-3g plainly "${refused[@]}" -- ntfs-3g -o no_detach,permissions "$work/image" "$mnt"
    mkntfs -q -F "$work/image" > /dev/null 2>&1
    try ntfs-3g everything "${refused[@]}" -- \
        ntfs-3g -o no_detach,permissions,hard_remove,attr_timeout=0,entry_timeout=0 "$work/image" "$mnt"
fi
if command -v fuse2fs > /dev/null && command -v mkfs.ext4 > /dev/null; then
    fill
    truncate -s 16M "$work/image"
    mkfs.ext4 -q -F "$work/image" > /dev/null 2>&1
    own_tree fuse2fs -f -o fakeroot "$work/image" "$mnt"
    try fuse2fs everything "${refused[@]}" -- fuse2fs -f -o fakeroot,attr_timeout=0,entry_timeout=0 "$work/image" "$mnt"
fi
if command -v archivemount > /dev/null && command -v tar > /dev/null; then
    fill
    tar -C "$lower" -cf "$work/image.tar" .
    own_tree archivemount -f -o nobackup "$work/image.tar" "$mnt"
    try archivemount plainly "${refused[@]}" -- archivemount -f -o nobackup "$work/image.tar" "$mnt"
fi
if command -v fuse-zip > /dev/null && command -v zip > /dev/null; then
    fill
    (cd "$lower" && zip -qr "$work/image.zip" .)
    own_tree fuse-zip -f "$work/image.zip" "$mnt"
    try fuse-zip plainly "${refused[@]}" -- fuse-zip -f "$work/image.zip" "$mnt"
fi
echo words > "$work/password"
if command -v encfs > /dev/null; then
    fill
    typed="$work/password"
    own_tree encfs -f --standard -S "$work/other" "$mnt"
    try encfs everything "${refused[@]}" -- encfs -f -S "$work/other" "$mnt" -o attr_timeout=0,entry_timeout=0
fi
if command -v cryfs > /dev/null; then
    fill
    typed="$work/password"
    export CRYFS_FRONTEND=noninteractive CRYFS_NO_UPDATE_CHECK=true CRYFS_LOCAL_STATE_DIR="$work/cache"
    own_tree cryfs -f "$work/other" "$mnt"
    try cryfs plainly "${refused[@]}" -- cryfs -f "$work/other" "$mnt"
fi
if command -v securefs > /dev/null; then
    fill
    securefs create --pass words "$work/other" > /dev/null 2>&1
    own_tree securefs mount --pass words "$work/other" "$mnt"
    try securefs plainly "${refused[@]}" -- securefs mount --pass words "$work/other" "$mnt"
fi
