#!/usr/bin/env bash
# Tries what a save leaves under a name: tools/saves.sh PROGRAM
# Runs `PROGRAM certify SPEC NAME`, and `PROGRAM repair SPEC NAME NAME` over the image itself, where the save is killed,
# fails or ends well, and prints a line for each case. After each run NAME has to hold its old bytes, or all of the new
# ones. The last line counts the cases, and the runs in which a system call was killed or failed. The status is 0 if no
# case failed. Kills and failures of system calls want strace; a full disk, other users and a device of its own want root.
set -u -o pipefail

[ $# = 1 ] || { printf 'usage: %s PROGRAM\n' "$0" >&2; exit 2; }
given=$(readlink -f -- "$1")
[ -x "$given" ] || { printf 'no program\n' >&2; exit 2; }

work=$(mktemp -d /tmp/saves-XXXXXX) || exit 2
disk=$work/disk
clean() {
    if mountpoint -q "$disk"; then umount "$disk"; fi
    rm -rf -- "$work"
}
trap clean EXIT
trap 'exit 130' INT TERM
chmod 755 "$work"
program=$work/program spec=$work/spec
cp -- "$given" "$program" && chmod 755 "$program" || exit 2
# A list whose links lead to nodes, and that tells how long it is.
cat >"$spec" <<'END' && chmod 644 "$spec" || exit 2
version 1; order little;
structure Head { fixed u16 n; u16 count; u32 first -> nodes; }
structure Node { u32 value; u32 next -> nodes; }
pool nodes : Node[n] at 8 codes 1 step 1 none 0;
set Nodes of nodes; set Bad of nodes;
relation Next : nodes -> nodes; relation Count : head -> number;
rule head => head.first in Nodes;
rule x in Nodes => x.next in Nodes;
rule x in Nodes when illegal(x.next) => x in Bad;
rule x in Nodes => <x, x.next> in Next;
rule head => <head, head.count> in Count;
constraint tidy : forall x in Bad : not x in Bad;
constraint single : forall <x, y> in Next : size(Next.y) <= 1;
constraint total : head.Count = size(Nodes);
END

# The old bytes of a certificate are more than the new ones, so that a mixture shows.
"$program" certify "$spec" "$work/new-certify" >/dev/null || { printf '%s saves no certificate\n' "$1" >&2; exit 2; }
{ for _ in 1 2 3; do tr 'a-z' 'A-Z' <"$work/new-certify"; done; } >"$work/old-certify"

# An image of 8,000 nodes, of which the list has the last one alone. A repair changes a byte of its head and four of its end.
{
    printf '\x40\x1f\x05\x00\x40\x1f\x00\x00'
    head -c $((7999 * 8)) /dev/zero | tr '\0' 'x'
    printf 'tail\xff\xff\xff\xff'
} >"$work/old-repair"
"$program" repair "$spec" "$work/old-repair" "$work/new-repair" >"$work/report" || { printf '%s repairs no image\n' "$1" >&2; exit 2; }
[ "$(tail -n 1 "$work/report")" = 'updates 2' ] || { printf '%s makes other updates\n' "$1" >&2; exit 2; }

longest=$(printf 'n%.0s' {1..255})
cases=0 failed=0 kills=0 errors=0
# Prints the line of a case: its name, and what is wrong with it, or nothing.
report() {
    cases=$((cases + 1))
    if [ -z "$2" ]; then
        printf 'ok      %s\n' "$1"
    else
        printf 'FAILED  %s: %s\n' "$1" "$2"
        failed=$((failed + 1))
    fi
}
skip() { printf 'skipped %s: %s\n' "$1" "$2"; }

# Takes a command, its old bytes and its new ones for what follows.
take() { command=$1 old=$work/old-$1 new=$work/new-$1; }
take certify

# The words that save under a name.
ask() {
    case $command in
        certify) words=(certify "$spec" "$1") ;;
        repair) words=(repair "$spec" "$1" "$1") ;;
    esac
}

# Makes a new folder for a case, with the old bytes under `cert` and the mode 640, which no new file has. With the word
# `link` they stand in another folder, to which `cert` is a link; with `fresh` there is no file yet, and with `longest` its
# name is as long as a name can be.
umask 022
begin() {
    folder=$work/case
    cert=$folder/cert
    [ "${1:-file}" != longest ] || cert=$folder/$longest
    rm -rf -- "$folder"
    mkdir -- "$folder" && cp -- "$old" "$cert" && chmod 640 "$cert"
    case ${1:-file} in
        link) mkdir "$folder/far" && mv "$cert" "$folder/far/cert" && ln -s far/cert "$cert" ;;
        fresh) rm "$cert" ;;
    esac
}

# Saves under a name, after the words of $2, and keeps the status. What the program prints goes to $work/said through a
# pipe, which no limit stops.
save() {
    ask "$1"
    {
        (eval "${2:-}"; exec "$program" "${words[@]}") 2>/dev/null
        echo "$?" >"$work/status"
    } 2>/dev/null | cat >"$work/said"
}
status() { cat -- "$work/status"; }

# What a name holds.
held() {
    if [ ! -e "$1" ]; then echo nothing
    elif cmp -s -- "$1" "$old"; then echo old
    elif cmp -s -- "$1" "$new"; then echo new
    else echo "a mixture"
    fi
}
mode() { stat -Lc %a -- "$1" 2>/dev/null; }
litter() { find "$1" -name '.dsr-new-*' | head -1; }

# Whether the last save ended so: status, what the name holds, mode; no new file is left. Prints what is wrong.
wrong() {
    local now
    now=$(status)
    [ "$now" = "$1" ] || { echo "status $now"; return; }
    now=$(held "$2")
    [ "$now" = "$3" ] || { echo "holds $now"; return; }
    now=$(mode "$2")
    [ "$now" = "${4:-}" ] || { echo "mode $now"; return; }
    now=$(litter "$(dirname -- "$(readlink -f -- "$2")")")
    [ -z "$now" ] || echo "left $now"
}

# The ends of a save that no fault is made to come between.
try_plain() {
    begin; save "$cert"
    report 'over a file, whose mode stays' "$(wrong 0 "$cert" new 640)"
    [ "$(tail -n 1 "$work/said" | cut -d ' ' -f 1)" = certified ] || report 'what is told' "$(cat "$work/said")"
    begin; chmod 666 "$cert"; save "$cert" 'umask 077'
    report 'over a file, with a mask' "$(wrong 0 "$cert" new 666)"
    begin; save "$folder/fresh" 'umask 027'
    report 'of a new file, with the mode that the mask leaves' "$(wrong 0 "$folder/fresh" new 640)"
    begin; save cert 'cd -- "$folder"'
    report 'under a name without a folder' "$(wrong 0 "$cert" new 640)"
    begin; save "$folder/absent/cert"
    report 'in a folder that is not there' "$([ "$(status)" = 7 ] || status)"
    begin; mkdir "$folder/full"; save "$folder/full"
    report 'over a folder' "$([ "$(status)" = 7 ] && [ -d "$folder/full" ] && [ -z "$(litter "$folder")" ] || status)"
}

# Files that saves left which were killed. A save reads none of them, nor writes over one.
try_left() {
    local number
    begin; echo left >"$folder/.dsr-new-0"; echo left >"$folder/.dsr-new-1"; save "$cert"
    [ "$(cat "$folder"/.dsr-new-* | sort -u)" = left ] && rm -- "$folder"/.dsr-new-[01]
    report 'beside files that earlier saves left' "$(wrong 0 "$cert" new 640)"
    begin
    for number in {0..9999}; do echo left >"$folder/.dsr-new-$number"; done
    save "$cert"
    [ "$(cat "$folder"/.dsr-new-* | sort -u)" = left ] && rm -- "$folder"/.dsr-new-*
    report 'where each new name is taken' "$(wrong 7 "$cert" old 640)"
}

# Names as long as a name can be, and longer.
try_names() {
    begin longest; save "$cert"
    report 'under a name of 255 bytes' "$(wrong 0 "$cert" new 640)"
    begin; save "$folder/$longest"
    report 'of a new file under a name of 255 bytes' "$(wrong 0 "$folder/$longest" new 644)"
    begin; save "$folder/n$longest"
    report 'under a name of 256 bytes, which no file can have' "$([ "$(status)" = 7 ] && [ -z "$(litter "$folder")" ] || status)"
}

try_links() {
    begin; mkdir "$folder/far"; mv "$cert" "$folder/far/cert"; ln -s far/cert "$folder/near"; ln -s near "$cert"
    save "$cert"
    report 'through two links, which stay' "$(wrong 0 "$folder/far/cert" new 640; [ -L "$cert" ] && [ -L "$folder/near" ] || echo 'a link is gone')"
    begin; rm "$cert"; mkdir "$folder/far"; ln -s far/cert "$cert"; save "$cert" 'umask 022'
    report 'through a link to nothing yet' "$(wrong 0 "$folder/far/cert" new 644; [ -L "$cert" ] || echo 'the link is gone')"
    begin; rm "$cert"; ln -s cert "$cert"; save "$cert"
    report 'through a link to itself' "$([ "$(status)" = 7 ] && [ -L "$cert" ] || status)"
    begin; ln "$cert" "$folder/other"; save "$cert"
    report 'where the file has a second name, which keeps it' "$(wrong 0 "$cert" new 640; [ "$(held "$folder/other")" = old ] || held "$folder/other")"
    begin; exec 8>"$folder/open"; rm "$folder/open"; save /dev/fd/8; cp "/dev/fd/8" "$work/got"; exec 8>&-
    report 'to an open file that has no name' "$([ "$(status)" = 0 ] && cmp -s "$work/got" "$new" && [ -z "$(ls "$folder" | grep -v '^cert$')" ] || status)"
}

# Whether the file holds the new bytes, and behind them no more than what the program tells.
begins_new() { cmp -s -n "$(stat -c %s "$new")" -- "$1" "$new"; }

try_devices() {
    begin; mkfifo "$folder/pipe"; cat "$folder/pipe" >"$work/got" & 
    save "$folder/pipe"; wait $!
    report 'to a pipe with a name' "$([ "$(status)" = 0 ] && [ -p "$folder/pipe" ] && cmp -s "$work/got" "$new" && [ -z "$(litter "$folder")" ] || status)"
    begin; save /dev/stdout
    report 'to the standard output, a pipe' "$([ "$(status)" = 0 ] && begins_new "$work/said" || status)"
    if ! [ "$(id -u)" = 0 ]; then
        save /dev/null
        report 'to /dev/null' "$([ "$(status)" = 0 ] && [ -c /dev/null ] || status)"
    elif begin; mknod "$folder/null" c 1 3 && mknod "$folder/full" c 1 7 && : 2>/dev/null >"$folder/null"; then
        save "$folder/null"
        report 'to a device' "$([ "$(status)" = 0 ] && [ -c "$folder/null" ] && [ -z "$(litter "$folder")" ] || status)"
        save "$folder/full"
        report 'to a device that takes nothing' "$([ "$(status)" = 7 ] && [ -c "$folder/full" ] && [ -z "$(litter "$folder")" ] || status)"
    else
        skip 'to a device' 'none can be made here'
    fi
}

# No room, for all of the new bytes or for half of them.
try_limits() {
    local half=$(($(stat -c %s "$new") / 2048))
    begin; save "$cert" "trap '' XFSZ; ulimit -f $half"
    report "$command, with a limit on the length of files" "$(wrong 7 "$cert" old 640)"
    begin; save "$cert" "ulimit -c 0; ulimit -f $half"
    rm -f -- "$folder"/.dsr-new-*
    report "$command, with a limit that kills" "$(wrong 153 "$cert" old 640)"
    [ "$(id -u)" = 0 ] || { skip 'on a full disk' 'root alone can make one'; return; }
    mkdir -p "$disk" && mount -t tmpfs -o size=256k none "$disk" || { skip 'on a full disk' 'none can be made here'; return; }
    cp -- "$old" "$disk/cert" && chmod 640 "$disk/cert"
    dd if=/dev/zero of="$disk/rest" bs=1024 2>/dev/null
    save "$disk/cert"
    report "$command, on a full disk" "$(wrong 7 "$disk/cert" old 640)"
    if [ "$half" -gt 4 ]; then
        truncate -s "-$((half * 1024))" "$disk/rest"
        save "$disk/cert"
        report "$command, on a disk with room for half of the bytes" "$(wrong 7 "$disk/cert" old 640)"
    fi
    rm "$disk/rest"; save "$disk/cert"
    report "$command, on the same disk with room" "$(wrong 0 "$disk/cert" new 640)"
    umount "$disk"
}

# Saves as a user who owns nothing.
try_nobody() {
    [ "$(id -u)" = 0 ] || { skip 'by another user' 'root alone can be one'; return; }
    local root_program=$program
    program=$work/as_nobody
    printf '#!/bin/sh\nexec setpriv --reuid=65534 --regid=65534 --clear-groups %s "$@"\n' "$root_program" >"$program"
    chmod 755 "$program"
    begin; chmod 666 "$cert"; chmod 755 "$folder"; save "$cert"
    report "$command, in a folder without leave to write" "$(wrong 7 "$cert" old 666)"
    begin; chmod 444 "$cert"; chmod 777 "$folder"; save "$cert"
    report "$command, over a file without leave to write" "$(wrong 7 "$cert" old 444)"
    begin; chmod 666 "$cert"; chmod 777 "$folder"; save "$cert"
    report "$command, by another user, with leave" "$(wrong 0 "$cert" new 666)"
    begin; chmod 666 "$cert"; chmod 1777 "$folder"; chown 1 "$cert"; save "$cert"
    report "$command, over the file of another in a folder as /tmp" "$(wrong 7 "$cert" old 666)"
    program=$root_program
}

# The system calls of a save from the first that names the file on, each with its number among those of its name. The
# last one, which ends the program, is left out.
calls() {
    begin "$1"
    ask "$cert"
    strace -o "$work/trace" "$program" "${words[@]}" >/dev/null 2>&1
    awk -v "name=\"$cert\"" '{ call = $0; sub(/\(.*/, "", call); count[call]++ }
        index($0, name) && call != "execve" { seen = 1 }
        seen && call ~ /^[a-z0-9_]+$/ && call != "exit_group" { print call, count[call] }' "$work/trace"
}

# Runs a save with something done at one of its calls, and keeps the status.
inject() {
    ask "$cert"
    { strace -qq -o /dev/null -e "inject=$1:$3:when=$2" "$program" "${words[@]}" >/dev/null; } 2>/dev/null
    echo "$?" >"$work/status"
}

# Whether the bytes are on the disk before the name is theirs, and the folder afterwards.
try_order() {
    local order
    order=$(cut -d ' ' -f 1 "$work/calls" | grep -E '^(write|fsync|rename)$' | uniq | tr '\n' ' ')
    report 'on the disk before the name changes' "$([ "$order" = 'write fsync rename fsync write ' ] || echo "$order")"
}

# Kills a save at each of its calls, and saves again beside what it left.
try_kills() {
    local kind=$1 call number now bad='' before=0 after=0
    while read -r call number; do
        begin "$kind"; inject "$call" "$number" signal=KILL
        kills=$((kills + 1))
        now="$(held "$cert") $(mode "$cert")"
        [ "$(status)" = 137 ] || bad="$bad $call $number doesn't kill;"
        case $now in
            "$was") before=$((before + 1)); [ "$after" = 0 ] || bad="$bad $call $number: $was again;" ;;
            "$becomes") after=$((after + 1)) ;;
            *) bad="$bad $call $number: $now;" ;;
        esac
        save "$cert"
        find "$folder" -name '.dsr-new-*' -delete
        now=$(wrong 0 "$cert" $becomes)
        [ -z "$now" ] || bad="$bad $call $number, then $now;"
    done <"$work/calls"
    [ "$before" -gt 0 ] && [ "$after" -gt 0 ] || bad="$bad one of both alone"
    report "$command, $kind, killed at each of its calls: $before times as it was, then $after times new" "$bad"
}

# Has each call fail with an error: the save fails and all is as it was, or it ends well.
try_errors() {
    local kind=$1 error=$2 call number now bad='' failures=0 well=0
    while read -r call number; do
        # Calls for memory fail for want of it alone.
        case $error-$call in
            ENOMEM-*) ;;
            *-mmap | *-munmap | *-mprotect | *-madvise | *-brk) continue ;;
        esac
        # The system has no error for `brk`: where it fails, it tells an end that is below what was asked for.
        begin "$kind"
        case $call in
            brk) inject brk "$number" retval=0 ;;
            *) inject "$call" "$number" "error=$error" ;;
        esac
        errors=$((errors + 1))
        case $(status) in
            7 | 10) failures=$((failures + 1)); now=$(wrong "$(status)" "$cert" $was) ;;
            0 | 8) well=$((well + 1)); now=$(wrong "$(status)" "$cert" $becomes) ;;
            *) now="status $(status)" ;;
        esac
        [ -z "$now" ] || bad="$bad $call $number: $now;"
    done <"$work/calls"
    report "$command, $kind, $error at each of its calls: $failures times it failed, $well times it ended well" "$bad"
}

# All of these over a file, through a link, under the longest name, and where there is no file yet: what is held, and with
# which mode.
try_calls() {
    local kind error was becomes
    command -v strace >/dev/null || { skip 'kills and errors' 'there is no strace'; return; }
    for kind in file link longest fresh; do
        # A repair has to have its image.
        [ "$command-$kind" != repair-fresh ] || continue
        was='old 640' becomes='new 640'
        [ "$kind" != fresh ] || was='nothing ' becomes='new 644'
        calls "$kind" >"$work/calls"
        [ "$kind" != file ] || try_order
        try_kills "$kind"
        for error in EIO ENOSPC EACCES ENOMEM EINTR; do try_errors "$kind" "$error"; done
    done
}

# Saves side by side, while the name is read.
try_together() {
    local turn bad='' reads=0
    begin
    ask "$cert"
    (for turn in {1..40}; do "$program" "${words[@]}"; done) >/dev/null 2>"$work/errors" &
    (for turn in {1..40}; do "$program" "${words[@]}"; done) >/dev/null 2>"$work/errors" &
    while [ -n "$(jobs -r)" ]; do
        cp -- "$cert" "$work/got"
        case $(held "$work/got") in
            old | new) reads=$((reads + 1)) ;;
            *) bad='a mixture was read; ' ;;
        esac
    done
    wait
    echo 0 >"$work/status"
    report "80 times by two programs, while the file was read $reads times" "$bad$(wrong 0 "$cert" new 640)"
}

try_plain
try_left
try_names
try_links
try_devices
try_together
for command in certify repair; do
    take "$command"
    try_limits
    try_nobody
    try_calls
done
printf '%s cases, %s calls killed, %s calls with errors, %s failed\n' "$cases" "$kills" "$errors" "$failed"
[ "$failed" = 0 ]
