#!/usr/bin/env bash
# Shows the program at work, in a folder of its own: a session over three cubes, each line beside its reply; then the bytes of one cube are
# overwritten, and a second session shows that the others mount with all that they hold and the damaged one is named.
set -eu
here=$(cd "$(dirname "$0")" && pwd)
. "$here/build.sh"
folder=$(mktemp -d)
trap 'rm -rf "$folder"' EXIT
cd "$folder"

# hex TEXT: its bytes as the lines of a script have them
hex() {
    printf '%s\n' "$1" | od -An -v -tx1 | tr -d ' \n'
}

# show: runs the script on standard input, and prints each line with its reply, whose last line begins with ok or no
show() {
    cat >script
    "$program" run img <script >replies
    awk '
        NR == FNR { line[NR] = $0; next }
        { reply = reply (reply == "" ? "" : "; ") $0 }
        /^(ok|no)( |$)/ { printf "    %-58s  %s\n", line[++n], reply; reply = "" }
    ' script replies
}

"$program" format img --slots 4 --groups 16
echo "an image of 4 slots and 16 groups: $(stat -c %s img) bytes"
echo
echo 'a home, a mailbox and the disk of a virtual machine, each a cube of its own:'
show <<LINES
create /home 4
create /mail 2
create /vm 8
mkdir /home/ann
make /home/ann/todo
write /home/ann/todo 0 $(hex 'buy bread')
rename /home/ann/todo /home/ann/done
sync /home
make /mail/inbox
write /mail/inbox 0 $(hex 'From: bob')
make /mail/inbox
sync /mail
make /vm/disk
write /vm/disk 0 $(hex 'boot')
write /vm/disk 4096 00
rename /vm/disk /home/disk
check /home
check /mail
check /vm
unmount /vm
cubes
LINES
echo
echo "the mailbox's blocks are overwritten: 256 of slot 1, and those of its groups 4 and 5"
for block in 288 2080 2336; do
    tr '\0' '\377' </dev/zero | dd of=img bs=1024 seek=$block count=256 iflag=fullblock conv=notrunc status=none
done
echo
echo 'the others are as they were, and the mailbox is named, deleted and made anew:'
show <<LINES
cubes
mount /mail
mount /home
mount /vm
list /home/ann
read /home/ann/done 0 100
read /vm/disk 0 100
make /mail/outbox
check /mail
delete /mail
create /mail 2
make /mail/inbox
sync /mail
cubes
LINES
