#!/bin/sh
# Boots Debian's kernel under qemu, since many a machine has no CAN, and puts canopen-device on a virtual bus there: what it answers,
# how exact its heartbeats are, what it takes while the bus is quiet, bus trouble, random frames at full speed for a minute,
# or as many seconds as are given, a recording, which conode replay answers in the same way, and in which conode compare finds
# no difference, and what a new user types from a clone on, by docs/EMBED.md: bench/vm.sh [SECONDS]. The machine's files are there
# read-only, so its candump, canplayer, cansend, cangen and ip are used. ACCELERATOR=kvm makes it faster where the machine can.
# Status 1 where something is wrong.
#
# Debian's packages: qemu-system-x86 linux-image-amd64 busybox-static cpio kmod can-utils iproute2 gcc make libc6-dev
# gcc-aarch64-linux-gnu libc6-dev-arm64-cross pkg-config
set -eu
# shellcheck source=bench/folder.sh
. "$(dirname "$(readlink -f "$0")")/folder.sh"
seconds=${1:-60}

# Says which packages are missing: each is a package and a file of it.
missing=$(
    while read -r package file; do
        [ -e "$file" ] || command -v "$file" > /dev/null || echo "$package"
    done << 'END'
qemu-system-x86 qemu-system-x86_64
busybox-static /bin/busybox
cpio cpio
kmod /sbin/modprobe
can-utils candump
iproute2 ip
gcc gcc
make make
libc6-dev /usr/include/stdio.h
gcc-aarch64-linux-gnu aarch64-linux-gnu-gcc
libc6-dev-arm64-cross /usr/aarch64-linux-gnu/include/stdio.h
pkg-config pkg-config
linux-image-amd64 /lib/modules
END
)
[ -z "$missing" ] || { echo "vm.sh: packages are missing: $(echo "$missing" | paste -s -d " " -)" >&2; exit 1; }
release=$(basename "$(find /lib/modules -mindepth 1 -maxdepth 1 | sort -V | tail -n 1)")

"$root/bin/libbafokun" "$folder/lib"
make -s -C "$root/tools/device" LIB="$folder/lib" OUT="$folder/made"

# what the machine begins with: busybox, the modules in their order, and the files of the run
mkdir -p "$folder/disk/bin" "$folder/disk/modules" "$folder/disk/run" "$folder/disk/mnt" "$folder/disk/proc" "$folder/disk/dev"
cp /bin/busybox "$folder/disk/bin"
ln -s busybox "$folder/disk/bin/sh"
cp "$folder/made/canopen-device" "$root/examples/temperature-sensor.eds" "$root/examples/io-module.eds" "$folder/disk/run"
cp "$("$root/bin/conode" --which | head -n 1)" "$folder/disk/run"
echo "$seconds" > "$folder/disk/run/seconds"
echo "$root" > "$folder/disk/run/root"

# frames for node 8, up to 8 ms apart: SDO requests for entries that no time depends on, NMT, SYNC and RPDOs, at last a reset
awk '
    function below(bound) { return int(rand() * bound) }
    function pick(text,    all, many) { many = split(text, all, " "); return all[1 + below(many)] }
    function bytes(many,    text) { while (many-- > 0) text = text sprintf("%02X", below(256)); return text }
    function sdo(    at) {
        at = pick("1001:00 1003:00 1005:00 1014:00 1018:01 1029:01 1400:01 1600:01 1800:01 1801:02 1A00:01 2000:00 2001:00 2002:00 \
            6000:01 6200:01 6401:01 6411:01 6411:02 7000:00")
        return "608#" pick("40 40 2F 2B 23 21 60 70 00 10 01 11 C0 C2 A0 A3 A1 80 81 02 7F") \
            substr(at, 3, 2) substr(at, 1, 2) substr(at, 6) bytes(4)
    }
    BEGIN {
        srand(1)
        for (i = 1; i <= 3000; i++) {
            now += below(8)
            printf "(%d.%06d) can0 ", now / 1000, now % 1000 * 1000
            if (i == 3000) print "000#8108"
            else print rand() < 0.8 ? sdo() : pick("000#0108 000#0108 000#8008 000#8208 000#8108 080# 080# 208# 308# 208#01") bytes(below(3))
        }
    }' > "$folder/disk/run/session"
for module in virtio_pci 9pnet_virtio 9p vcan can-raw; do
    /sbin/modprobe -S "$release" --show-depends "$module" | awk '$1 == "insmod" { print $2 }'
done | awk '!seen[$0]++' > "$folder/paths"
while read -r path; do
    cp "$path" "$folder/disk/modules"
    basename "$path" >> "$folder/disk/modules/list"
done < "$folder/paths"

cat > "$folder/disk/init" << 'END'
#!/bin/sh
/bin/busybox mount -t proc proc /proc
/bin/busybox mount -t devtmpfs dev /dev
while read -r module; do /bin/busybox insmod "/modules/$module"; done < /modules/list
/bin/busybox mount -t 9p -o trans=virtio,version=9p2000.L,ro host /mnt
/bin/busybox mount -t proc proc /mnt/proc
/bin/busybox mount -t sysfs sys /mnt/sys
/bin/busybox mount -t devtmpfs dev /mnt/dev
/bin/busybox mount -t tmpfs tmp /mnt/tmp
/bin/busybox cp /run/* /mnt/tmp
/bin/busybox chroot /mnt /bin/sh -c 'cd /tmp && PATH=/usr/sbin:/usr/bin:/sbin:/bin exec sh ./in-machine'
/bin/busybox poweroff -f
END
chmod +x "$folder/disk/init"

cat > "$folder/disk/run/in-machine" << 'MACHINE'
failed=0
echo begins

# fails unless the words are the same: is NAME FOUND WANTED
is() {
    if [ "$2" = "$3" ]; then echo "ok: $1"; else failed=$((failed + 1)); echo "FAILED: $1: $2, not $3"; fi
}

# until a text is in a file, at most half a minute, since the machine may be slow: await TEXT FILE
await() { for _ in $(seq 60); do grep -q "$1" "$2" && break || sleep 0.5; done; }

# records the frames with an identifier from now on, until the listener is killed, also while the bus is down: listen ID FILE
listen() {
    candump -r 10000000 -D -L "vcan0,$1:7FF" > "$2" 2> /dev/null &
    listener=$!
    await "vcan0 *$1 " /proc/net/can/rcvlist_fil
}

# the first frame with an identifier, and with these bytes if they are given, after a frame is sent: answer FRAME ID [BYTES]
answer() {
    listen "$2" answer
    cansend vcan0 "$1"
    await " $2#${3:-}" answer
    kill $listener
    sed -n "s/.* \($2#${3:-.*}\)$/\1/p" answer | head -n 1
}

# what a process took so far, in ticks of the processor, and its memory in kB
spent() { awk '{ print $14 + $15 }' "/proc/$device/stat"; }
memory() { awk '$1 == "VmRSS:" { print $2 }' "/proc/$device/status"; }
errors() { tr '\n' ';' < err; }

ip link add dev vcan0 type vcan
ip link set vcan0 up
candump -L vcan0 > boot &
listener=$!
await 'vcan0 *000 ' /proc/net/can/rcvlist_all
mkfifo lines
./canopen-device 5=temperature-sensor.eds 8=io-module.eds --can vcan0 < lines > out 2> err &
device=$!
exec 3> lines
await '708#00' boot
kill $listener
is 'boot-up' "$(head -n 2 boot | cut -d ' ' -f 3 | tr '\n' ' ')" '705#00 708#00 '
is 'SDO of node 5' "$(answer 605#4000100000000000 585)" '585#4300100094010200'
is 'SDO of node 8' "$(answer 608#4018100200000000 588)" '588#4318100201042800'
is 'a refused write' "$(answer 605#2B00200005000000 585)" '585#8000200032000906'

echo '5 set 1017:00 100' >&3
sleep 1
was=$(spent)
candump -L -n 101 vcan0,705:7FF > beats
echo "while the bus is quiet, $(($(spent) - was)) of 1000 ticks of a processor for both"
tr -d '()' < beats | awk '
    NR > 1 { late = ($1 - last) * 1000 - 100; if (late < 0) late = -late; sum += late; if (late > most) most = late }
    { last = $1 }
    END { printf "heartbeats each 100 ms: off by %.2f ms on average, %.2f ms at most\n", sum / (NR - 1), most }'

cansend vcan0 000#0108
echo '8 set Read input 8-bit.Inputs 1 to 8 5' >&3
echo '8 get 6000:01' >&3
await '6000:01' out
is 'lines of the application' "$(tr '\n' ' ' < out)" 'ok ok 6000:01 5 '

cansend vcan0 20000004#0010000000000000
sleep 0.5
cansend vcan0 20000004#0040000000000000
sleep 0.5
cansend vcan0 20000040#0000000000000000
sleep 0.5
listen 088 emergency
cansend vcan0 20000100#0000000000000000
await '088#0000' emergency
kill $listener
is 'recovered from bus-off' "$(cut -d ' ' -f 3 emergency | tr '\n' ' ')" '088#4081110000000000 088#0000000000000000 '
# bus-off has made it pre-operational (1029:01)
cansend vcan0 000#0108
sleep 0.5
ip link set vcan0 down
sleep 1
for value in 1 2 3; do echo "8 set 6000:01 $value" >&3; done
sleep 1
is 'what waits' "$(echo '8 state' >&3; sleep 0.5; tail -n 1 out | cut -d , -f 2-4)" ' vcan0 down, 1 frames wait, 0 thrown away'
listen 088 waited
for _ in $(seq 1100); do echo '8 raise 3120' >&3; done
sleep 2
is 'no more than 1,024 wait' "$(tail -n 1 out)" 'error: 1024 frames wait for vcan0'
ip link set vcan0 up
await '088#00' waited
kill $listener
is 'all of them are sent' "$(cut -d ' ' -f 3 waited | cut -c 1-8 | uniq -c | tr -s ' \n' ' ')" ' 1024 088#2031 1 088#4081 1 088#0000 '
is 'trouble, said once' "$(errors)" \
    'vcan0: error passive;vcan0: error active;vcan0: bus-off;vcan0: error active;vcan0: down;vcan0: error active;'
is 'SDO after that' "$(answer 605#4000100000000000 585)" '585#4300100094010200'

before=$(memory)
sent=$(cat /sys/class/net/vcan0/statistics/tx_packets)
was=$(spent)
timeout "$(cat seconds)" cangen vcan0 -g 0 -i
sent=$(($(cat /sys/class/net/vcan0/statistics/tx_packets) - sent))
echo "$sent frames in $(cat seconds) s; $(($(spent) - was)) ticks of the processor; memory $before kB before, $(memory) kB after"
sleep 2
is 'boot-up by NMT' "$(answer 000#8105 705 00)" '705#00'
is 'SDO of node 5' "$(answer 605#4000100000000000 585)" '585#4300100094010200'
is 'boot-up by NMT' "$(answer 000#8108 708 00)" '708#00'
is 'SDO of node 8' "$(answer 608#4018100200000000 588)" '588#4318100201042800'
kill -TERM "$device"
wait "$device"
is 'the status' $? 0
is 'nothing else said' "$(wc -l < err)" 6

candump -r 10000000 -L vcan0 > recording &
listener=$!
sleep 1
./canopen-device 8=io-module.eds --can vcan0 < /dev/null 2> err &
device=$!
await '708#00' recording
canplayer -I session vcan0=can0
sleep 2
kill -TERM "$device"
wait "$device"
is 'the status' $? 0
kill $listener
# by their stamps, as with two processors candump may get an answer before the frame that it answers
sort -s -k 1,1 recording > ordered
cmp -s recording ordered || echo 'candump wrote frames out of the order of their stamps'
mv ordered recording
# by identifier, as the device may be late by some frames
grep -v ' \(000\|080\|608\|208\|308\)#' recording | cut -d ' ' -f 3 | sort -s -t '#' -k 1,1 > sent
grep ' \(000\|080\|608\|208\|308\)#' recording > received
./conode replay io-module.eds received --node 8 | grep -v '^;' | cut -d ' ' -f 3 | sort -s -t '#' -k 1,1 > replayed
is 'frames received' "$(wc -l < received)" 3000
diff sent replayed > differences
is "a recording with $(wc -l < sent) frames of the device, against conode replay" "$(head -n 5 differences)" ''
./conode compare io-module.eds recording --node 8 > compared
status=$?
sed -i '/^unjudged: /d' compared
is "conode compare of it: $(tail -n 1 compared)" "$status $(head -n 1 compared)" "0 $(tail -n 1 compared)"
[ "$(wc -l < compared)" -eq 1 ] || { cat compared; grep -n -e ' 000#' -e ' 708#' recording; }
# as a new user: from a clone, without its proofs, the commands of the first section of docs/EMBED.md, and a live device
began=$(cut -d . -f 1 /proc/uptime)
mkdir clone
(cd "$(cat root)" && cp -R bin crates.txt docs examples include python release share tools /tmp/clone)
rm -rf clone/examples/device/out clone/tools/device/out
cd clone
export HOME=/tmp
sed -n '1,/^## /s/^    //p' docs/EMBED.md | sed 's/^\$ //' | grep -vx -e compiled -e 'as recorded' > ../commands
sed '$d' ../commands > ../first
sh -e ../first > ../said 2> ../err
is "all but the last of the $(wc -l < ../commands) commands" "$? $(grep -x -e compiled -e 'as recorded' ../said | tr '\n' ' ')" \
    '0 compiled as recorded '
[ -s ../said ] || cat ../err
listen 705 boot
sh -c "exec $(tail -n 1 ../commands)" < /dev/null &
device=$!
await '705#00' boot
kill $listener
is 'the last: boot-up' "$(cut -d ' ' -f 3 boot | head -n 1)" '705#00'
is 'its SDO' "$(answer 605#4000100000000000 585 | cut -c 1-12)" '585#43001000'
kill "$device"
make -s -C tools/device 2> ../err || cat ../err
listen 705 boot
tools/device/out/canopen-device 5=examples/temperature-sensor.eds 8=examples/io-module.eds --can vcan0 --socket /tmp/bus < /dev/null &
device=$!
await '705#00' boot
kill $listener
is 'a live device' "$(answer 605#4000100000000000 585)" '585#4300100094010200'
echo "from a clone to that in $(($(cut -d . -f 1 /proc/uptime) - began)) s"
kill -TERM "$device"
wait "$device"
is 'the status' $? 0
echo "$failed failed"
MACHINE

(cd "$folder/disk" && find . | cpio -o -H newc 2> /dev/null | gzip) > "$folder/image"
timeout $((seconds + 5400)) qemu-system-x86_64 -accel "${ACCELERATOR:-tcg}" -m 1024 -smp 2 -cpu max -nographic -no-reboot \
    -kernel "/boot/vmlinuz-$release" -initrd "$folder/image" -append 'console=ttyS0 quiet panic=1' \
    -virtfs local,path=/,mount_tag=host,security_model=none,readonly=on,multidevs=remap 2>&1 | sed -u -n '1,/begins/d; s/\r$//p' | tee "$folder/said"
grep -qx '0 failed' "$folder/said"
