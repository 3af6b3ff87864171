#!/bin/bash
# Runs the units of a package that debian_package.sh made under a systemd of its own, in a container: the server's, which it has end
# in each way, and the front door's:
#
#     try_unit.sh PACKAGE ROOT
#
# ROOT is a folder as `debootstrap --variant=minbase --include=adduser,dbus,perl,python3,systemd,systemd-sysv bookworm ROOT`
# leaves it, and is left as
# it was: the container runs in a copy beside it, with a network of its own. It prints a line for each thing that is otherwise than wanted,
# and a count, and ends with 1 if there is one, else with 0. Run it as root; it needs systemd-nspawn and openssl, and takes two minutes.
set -euo pipefail
# shellcheck source-path=SCRIPTDIR source=../common/script.sh
. "$(dirname "${BASH_SOURCE[0]}")/../common/script.sh"
usage='usage: try_unit.sh PACKAGE ROOT'
package=$(realpath "${1:?$usage}")
system=$(realpath "${2:?$usage}")
copy=$(mktemp -d "$system.XXXXXX")
trap 'rm -rf --one-file-system "$copy" "$work"' EXIT
cp -a "$system/." "$copy"
cp "$package" "$copy/komd.deb"
openssl req -x509 -newkey rsa:2048 -nodes -days 2 -subj /CN=localhost -addext subjectAltName=DNS:localhost \
    -keyout "$copy/key.pem" -out "$copy/cert.pem" 2>/dev/null
rm -f "$copy/usr/sbin/policy-rc.d"
cat >"$copy/etc/systemd/system/try.service" <<'END'
[Unit]
After=multi-user.target
[Service]
Type=oneshot
ExecStart=/bin/bash /try
ExecStopPost=/bin/systemctl --no-block poweroff
StandardOutput=file:/said
StandardError=file:/said
[Install]
WantedBy=default.target
END
mkdir -p "$copy/etc/systemd/system/default.target.wants"
ln -s ../try.service "$copy/etc/systemd/system/default.target.wants/try.service"
cat >"$copy/try" <<'END'
cd /
export LC_ALL=C.UTF-8
store=/var/lib/komd/store
tried=0
failed=0
same() {
    tried=$((tried + 1))
    if [ "$2" != "$3" ]; then
        failed=$((failed + 1))
        printf '%s: %s, not %s\n' "$1" "${3:0:400}" "$2"
    fi
}
# How the unit stands.
state() {
    echo "$(systemctl show -P ActiveState komd) $(systemctl show -P Result komd) $(systemctl show -P ExecMainStatus komd) $(systemctl show -P NRestarts komd)"
}
# Waits until the unit stands so, and looks again after the pause of a restart.
stands() {
    for _ in {1..150}; do
        [ "$(state)" != "$2" ] || break
        sleep 0.1
    done
    sleep "${3:-0}"
    same "$1" "$2" "$(state)"
}
serves() {
    for _ in {1..150}; do
        komd-probe 127.0.0.1 4894 1 >/said.probe && break
        sleep 0.1
    done
    same "$1" 'KOMD OK' "$(cut -d ' ' -f 1,2 /said.probe)"
}
# A conversation with the server, to its end.
talk() {
    exec 3<>/dev/tcp/127.0.0.1/4894
    printf '%s\n' "$@" >&3
    timeout 10 cat <&3 | paste -sd ' '
    exec 3>&-
}
as_komd() {
    runuser -u komd -- "$@"
}
# What the journal has of the last end, by komd-why.
said() {
    journalctl --sync
    same "$1" "$2" "$(journalctl -u komd -o cat --no-pager | grep '^komd: ' | tail -n 1 | cut -c "1-${#2}")"
}
drop_in() {
    mkdir -p /etc/systemd/system/komd.service.d
    printf '[Service]\n%s\n' "$@" >/etc/systemd/system/komd.service.d/try.conf
    systemctl daemon-reload
    systemctl reset-failed komd
}

dpkg -i /komd.deb >/said.dpkg 2>&1 || cat /said.dpkg
same 'the units as systemd-analyze finds them' '' \
    "$(systemd-analyze verify --man=no /usr/lib/systemd/system/komd{.service,-backup.service,-backup.timer,-sweep@.service,-sweep@.timer} 2>&1)"
echo "systemd-analyze security: $(systemd-analyze security --no-pager komd.service | tail -n 1)"
systemctl start komd
stands 'where there is no store' 'failed exit-code 4 0' 12
said 'why, where there is no store' 'komd: status 4: there is no store at /var/lib/komd/store'
printf 'a first one\nBirgit\na second one\n' | as_komd komd-first-day $store >/said.first
systemctl reset-failed komd
systemctl enable --now --quiet komd
serves 'a store that was made'
stands 'a server that serves' 'active success 0 0'
pid=$(systemctl show -P MainPID komd)
same 'its user and folder' 'komd 700 komd' "$(stat -c %U "/proc/$pid") $(stat -c '%a %U' /var/lib/komd)"
same 'its limit on files' 'unlimited unlimited' "$(awk '/Max file size/ { print $4, $5 }' "/proc/$pid/limits")"
same 'a text' 'LysKOM =1 =2 1 =3' "$(talk 'A1Ha' '1 62 6 12Ha second one 0' '2 86 4Hkept 0 { } 0 { }' '3 55 0')"
systemctl start komd-backup.service
same 'the copy' '600 komd 700 komd' "$(stat -c '%a %U' /var/lib/komd-backup/store.*) $(stat -c '%a %U' /var/lib/komd-backup)"
same 'what it says' 1 "$(journalctl --sync; journalctl -u komd-backup -o cat --no-pager | grep -c 'conferences 6 persons 2 texts 1$')"
kill -KILL "$pid"
stands 'after signal 9' 'active success 0 1'
serves 'the server after signal 9'
said 'why, after signal 9' 'komd: signal KILL: it was killed'
same 'the text after it' 'LysKOM =1 =2 4Hkept =3' "$(talk 'A1Ha' '1 62 6 12Ha second one 0' '2 25 1 0 9' '3 55 0')"
systemctl stop komd
stands 'after systemctl stop' 'inactive success 15 1'
said 'why, after systemctl stop' 'komd: signal TERM: it was stopped'
systemctl start komd
serves 'the server after that'
same 'call 44' 'LysKOM =1 =2 =3' "$(talk 'A1Ha' '1 62 6 12Ha second one 0' '2 42 255' '3 44 0')"
stands 'after call 44' 'inactive success 0 0' 12
said 'why, after call 44' 'komd: status 0: it came to its end: call 44'
same 'what komd-why says at a prompt' 'komd: status 0: it came to its end: call 44' "$(komd-why | cut -d ' ' -f 1-10)"
drop_in 'Environment=KOMD_WORKERS=65'
systemctl start komd
stands 'after status 2' 'failed exit-code 2 0' 12
said 'why, after status 2' 'komd: status 2: its words are none that it knows'
drop_in 'RestartSec=1'
exec 8<$store
flock 8
systemctl start komd
stands 'after status 3, again and again' 'failed exit-code 3 5'
said 'why, after status 3' 'komd: status 3: another process has /var/lib/komd/store open'
exec 8<&-
rm /etc/systemd/system/komd.service.d/try.conf
systemctl daemon-reload
systemctl reset-failed komd
systemctl start komd
serves 'the server after that'
echo 'a second one' >/etc/komd-log.password
chmod 600 /etc/komd-log.password
systemctl start komd-log@6
sleep 2
talk 'A1Ha' '1 62 5 11Ha first one 0' '2 1' >/dev/null
sleep 1
journalctl --sync
same 'who came, as the journal has it' 'login session person 5 Administrator' \
    "$(journalctl -u komd-log@6 -o cat --no-pager | grep -o 'login session [0-9]* person 5 Administrator' | head -n 1 | sed 's/ [0-9]* p/ p/')"
echo 'a second one' >/etc/komd-sweep.password
chmod 600 /etc/komd-sweep.password
copies=$(find /var/lib/komd-backup -name 'store.*Z' | wc -l)
systemctl start komd-sweep@6
journalctl --sync
same 'a sweep, as the journal has it' 'swept 0 kept 1' "$(journalctl -u komd-sweep@6 -o cat --no-pager | grep -E '^(swept|kept) ' | paste -sd ' ')"
same 'the copy before it' $((copies + 1)) "$(find /var/lib/komd-backup -name 'store.*Z' | wc -l)"
mkdir -p /etc/systemd/system/komd-backup.service.d
printf '[Service]\nExecStart=\nExecStart=/bin/false\n' >/etc/systemd/system/komd-backup.service.d/try.conf
systemctl daemon-reload
same 'a sweep where no copy can be made' '1 1' "$(systemctl start komd-sweep@6 2>/said.sweep; echo $?) $(journalctl --sync
    journalctl -u komd-sweep@6 -o cat --no-pager | grep -c '^swept ')"
rm -r /etc/systemd/system/komd-backup.service.d
systemctl daemon-reload
systemctl reset-failed komd-backup
systemctl enable --now --quiet komd-sweep@6.timer
same 'its timer' active "$(systemctl show -P ActiveState komd-sweep@6.timer)"
# The front door; browsers want a package that is not here.
install -m 0640 -g komd-front /cert.pem /key.pem /etc/komd-front
mkdir -p /etc/systemd/system/komd-front.service.d
printf '[Service]\nEnvironment="DOORS=--port 4895"\n' >/etc/systemd/system/komd-front.service.d/try.conf
systemctl daemon-reload
systemctl start komd-front
said=$(python3 - 2>&1 <<'PYTHON'
import socket, ssl, time
for _ in range(100):
    try:
        near = socket.create_connection(("127.0.0.1", 4895))
        break
    except OSError:
        time.sleep(0.1)
far = ssl.create_default_context(cafile="/cert.pem").wrap_socket(near, server_hostname="localhost")
far.sendall(b"A1Ha\n1 89 3HEva 1Hp 00000000 0 { }\n2 62 6 12Ha second one 0\n3 55 0\n")
got = b""
while piece := far.recv(4096):
    got += piece
print(" ".join(got.decode().split("\n")).strip())
PYTHON
)
same 'a stranger and a member at the front door' 'LysKOM %1 12 0 =2 =3' "$said"
pid=$(systemctl show -P MainPID komd-front)
same 'the user of the front door' "komd-front active" "$(stat -c %U "/proc/$pid") $(systemctl show -P ActiveState komd-front)"
systemctl stop komd-front
same 'the front door after systemctl stop' 'inactive success' \
    "$(systemctl show -P ActiveState komd-front) $(systemctl show -P Result komd-front)"
before=$(systemctl show -P MainPID komd)
dpkg -i /komd.deb >/said.dpkg 2>&1 || cat /said.dpkg
serves 'the server after another installation'
same 'whether it is the same process' no "$([ "$before" = "$(systemctl show -P MainPID komd)" ] && echo yes || echo no)"
dpkg -r komd >/said.dpkg 2>&1 || cat /said.dpkg
same 'the server after the removal' '' "$(pidof komd)"
same 'what would start it' '' "$(find /etc/systemd -name '*komd*' ! -name '*.service.d')"
same 'the store after the removal' "600 komd" "$(stat -c '%a %U' $store)"
echo "$tried things looked at, $failed are otherwise"
END
export SYSTEMD_NSPAWN_UNIFIED_HIERARCHY=0
timeout 300 systemd-nspawn --quiet -D "$copy" --register=no --keep-unit -b --private-network --link-journal=no >"$copy.log" 2>&1 || true
cat "$copy/said"
rm -f "$copy.log"
grep -q 'things looked at, 0 are otherwise' "$copy/said"
