#!/bin/bash
# Installs a package that debian_package.sh made in a clean root folder, uses it there, and removes it:
#
#     try_debian_package.sh PACKAGE ROOT
#
# ROOT is a folder as `debootstrap --variant=minbase --include=adduser,perl,python3 bookworm ROOT` leaves it, and is left as it was: all is
# done in a copy beside it. Each tool of the package is used, the server is served at a port of this machine for that. It prints a line
# for each thing that is otherwise than wanted, and a count, and ends with 1 if there is one, else with 0. Run it as root.
set -euo pipefail
# shellcheck source-path=SCRIPTDIR source=../common/script.sh
. "$(dirname "${BASH_SOURCE[0]}")/../common/script.sh"
usage='usage: try_debian_package.sh PACKAGE ROOT'
package=$(realpath "${1:?$usage}")
system=$(realpath "${2:?$usage}")
copy=$(mktemp -d "$system.XXXXXX")
server=
trap '[ -z "$server" ] || kill "$server"; rm -rf --one-file-system "$copy" "$work"' EXIT
cp -a "$system/." "$copy"
cp "$package" "$copy/komd.deb"
tried=0
failed=0

inside() {
    timeout 120 chroot "$copy" /usr/bin/env -i PATH=/usr/sbin:/usr/bin:/sbin:/bin LC_ALL=C.UTF-8 "$@"
}

# same WHAT WANTED GOT
same() {
    tried=$((tried + 1))
    if [ "$2" != "$3" ]; then
        failed=$((failed + 1))
        printf '%s: %s, not %s\n' "$1" "${3:0:300}" "$2"
    fi
}

files() {
    (cd "$copy" && find . -xdev \( -path ./var/log -o -path ./run -o -path ./var/lib/dpkg -o -path ./var/cache -o -path ./tmp \) -prune -o -print | sort)
}

echo "127.0.0.1 localhost" >"$copy/etc/hosts"
files >"$copy/tmp/before"
inside dpkg -i /komd.deb >"$copy/tmp/said" 2>&1 || { cat "$copy/tmp/said"; exit 1; }
# shellcheck disable=SC2016
same 'the state of the package' 'install ok installed' "$(inside dpkg-query -Wf '${Status}' komd)"
same 'what dpkg finds changed' '' "$(inside dpkg -V komd)"
same 'the folder of the store' '700 komd komd' "$(inside stat -c '%a %U %G' /var/lib/komd)"
same 'the user' '/var/lib/komd /usr/sbin/nologin' "$(inside getent passwd komd | cut -d : -f 6,7 | tr : ' ')"
same 'an answer' 'LysKOM =1 1' "$(printf 'A1Ha\n1 56\n' | inside komd once | paste -sd ' ')"
printf 'a first one\nBirgit\na second one\n' >"$copy/tmp/words"
chmod 644 "$copy/tmp/words"
as_komd() {
    inside setpriv --reuid komd --regid komd --clear-groups "$@"
}

store=/var/lib/komd/store
same 'the first day' "the store is made at $store, and person 6 is the second administrator" \
    "$(as_komd komd-first-day $store <"$copy/tmp/words")"
same 'the store' '600 komd komd' "$(inside stat -c '%a %U %G' $store)"
same 'a copy' 1 "$(inside komd-backup save $store /root/copies | grep -c ': batches .* conferences 6 persons 2 texts 0$')"
same 'who is an administrator' 'administrator 5 Administrator administrator 6 Birgit' "$(as_komd komd-rescue $store | tail -n 2 | paste -sd ' ')"
same 'why a komd ended' 'komd: status 4: /etc/passwd is no store of komd: it begins with the bytes 72 6f 6f 74 3a 78 3a 30' \
    "$(as_komd komd-why 4 /etc/passwd)"

# What asks a server.
port=$((20000 + RANDOM % 10000))
chroot "$copy" setpriv --reuid komd --regid komd --clear-groups komd hub $store "$port" 1 &
server=$!
for _ in {1..100}; do
    ! inside komd-probe localhost "$port" 2 >/dev/null || break
    sleep 0.1
done
same 'a probe' 'KOMD OK' "$(inside komd-probe localhost "$port" 10 | cut -d ' ' -f 1,2)"
same 'measures' 'komd_up 1' "$(as_komd komd-metrics --port "$port" | grep -v '^#' | head -n 1)"
same 'a mailbox' '0 texts' "$(echo 'a first one' | inside komd-mbox --port "$port" 5 /root/mailbox)"
same 'who comes' 'komd-log: person 5 cannot log in with this password: call 62 was refused with error 4, status 5' \
    "$(echo 'another one' | inside komd-log --port "$port" 5 2>&1)"
echo 'a first one' >"$copy/tmp/password"
chmod 640 "$copy/tmp/password"
same 'a sweep' 'swept 0 kept 0' "$(inside komd-sweep --delete --port "$port" 5 /tmp/password | paste -sd ' ')"
same 'bringing over' 'conferences 6, persons 2, texts 0, recipients 0, memberships 2, marks 0, items 0' \
    "$(echo 'a first one' | as_komd komd-import "$port" 5 /var/lib/komd/brought /var/lib/komd/passwords)"
same 'what was brought over' 'conferences 6 persons 2 texts 0' "$(as_komd komd check /var/lib/komd/brought | tail -n 3 | paste -sd ' ')"
kill "$server"
wait "$server" 2>/dev/null || true
server=
same 'a list of what nobody keeps' 'due 0 kept 0' "$(inside komd-sweep --store $store 5 /tmp/password | paste -sd ' ')"
rm -f "$copy"/var/lib/komd/{brought,passwords} "$copy/root/mailbox"
for tool in kom komd-{backup,first-day,front,import,log,mbox,metrics,probe,rescue,sweep,why}; do
    inside "$tool" --help >"$copy/tmp/said" 2>&1 || same "the usage of $tool" 0 $?
    same "a page of $tool" yes "$([ -e "$copy/usr/share/man/man8/$tool.8.gz" ] || [ -e "$copy/usr/share/man/man1/$tool.1.gz" ] && echo yes)"
done
for page in "$copy"/usr/share/man/man[18]/kom*.gz; do
    same "warnings of $page" '' "$(zcat "$page" | man --warnings -E UTF-8 -Tutf8 -Z -l - 2>&1 >/dev/null)"
done
inside dpkg -i /komd.deb >"$copy/tmp/said" 2>&1 || { cat "$copy/tmp/said"; exit 1; }
same 'the store after a second installation' 600 "$(inside stat -c %a /var/lib/komd/store)"
inside dpkg -r komd >"$copy/tmp/said" 2>&1 || { cat "$copy/tmp/said"; exit 1; }
same 'the store after the removal' 600 "$(inside stat -c %a /var/lib/komd/store)"
inside dpkg -P komd >"$copy/tmp/said" 2>&1 || { cat "$copy/tmp/said"; exit 1; }
files >"$copy/tmp/after"
same 'what is left' './var/lib/komd ./var/lib/komd/store' \
    "$(comm -13 "$copy/tmp/before" "$copy/tmp/after" | grep -v -E '^\./(root/copies|etc/(passwd|group|g?shadow|subuid|subgid)-)' | paste -sd ' ')"
same 'what is missing' '' "$(comm -23 "$copy/tmp/before" "$copy/tmp/after")"
same 'the program' 127 "$(inside komd >/dev/null 2>&1; echo $?)"
echo "$tried things looked at, $failed are otherwise"
[ $failed -eq 0 ]
