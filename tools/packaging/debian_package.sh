#!/bin/bash
# Makes a Debian package of the built program komd, its units, the tools around it, manual pages and documents:
#
#     debian_package.sh KOMD FOLDER [KOMC KOMT]
#
# With KOMC and KOMT, the built clients, it has these, `kom` and their pages too. The package's name is printed, which ends with the machine's
# architecture, and it lies in FOLDER. It makes the user komd with /var/lib/komd (mode 0700), and the user komd-front with
# /etc/komd-front, and starts nothing. It depends on Python, so that all that the pages name is there on a bad day, when nothing can be
# fetched. Needs dpkg-deb, git, readelf, and the kit, which has the licences of what the programs are built from.
set -euo pipefail
# shellcheck source-path=SCRIPTDIR source=../common/script.sh
. "$(dirname "${BASH_SOURCE[0]}")/../common/script.sh"
usage='usage: debian_package.sh KOMD FOLDER [KOMC KOMT]'
komd=$(realpath "${1:?$usage}")
folder=$(realpath "${2:?$usage}")
komc=${3:+$(realpath "$3")} komt=${4:+$(realpath "$4")}
kit=$(dirname "$(rt doc | tail -1)")
made=$work
chmod 755 "$made"
umask 022
version=1.0
architecture=$(dpkg --print-architecture)
maintainer='Jonkhulei maintainers <maintainers@users.noreply.jonkhulei.example>'
SOURCE_DATE_EPOCH=$(git -C "$root" log -1 --format=%ct)
export SOURCE_DATE_EPOCH
date=$(date -u -R -d "@$SOURCE_DATE_EPOCH")
libc=$(readelf --version-info "$komd" ${komc:+"$komc"} ${komt:+"$komt"} | grep -o 'GLIBC_[0-9][0-9.]*' | sort -uV | tail -n 1)
documents=$made/usr/share/doc/komd

# put MODE FOLDER FILE..: copies files into a folder of the package
put() {
    install -D -m "$1" -t "$made$2" "${@:3}"
}

# pages NAME..: the manual pages of these names
pages() {
    local page
    for page in "$@"; do
        mkdir -p "$made/usr/share/man/man${page##*.}"
        gzip -9n <"$root/man/$page" >"$made/usr/share/man/man${page##*.}/$page.gz"
    done
}

install -D -s -m 755 "$komd" "$made/usr/sbin/komd"
if [ -n "$komc" ]; then
    put 755 /usr/bin "$root/contrib/kom"
    install -s -m 755 "$komc" "$made/usr/bin/komc"
    install -s -m 755 "${komt:?$usage}" "$made/usr/bin/komt"
    pages komc.1 komt.1
    ln -s komt.1.gz "$made/usr/share/man/man1/kom.1.gz"
fi

# The tools stand beside the modules that they share, and are found on the path.
tools=$(find "$root/contrib" -maxdepth 1 -name 'komd-*' -perm -u+x -printf '%f ')
mkdir -p "$made"/usr/{bin,sbin}
for tool in $tools; do
    put 755 /usr/share/komd "$root/contrib/$tool"
    ln -s "../share/komd/$tool" "$made/usr/$([ "$tool" = komd-mbox ] && echo bin || echo sbin)/$tool"
done
put 755 /usr/share/komd "$root/contrib/rescue.py"
ln -s ../share/komd/rescue.py "$made/usr/sbin/komd-rescue"
put 644 /usr/share/komd "$root"/contrib/{komd.nft,protocol_a.py,tool.py}
for part in importing komd_front sweeping web; do
    (cd "$root/contrib" && find "$part" -type f ! -path '*/__pycache__/*' ! -name package.json) | while IFS= read -r file; do
        put 644 "/usr/share/komd/$(dirname "$file")" "$root/contrib/$file"
    done
done
mapfile -t names < <(cd "$root/man" && ls komd*)
pages "${names[@]}"
put 644 /usr/lib/systemd/system "$root"/contrib/*.{service,timer}
put 644 /usr/share/doc/komd "$root"/docs/{emacs,moving,operating,protocol,secrecy,promises,store,web}.md
put 644 /usr/share/doc/komd "$root"/contrib/komd-front.nginx
printf 'komd (%s) unstable; urgency=medium\n\n  * Built from commit %s.\n\n -- %s  %s\n' \
    "$version" "$(git -C "$root" rev-parse --short HEAD)" "$maintainer" "$date" | gzip -9n >"$documents/changelog.gz"

# Which crates of the kit the programs are built from stands in crates.txt; those that have a licence of their own.
licences() {
    local crate licence
    for crate in $(sed '/^#/d; s/:/ /' "$root/crates.txt" | tr ' ' '\n' | sort -u); do
        [ ! -d "$root/crates/$crate" ] || continue
        for licence in "$kit/rattle/$crate"/LICENSE{-MIT,}; do
            [ -f "$licence" ] || continue
            printf '\nThe programs are built from %s also, which is under this licence:\n\n' "$crate"
            sed 's/^/    /; s/ *$//' "$licence"
            break
        done
    done
}
{
    printf 'komd, komc, komt and the tools around them are by the Jonkhulei maintainers. Their sources name no licence.\n'
    licences
} >"$documents/copyright"

mkdir "$made/DEBIAN"
cat >"$made/DEBIAN/control" <<END
Package: komd
Version: $version
Architecture: $architecture
Maintainer: $maintainer
Installed-Size: $(du -sk --apparent-size "$made" | cut -f 1)
Depends: libc6 (>= ${libc#GLIBC_}), adduser, ${komc:+perl, }python3 (>= 3.9)
Recommends: openssl, python3-aiohttp, rlwrap
Suggests: lyskom-elisp-client, nftables, psmisc
Section: net
Priority: optional
Description: LysKOM server
 Persons write texts to conferences of each other, comment on them and read
 them. The server speaks LysKOM Protocol A, version 11, and keeps what it was
 told in one file. Its functions are proved to do what their contracts say.
END
cat >"$made/DEBIAN/postinst" <<'END'
#!/bin/sh
set -e
if [ "$1" = configure ]; then
    for user in komd komd-front; do
        if ! getent passwd "$user" >/dev/null; then
            adduser --system --group --quiet --home "/var/lib/$user" --no-create-home "$user"
        fi
    done
    if [ ! -d /var/lib/komd ]; then
        install -d -m 0700 -o komd -g komd /var/lib/komd
    fi
    if [ ! -d /etc/komd-front ]; then
        install -d -m 0750 -g komd-front /etc/komd-front
    fi
    if [ -d /run/systemd/system ]; then
        systemctl daemon-reload
        # A server that serves goes on with the new program.
        if [ -n "$2" ]; then
            systemctl try-restart komd.service komd-front.service
        fi
    fi
fi
END
cat >"$made/DEBIAN/prerm" <<'END'
#!/bin/sh
set -e
if [ "$1" = remove ]; then
    if [ -d /run/systemd/system ]; then
        systemctl stop komd-front.service 'komd-log@*.service' 'komd-sweep@*.timer' komd.service komd-backup.timer
    fi
    if command -v systemctl >/dev/null; then
        systemctl disable --quiet komd-front.service komd.service komd-backup.timer
        rm -f /etc/systemd/system/multi-user.target.wants/komd-log@*.service /etc/systemd/system/timers.target.wants/komd-sweep@*.timer
    fi
fi
END
cat >"$made/DEBIAN/postrm" <<'END'
#!/bin/sh
set -e
if [ "$1" = remove ] && [ -d /run/systemd/system ]; then
    systemctl daemon-reload
fi
# The texts are not the package's to delete, nor are the keys.
if [ "$1" = purge ]; then
    for folder in /var/lib/komd /var/lib/komd-front /etc/komd-front; do
        [ ! -d "$folder" ] || rmdir --ignore-fail-on-non-empty "$folder"
    done
fi
END
chmod 755 "$made"/DEBIAN/{postinst,prerm,postrm}
(cd "$made" && find usr -type f -print0 | sort -z | xargs -0 md5sum) >"$made/DEBIAN/md5sums"
find "$made" -exec touch -h -d "@$SOURCE_DATE_EPOCH" {} +
dpkg-deb --root-owner-group --build "$made" "$folder/komd_${version}_$architecture.deb" >/dev/null
echo "$folder/komd_${version}_$architecture.deb"
