#!/usr/bin/env bash
# Makes Debian packages from the built files: nagsched, libnagsched3, libnagsched-dev, python3-nagsched, nagsched-monitor. The number
# is the version of the library's interface.
#   tools/package.sh [DIRECTORY]     out/packages if no folder is named
# It builds and proves nothing: tools/install.sh installs the built files, and prints which command to run if one is missing. Without the C library
# only nagsched and nagsched-monitor are made. Needs dpkg-deb and the binutils.
set -eu -o pipefail
top=$(cd "$(dirname "$0")/.." && pwd)
export PYTHONDONTWRITEBYTECODE=1
for program in dpkg-deb strip objdump; do
    command -v "$program" > /dev/null || { echo "package: $program is missing: apt-get install dpkg binutils" >&2; exit 1; }
done
mkdir -p "${1:-$top/out/packages}"
packages=$(cd "${1:-$top/out/packages}" && pwd)
# A version such as 1.0.0-dev comes before 1.0.0, which Debian writes with a tilde.
version=$(tr - '~' < "$top/VERSION")
maintainer="Luksmeiro <nagsched@luksmeiro.example>"
surface=$(sed -n 's/^#define NAGSCHED_VERSION \([0-9]*\)u$/\1/p' "$top/c/nagsched.h")
work=$(mktemp -d)
trap 'rm -rf "$work"' EXIT
DESTDIR=$work/all "$top/tools/install.sh" /usr
all=$work/all/usr
built=$(python3 "$top/tools/build_file.py" show "$top/crates/nagsched/out/nagsched")
shared=()
[ ! -e "$all/lib/libnagsched.so.$surface" ] || shared=("$all/lib/libnagsched.so.$surface")
strip --strip-unneeded "$all/bin/nagsched" "$all/lib/nagsched/nagsched-runner" "${shared[@]}"
python3 "$top/tools/build_file.py" copy "$top/crates/nagsched/out/nagsched" "$all/bin/nagsched" "$all/share/nagsched/nagsched.build"
glibc=$(objdump -T "$all/bin/nagsched" "${shared[@]}" | grep -o 'GLIBC_[0-9.]*' | sort -V | tail -n 1 | cut -d_ -f2)

# Scripts that make the monitor's user, and inform systemd about the unit, when the monitor's package is installed.
scripts_of_the_service() {
    cat > "$1/postinst" <<'END'
#!/bin/sh
set -e
if [ "$1" = configure ]; then
    systemd-sysusers nagsched-monitor.conf
    if [ -d /run/systemd/system ]; then
        systemctl daemon-reload
        # After an upgrade the running sites continue with the new program.
        [ -z "$2" ] || systemctl try-restart 'nagsched-monitor@*.service'
    fi
fi
END
    cat > "$1/prerm" <<'END'
#!/bin/sh
set -e
if [ "$1" = remove ] && [ -d /run/systemd/system ]; then
    systemctl stop 'nagsched-monitor@*.service'
fi
END
    cat > "$1/postrm" <<'END'
#!/bin/sh
set -e
# The user stays, and so does /var/lib/nagsched, which contains the sites.
if [ -d /run/systemd/system ]; then
    systemctl daemon-reload
fi
END
    chmod 755 "$1/postinst" "$1/prerm" "$1/postrm"
}

# What a package says of its proofs. The C library is built only if it is proved; the program has a record.
claim_of() {
    case $1,$built in
        lib*|python*|*", proved") echo "Its code is proved." ;;
        *) echo "No record says that this build is proved." ;;
    esac
}

# Makes a package: NAME ARCHITECTURE SECTION DEPENDS SUMMARY FILE.. Each file is moved out of the whole.
package() {
    local name=$1 architecture=$2 section=$3 depends=$4 summary=$5 file folder=$work/$1
    shift 5
    for file in "$@"; do
        mkdir -p "$folder/usr/$(dirname "$file")"
        mv "$all/$file" "$folder/usr/$(dirname "$file")/"
    done
    mkdir -p "$folder/usr/share/doc/$name" "$folder/DEBIAN"
    cp "$top/CHANGELOG.md" "$folder/usr/share/doc/$name/"
    printf 'nagsched (%s) unstable; urgency=medium\n\n  * CHANGELOG.md next to this file has what changed.\n\n -- %s  %s\n' "$version" "$maintainer" \
        "$(date -u -R -r "$top/CHANGELOG.md")" | gzip -9n > "$folder/usr/share/doc/$name/changelog.gz"
    find "$folder/usr/share/man" -name '*.[135]' -exec gzip -9n {} + 2> /dev/null || true
    cat > "$folder/DEBIAN/control" <<END
Package: $name
Version: $version
Architecture: $architecture
Maintainer: $maintainer
Section: $section
Priority: optional
Depends: $depends
Installed-Size: $(du -sk --apparent-size "$folder/usr" | cut -f1)
Description: $summary
 nagsched decides which host or service check is due, and what each result
 means, by the rules of Nagios Core 4.
 $(claim_of "$name")
END
    if [ "$name" = nagsched-monitor ]; then
        scripts_of_the_service "$folder/DEBIAN"
    fi
    if [ "$section" = libs ]; then
        echo "activate-noawait ldconfig" > "$folder/DEBIAN/triggers"
        echo "libnagsched $surface $name (>= $version)" > "$folder/DEBIAN/shlibs"
    fi
    (cd "$folder" && find usr -type f -exec md5sum {} + | sort -k2 > DEBIAN/md5sums)
    dpkg-deb --root-owner-group --build "$folder" "$packages/${name}_${version}_${architecture}.deb" > /dev/null
    echo "$packages/${name}_${version}_${architecture}.deb"
}

if [ "${#shared[@]}" -gt 0 ]; then
    package "libnagsched$surface" amd64 libs "libc6 (>= $glibc)" "scheduler of active checks, the library" "lib/libnagsched.so.$surface"
    package libnagsched-dev amd64 libdevel "libnagsched$surface (= $version)" "scheduler of active checks, for programs in C" \
        lib/libnagsched.so lib/libnagsched.a include/nagsched.h lib/pkgconfig/nagsched.pc share/man/man3
    package python3-nagsched all python "python3 (>= 3.9), libnagsched$surface (= $version)" "scheduler of active checks, for Python" \
        lib/python3/dist-packages/nagsched
fi
package nagsched-monitor amd64 net "python3 (>= 3.9), nagsched (= $version), systemd | systemd-standalone-sysusers" "monitor of a site's hosts and services" \
    bin/nagsched-monitor bin/nagsched-runner bin/nagsched-gearman-worker bin/nagsched-from-nagios bin/nagsched-second-opinion lib/nagsched lib/systemd lib/sysusers.d share/man/man1/nagsched-monitor.1 share/man/man1/nagsched-from-nagios.1 share/man/man1/nagsched-second-opinion.1 \
    share/bash-completion/completions/nagsched-monitor share/doc/nagsched/{monitor,tutorial,alerting,scaling,from-nagios,before-you-switch,second-opinion}.md
package nagsched amd64 net "libc6 (>= $glibc)" "scheduler of active checks, the program" bin/nagsched share
