#!/bin/bash
# The monitor with Debian's packages: Nagios's pages (nagios4-cgi) and NSCA over its files (tests/packages.py), a browser and promtool
# (tests/page_pictures.py), gearmand with workers, NRPE and SSH (tests/packages_gearman.py). Then a runner over SSH (tests/packages_ssh.py), Alertmanager
# (tests/packages_alerts.py), Livestatus's clients (tests/packages_livestatus.py; NagVis needs php-cli, and Perl libmonitoring-livestatus-perl), the trial on
# Nagios as README and the tutorial have it (tests/packages_trial.py), and the second opinion: as its page has it (tests/packages_opinion.py), and for an hour
# (tests/packages_hour.py). A package that isn't installed is fetched and unpacked into a temporary folder.
# chromium-headless-shell and prometheus are installed if PICTURES is named, they are missing and root runs this. A package that can't be fetched is named,
# and its trial is skipped.
#
#     monitor/tests/packages.sh PROGRAM [pages [PICTURES] | gearman [WHAT..] | ssh [CUTS] | alerts [SECONDS] | livestatus | trial | opinion | hour FOLDER [SECONDS]]
#
# PROGRAM is nagsched, PICTURES a folder for pictures of the pages, and packages_gearman.py describes WHAT. CUTS is how often the connection is cut. SECONDS is
# how long Alertmanager is away, or how long Nagios runs. Without a second argument all parts are tried, except the last three: they install packages, and
# need root and a machine that can be thrown away.
set -eu
program=$(realpath "$1")
parts=("${2:-all}")
pictures=
what=()
case ${parts[0]} in
    all) parts=(pages gearman ssh alerts livestatus) ;;
    pages) pictures=${3:+$(realpath -m "$3")} ;;
    gearman | ssh | alerts) what=("${@:3}") ;;
    hour) what=("$(realpath -m "$3")" "${@:4}") ;;
    livestatus | trial | opinion) ;;
    *) echo "packages: there is no part ${parts[0]}: name pages, gearman, ssh, alerts, livestatus, trial, opinion or hour" >&2; exit 2 ;;
esac
here=$(cd "$(dirname "$0")" && pwd)
work=$(mktemp -d)
trap 'rm -rf "$work"' EXIT
cd "$work"

# Pictures of the monitor's page, and promtool's report about its figures.
pictures() {
    mkdir -p "$pictures"
    for needed in chromium-headless-shell:chromium-headless-shell promtool:prometheus; do
        command -v "${needed%%:*}" > /dev/null || [ "$(id -u)" -ne 0 ] ||
            apt-get install -y --no-install-recommends "${needed##*:}" > apt.out 2>&1 || tail -n 2 apt.out
    done
    (cd "$here/.." && python3 -m tests.page_pictures "$pictures")
}

pages() {
    [ -z "$pictures" ] || pictures
    apt-get download nagios4-cgi >apt.out 2>&1 || { cat apt.out; echo "packages: nagios4-cgi can't be fetched" >&2; return 1; }
    apt-get download nsca nsca-client libmcrypt4 >apt.out 2>&1 || echo "packages: passed over NSCA, which can't be fetched"
    for package in *.deb; do
        dpkg -x "$package" unpacked
    done
    libraries=$(find unpacked -name 'libmcrypt.so.4' -printf '%h\n' | head -1)
    [ -z "$libraries" ] || export LD_LIBRARY_PATH="$work/$libraries"
    cgis=$work/$(dirname "$(find unpacked -name status.cgi)")
    tools=()
    [ ! -x unpacked/usr/sbin/nsca ] || [ ! -x unpacked/usr/sbin/send_nsca ] || tools=("$work/unpacked/usr/sbin/nsca" "$work/unpacked/usr/sbin/send_nsca")
    for file in "$cgis/status.cgi" ${tools[@]+"${tools[@]}"}; do
        missing=$(ldd "$file" | awk '/not found/ {print $1}')
        [ -z "$missing" ] || { echo "packages: $(basename "$file") wants $missing" >&2; return 1; }
    done
    (cd "$here/.." && python3 -m tests.packages "$program" "$work/unpacked" "$cgis" "$pictures" ${tools[@]+"${tools[@]}"})
}

# A package with its missing dependencies, unpacked in the folder in which the trials look for it.
fetch() {
    mkdir -p archives/partial
    if apt-get -y --no-install-recommends --download-only --reinstall -o Dir::Cache::archives="$work/archives" install "$@" >apt.out 2>&1; then
        for package in archives/*.deb; do
            dpkg -x "$package" unpacked
        done
    else
        echo "packages: $* can't be fetched"
    fi
}

gearman() {
    export PATH="$PATH:/usr/sbin:/sbin"
    command -v gearmand >/dev/null || fetch gearman-job-server
    command -v nrpe >/dev/null && [ -x /usr/lib/nagios/plugins/check_nrpe ] || fetch nagios-nrpe-server nagios-nrpe-plugin
    command -v sshd >/dev/null && [ -x /usr/lib/nagios/plugins/check_by_ssh ] || fetch openssh-server monitoring-plugins-basic
    if [ -d unpacked ]; then
        libraries=$(find unpacked -name '*.so.*' -printf "$work/%h\n" | sort -u | paste -sd:)
        export LD_LIBRARY_PATH="${LD_LIBRARY_PATH:+$LD_LIBRARY_PATH:}$libraries" PLUGINS="$work/unpacked/usr/lib/nagios/plugins"
        export PATH="$PATH:$work/unpacked/usr/sbin:$work/unpacked/usr/bin"
    fi
    python3 "$here/packages_gearman.py" "$program" ${what[@]+"${what[@]}"}
}

alerts() {
    command -v prometheus-alertmanager >/dev/null || fetch prometheus-alertmanager
    [ ! -d unpacked ] || export PATH="$PATH:$work/unpacked/usr/bin"
    python3 "$here/packages_alerts.py" "$program" ${what[@]+"${what[@]}"}
}

livestatus() {
    for package in nagvis python3-pynag nagstamon; do
        apt-get download "$package" >apt.out 2>&1 || echo "packages: $package can't be fetched"
    done
    for package in nagvis*.deb python3-pynag*.deb nagstamon*.deb; do
        [ ! -f "$package" ] || dpkg -x "$package" unpacked
    done
    (cd "$here/.." && python3 -m tests.packages_livestatus "$program" "$work/unpacked")
}

ssh() {
    python3 "$here/packages_ssh.py" "$program" ${what[@]+"${what[@]}"}
}

# Runs a test that needs Nagios's packages. Waits while another program installs some.
with_nagios() {
    local packages=(nagios4 monitoring-plugins-basic monitoring-plugins-standard sudo)
    apt-get update > apt.out 2>&1
    DEBIAN_FRONTEND=noninteractive apt-get install -y --no-install-recommends -o DPkg::Lock::Timeout=300 "${packages[@]}" > apt.out 2>&1 ||
        { tail -n 2 apt.out; return 1; }
    (cd "$here/.." && python3 -m "tests.$1" "$program" ${what[@]+"${what[@]}"})
}

trial() {
    with_nagios packages_trial
}

opinion() {
    with_nagios packages_opinion
}

hour() {
    with_nagios packages_hour
}

status=0
for each in "${parts[@]}"; do
    ($each) || status=1
done
exit $status
