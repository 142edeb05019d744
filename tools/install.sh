#!/usr/bin/env bash
# Installs the built files: the program, the C library, the Python module, the monitor, manual pages, the unit of systemd and its user, completions.
#   tools/install.sh [PREFIX]     /usr/local if no folder is named; DESTDIR is put before it
# It builds and proves nothing. What isn't built is named, with the command that builds it. Without the program or the runner nothing is installed;
# without the C library all but the library, its manual pages and the Python module is.
# NAGSCHED_BUILT is the folder of the C library, if it isn't out/c.
set -eu -o pipefail
top=$(cd "$(dirname "$0")/.." && pwd)
prefix=${1:-/usr/local}
case $prefix in /*) ;; *) prefix=$PWD/$prefix ;; esac
root=${DESTDIR:-}$prefix
program=$top/crates/nagsched/out/nagsched
runner=$top/monitor/out/nagsched-runner
built=${NAGSCHED_BUILT:-$top/out/c}
export PYTHONDONTWRITEBYTECODE=1

missing='' library=yes
[ -x "$program" ] || { echo "install: nagsched isn't built: tools/test.sh proves and builds it, tools/try.sh compiles it without proofs" >&2; missing=yes; }
[ -x "$runner" ] || { echo "install: nagsched-runner isn't built: monitor/build_runner.sh" >&2; missing=yes; }
[ -e "$built/lib/pkgconfig/nagsched.pc" ] || { echo "install: without the C library and the Python module, since the library isn't built: tools/build_c.sh" >&2; library=''; }
[ -z "$missing" ] || { echo "install: nothing is installed" >&2; exit 1; }

# Copies a file to a place below the root: MODE FILE PLACE.
place() { install -D -m "$1" "$2" "$root/$3"; }

place 755 "$program" bin/nagsched
mkdir -p "$root/share/nagsched"
python3 "$top/tools/build_file.py" copy "$program" "$root/bin/nagsched" "$root/share/nagsched/nagsched.build"
for module in "$top"/monitor/nagsched_monitor/*.py "$top"/monitor/nagsched_monitor/*/*.py "$top"/monitor/nagsched_monitor/*/*.css; do
    place 644 "$module" "lib/nagsched/${module#"$top"/monitor/}"
done
for script in nagsched-monitor nagsched-gearman-worker; do
    place 755 "$top/monitor/$script" "lib/nagsched/$script"
    ln -sf "../lib/nagsched/$script" "$root/bin/$script"
done
place 755 "$top/monitor/nagsched-gearman-runner" lib/nagsched/nagsched-gearman-runner
place 755 "$runner" lib/nagsched/nagsched-runner
ln -sf ../lib/nagsched/nagsched-runner "$root/bin/nagsched-runner"
for module in "$top"/monitor/from_nagios/nagios_*.py; do
    place 644 "$module" "lib/nagsched/$(basename "$module")"
done
place 755 "$top/monitor/from_nagios/from_nagios.py" lib/nagsched/from_nagios.py
place 644 "$top/VERSION" lib/nagsched/VERSION
place 755 "$top/tools/second_opinion.py" lib/nagsched/second_opinion.py
for file in "$top"/tools/second_opinion_*.py "$top"/tools/second_opinion.{cfg,html}; do
    place 644 "$file" "lib/nagsched/$(basename "$file")"
done
# The judge's rules, which the second opinion shares.
for module in model rows; do
    place 644 "$top/conformance/nagios/$module.py" "lib/nagsched/judge/$module.py"
done
ln -sf ../lib/nagsched/from_nagios.py "$root/bin/nagsched-from-nagios"
ln -sf ../lib/nagsched/second_opinion.py "$root/bin/nagsched-second-opinion"
unit=$(mktemp)
manual=$(mktemp -d)
pages=$(mktemp -d)
trap 'rm -rf "$unit" "$manual" "$pages"' EXIT
sed "s#/usr/local/bin#$prefix/bin#g" "$top/monitor/nagsched-monitor@.service" > "$unit"
place 644 "$unit" lib/systemd/system/nagsched-monitor@.service
place 644 "$top/monitor/nagsched-monitor.sysusers" lib/sysusers.d/nagsched-monitor.conf
python3 "$top/tools/manual.py" "$manual"
[ -n "$library" ] || rm -f "$manual"/*.3
for page in "$manual"/*; do
    place 644 "$page" "share/man/man${page##*.}/$(basename "$page")"
done
place 644 "$top/tools/completion/nagsched.bash" share/bash-completion/completions/nagsched
ln -sf nagsched "$root/share/bash-completion/completions/nagsched-monitor"
place 644 "$top/tools/completion/_nagsched" share/zsh/site-functions/_nagsched
python3 "$top/tools/pages.py" "$pages"
for page in "$pages"/*; do
    place 644 "$page" "share/doc/nagsched/$(basename "$page")"
done
for example in "$top"/examples/*.{txt,out,mjs,go} "$top"/c/examples/*.c "$top"/monitor/examples/*.yml; do
    place 644 "$example" "share/doc/nagsched/examples/$(basename "$example")"
done
for example in "$top"/{examples,python/examples,monitor/examples}/*.py; do
    place 755 "$example" "share/doc/nagsched/examples/$(basename "$example")"
done
# The loop in Rattle is a part of nagsched_loop: its file and, in a folder, the modules that it names.
place 644 "$top/crates/nagsched_loop/src/months.rt" share/doc/nagsched/examples/loop.rt
for module in environment fault resuming round runs; do
    place 644 "$top/crates/nagsched_loop/src/$module.rt" "share/doc/nagsched/examples/loop/$module.rt"
done
echo "install: $(python3 "$top/tools/build_file.py" show "$program"), in $root"
[ -n "$library" ] || exit 0
place 644 "$built/include/nagsched.h" include/nagsched.h
place 644 "$built/lib/libnagsched.a" lib/libnagsched.a
for library in "$built"/lib/libnagsched.so.*; do
    place 644 "$library" "lib/$(basename "$library")"
    ln -sf "$(basename "$library")" "$root/lib/libnagsched.so"
done
sed "s#^prefix=.*#prefix=$prefix#" "$built/lib/pkgconfig/nagsched.pc" > "$unit"
place 644 "$unit" lib/pkgconfig/nagsched.pc
# py.typed declares that type checkers may use the package's types.
for file in "$top"/python/nagsched/*.py "$top/python/nagsched/py.typed"; do
    place 644 "$file" "lib/python3/dist-packages/nagsched/$(basename "$file")"
done
