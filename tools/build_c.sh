#!/usr/bin/env bash
# Proves and builds the C library, and installs it in a folder.
#   tools/build_c.sh [--proved] [PREFIX]     out/c if no folder is named
# With --proved it uses the libraries that `rt ci` has just proved and left in this tree; otherwise `rt lib` proves them once more.
# PREFIX gets include/nagsched.h, lib/libnagsched.a, lib/libnagsched.so and lib/pkgconfig/nagsched.pc. Both libraries show
# only the names that the header declares, and need only the C library.
# Needs rt, python3, cc and the binutils: ld, ar, objcopy.
set -eu -o pipefail
top=$(cd "$(dirname "$0")/.." && pwd)
header=$top/c/nagsched.h
kit=$(dirname "$(rt doc)")
heap=$kit/c/liblibc_c.a
proved=
if [ "${1:-}" = --proved ]; then
    proved=yes
    shift
fi
mkdir -p "${1:-$top/out/c}"
prefix=$(cd "${1:-$top/out/c}" && pwd)
work=$(mktemp -d)
trap 'rm -rf "$work"' EXIT

# Proves nagsched_c over the existing libraries, and builds it.
over_proved() {
    local name folder words=(--extern "std=$kit/rlibs/std.rlib")
    for name in $(sed -n 's/^nagsched_c staticlib: //p' "$top/crates.txt"); do
        folder=$top/crates/$name/out/rlib
        [ -d "$top/crates/$name" ] || folder=$kit/rlibs
        words+=(--extern "$name=$folder/$name.rlib")
    done
    for folder in "$kit/rlibs" "$top"/crates/*/out/rlib; do
        words+=(-L "dependency=$folder")
    done
    mkdir -p out
    "$kit/bin/rattle" build --crate-name nagsched_c src/lib.rt "${words[@]}" --antt-project "$kit/rattle/logic/antt-project.json" \
        --logic-built "$kit/logic_built" --links nagsched_c= --crate-type staticlib --toolchain "$kit/toolchain" --backend llvm \
        --jobs "$(nproc)" -o out/libnagsched_c.a
}

if [ "$proved" ]; then build=over_proved; else build="rt lib"; fi
# Prints a line when the first function of another crate is proved. A crate that was proved before has none.
show_crates() {
    local line crate=
    while IFS= read -r line; do
        if [[ $line =~ ^[a-z]+\ ([a-z_0-9]+)::.*:\ proved && ${BASH_REMATCH[1]} != "$crate" ]]; then
            crate=${BASH_REMATCH[1]}
            echo "build_c, $((SECONDS / 60)) min: $crate is being proved"
        fi
    done
}

echo "build_c: proving nagsched_c and the crates below that aren't proved yet"
(cd "$top/crates/nagsched_c" && $build 2>&1 | tee "$work/build.log" | show_crates) || { cat "$work/build.log"; exit 1; }

version=$(sed -n 's/^#define NAGSCHED_VERSION \([0-9]*\)u$/\1/p' "$header")
sed -n -E 's/^(uint32_t|enum nagsched_result) (nagsched_[a-z_]*)\(.*/\2/p' "$header" > "$work/names"
{ echo '{ global:'; sed 's/$/;/' "$work/names"; echo 'local: *; };'; } > "$work/names.map"

# The guard replaces the proved functions that take a pointer, which get another name.
sed -n -E 's/^enum nagsched_result nagsched_([a-z_]*)\(.*/nagsched_\1 nagsched_proved_\1/p' "$header" > "$work/names.proved"
ld -r -o "$work/proved.o" --whole-archive "$top/crates/nagsched_c/out/libnagsched_c.a" --no-whole-archive "$heap"
objcopy --redefine-syms="$work/names.proved" "$work/proved.o"
cc -std=c11 -O2 -Wall -Wextra -Werror -fPIC -I"$top/c" -c "$top/c/guard.c" -o "$work/guard.o"

# One object with everything that the library needs, whose other names are local.
ld -r -o "$work/nagsched.o" "$work/guard.o" "$work/proved.o"
objcopy --keep-global-symbols="$work/names" "$work/nagsched.o"

mkdir -p "$prefix/include" "$prefix/lib/pkgconfig"
cp "$header" "$prefix/include/"
rm -f "$prefix/lib/libnagsched.a"
ar rcs "$prefix/lib/libnagsched.a" "$work/nagsched.o"
cc -shared -Wl,-soname,"libnagsched.so.$version" -Wl,--version-script="$work/names.map" -Wl,-z,defs \
    -o "$prefix/lib/libnagsched.so.$version" "$work/nagsched.o"
ln -sf "libnagsched.so.$version" "$prefix/lib/libnagsched.so"
cat > "$prefix/lib/pkgconfig/nagsched.pc" <<END
prefix=$prefix
commit=$(python3 "$top/tools/build_file.py" commit)
kit=$(rt version)
includedir=\${prefix}/include
libdir=\${prefix}/lib

Name: nagsched
Description: The proved scheduler of active checks
Version: $(cat "$top/VERSION")
Libs: -L\${libdir} -lnagsched
Cflags: -I\${includedir}
END
echo "build_c: the library is in $prefix, after $((SECONDS / 60)) minutes"
