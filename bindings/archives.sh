#!/bin/sh
# Makes the archives for C out of the proved crate `resolve_c`: libresolve.a, libresolve_judge.a (the judge alone: the linker
# leaves out what `resolve_judge` doesn't reach) and libresolve.so.
#
# Usage: bindings/archives.sh FOLDER
# Takes crates/resolve_c/out/libresolve_c.a, which `tools/prove.py resolve_c` leaves there, and the kit's C part (KIT/c/liblibc_c.a), which
# passes requests for memory on to malloc, realloc and free.
set -eu

to=${1:?usage: bindings/archives.sh FOLDER}
top=$(cd "$(dirname "$0")/.." && pwd)
kit=$(dirname "$(rt doc)")
proved=$top/crates/resolve_c/out/libresolve_c.a
heap=$kit/c/liblibc_c.a
[ -f "$proved" ] || { echo "no $proved: run tools/prove.py resolve_c" >&2; exit 1; }

mkdir -p "$to"
to=$(cd "$to" && pwd)
work=$(mktemp -d)
trap 'rm -rf "$work"' EXIT

# one object with the exports NAME.. of both archives, and no other global name
object() {
	file=$1
	shift
	wanted=
	kept=
	for name; do
		wanted="$wanted -u $name"
		kept="$kept --keep-global-symbol=$name"
	done
	# shellcheck disable=SC2086
	ld -r --gc-sections $wanted -o "$work/$file.o" --whole-archive "$proved" --no-whole-archive "$heap"
	# shellcheck disable=SC2086
	objcopy $kept --strip-unneeded "$work/$file.o"
	rm -f "$to/lib$file.a"
	(cd "$work" && ar rcsD "$to/lib$file.a" "$file.o")
}

object resolve resolve_solve resolve_solve_within resolve_judge
object resolve_judge resolve_judge
cc -shared -s -Wl,--build-id=none -Wl,-z,noexecstack -o "$to/libresolve.so" -Wl,--whole-archive "$to/libresolve.a" -Wl,--no-whole-archive
