#!/bin/sh
# Makes a release of the commit that is checked out: resolve-VERSION-x86_64-linux.tar.xz, with the proved program, the archives for
# other languages, the tools, the documents and the examples. Two runs over one commit give one sum.
#
# Usage: tools/release.sh [FOLDER]     (default: out)
# VERSION is taken from the environment, else it is the day of the commit. GATE_LOG may name what the gate printed over this commit:
# its last lines go into PROVENANCE. tools/prove.py proves and builds what isn't proved on this machine. Needs a C compiler, git and xz.
set -eu

to=${1:-out}
cd "$(dirname "$0")/.."
[ -z "$(git status --porcelain)" ] || { echo "the checkout has changes: commit them first" >&2; exit 1; }
commit=$(git rev-parse HEAD)
seconds=$(git log -1 --format=%ct)
version=${VERSION:-$(date -u -d "@$seconds" +%Y.%m.%d)}
name=resolve-$version-x86_64-linux
kit=$(dirname "$(rt doc)")

python3 tools/prove.py --object >&2
python3 tools/prove.py resolve_c >&2
crates/resolve/out/resolve solve examples/app.catalogue examples/app.request | cmp - examples/app.report

mkdir -p "$to"
to=$(cd "$to" && pwd)
work=$(mktemp -d)
trap 'rm -rf "$work"' EXIT
top=$work/$name
mkdir -p "$top/bin" "$top/lib" "$top/include" "$top/share/man/man1"

git archive HEAD README.md LICENSE NOTICE docs tools bindings examples checks/lrat_checker.py | tar -x -C "$top"
mv "$top/docs/resolve.1" "$top/share/man/man1/resolve.1"
cp bindings/c/resolve.h "$top/include/resolve.h"
bindings/archives.sh "$top/lib"
cp "$top/lib/libresolve.so" "$top/bindings/python/resolve/libresolve.so"
cp crates/resolve/out/resolve "$top/bin/resolve"
# the same object, without a loader and a C library beside it
cc -static -s -Wl,--build-id=none -o "$top/bin/resolve-static" crates/resolve/out/resolve.o "$kit/c/libos_c.a" "$kit/c/liblibc_c.a"

needed() {
	readelf -d "$1" | sed -n 's/.*(NEEDED).*\[\(.*\)\]/\1/p' | tr '\n' ' '
}

# the libraries of the kit that crates.txt names
of_kit() {
	sed -e 's/#.*//' -e 's/^[^:]*://' crates.txt | tr ' ' '\n' | grep -v '^resol' | grep . | sort -u | paste -s -d , | sed 's/,/, /g'
}

gate() {
	if [ -n "${GATE_LOG:-}" ]; then
		tail -n 3 "$GATE_LOG"
	else
		echo "(GATE_LOG was not given)"
	fi
}

{
	echo "resolve $version"
	echo
	echo "Commit: $commit, of $(date -u -d "@$seconds" +%Y-%m-%d)"
	echo "Proved and compiled with: $(rt version)"
	echo "C compiler of the static program and of libresolve.so: $(cc --version | head -n 1)"
	echo
	echo "The gate's last lines:"
	gate | sed 's/^/    /'
	echo
	echo "What links what:"
	echo "    bin/resolve: $(needed "$top/bin/resolve")"
	echo "    bin/resolve-static: nothing; the C library is in it"
	echo "    lib/libresolve.so: $(needed "$top/lib/libresolve.so")"
	echo "    lib/libresolve.a, lib/libresolve_judge.a: malloc, realloc, free, memmove and the like of the program"
	echo
	echo "Whose code is in the programs and archives: this repository's (LICENSE); the standard library of the Rattle kit, and its crates"
	echo "$(of_kit); the kit's C part, which passes requests on to the system; in bin/resolve-static also the"
	echo "system's C library. The kit carries no licence text of its own."
	echo
	echo "Trusted beside the proofs: the kit (its prover, its compilers, the statements of its libraries), the C compiler and the C library,"
	echo "and the operating system. docs/CLAIMS.md says what is proved and what is tested."
} > "$top/PROVENANCE"

(cd "$top" && find . -type f ! -name SHA256SUMS | LC_ALL=C sort | sed 's|^\./||' | xargs -d '\n' sha256sum > SHA256SUMS)
tar -C "$work" --sort=name --mtime="@$seconds" --owner=0 --group=0 --numeric-owner --mode='u+rw,go=u-w' -cf - "$name" | xz -9 -T1 > "$to/$name.tar.xz"

echo "$to/$name.tar.xz: $(stat -c %s "$to/$name.tar.xz") bytes, unpacked $(du -sb "$top" | cut -f 1)"
sha256sum "$to/$name.tar.xz"
sed -n '/^What links what/,/^$/p' "$top/PROVENANCE"
