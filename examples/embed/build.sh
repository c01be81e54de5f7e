#!/bin/sh
# Builds the C programs and the shared library over the static library, runs the C and the Python
# example over the scripts of examples/, and compares their replies; then the what-if loop of a
# session, from C and from Python. It wants make, cc, python3 and the toolchain. build.sh HEAP names
# the file with `malloc` and `free` for Rattle where make does not find it.
set -e
here=$(cd "$(dirname "$0")" && pwd)
top=$(cd "$here/../.." && pwd)
make -C "$top" static
heap=${1:-$(make -s -C "$top" heap)}
library=$top/crates/gridlet_c/out/libgridlet_c.a
work=$(mktemp -d)
trap 'rm -rf "$work"' EXIT
cc -O2 -Wall -I "$top/include" -o "$work/embed" "$here/main.c" "$library" "$heap"
cc -O2 -Wall -I "$top/include" -o "$work/session" "$here/session.c" "$library" "$heap"
cc -shared -o "$work/libgridlet.so" -Wl,--whole-archive "$library" -Wl,--no-whole-archive "$heap"
printf 'set A1 2\nset B1 40\nset C1 =A1+B1\nshow C1\n' >"$work/first.gridlet"
printf 'ok\nok\nok\n42\n' >"$work/first.replies"
cp "$top"/examples/*.gridlet "$top"/examples/*.replies "$work"
for script in "$work"/*.gridlet; do
    name=$(basename "$script" .gridlet)
    "$work/embed" "$script" >"$work/by-c" || [ $? -eq 1 ]
    python3 "$here/embed.py" "$work/libgridlet.so" "$script" >"$work/by-python" || [ $? -eq 1 ]
    cmp "$work/by-c" "$work/$name.replies"
    cmp "$work/by-python" "$work/$name.replies"
    echo "$name: the same replies from C and from Python"
done
"$work/session"
python3 "$here/session.py" "$work/libgridlet.so"
