#!/usr/bin/env bash
# Makes the library of lv in the folder $2 of the archive of crates/lv_c, $1: liblv.a, and liblv.so, a link to the file that programs ask
# for, whose name ends with the first number of the version. The toolchain's calls of malloc, realloc and free are added, and both show
# the calls of include/lv.h alone, so that they can stand beside another library of this toolchain.
set -euo pipefail

shared=liblv.so.$(cut -d. -f1 "$(dirname "$0")/../../VERSION")
archive=$(realpath "$1")
heap=$(dirname "$(rt doc)")/c/liblibc_c.a
mkdir -p "$2"
folder=$(realpath "$2")
work=$(mktemp -d)
trap 'rm -rf "$work"' EXIT

cd "$work"
ar x "$archive"
ar x "$heap" heap.pic.o
ld -r -o whole ./*.o
objcopy --wildcard --keep-global-symbol='lv_*' whole lv.o
rm -f "$folder"/liblv.*
ar rcsD "$folder/liblv.a" lv.o
cc -shared -o "$folder/$shared" -Wl,-soname,"$shared" -Wl,--no-undefined lv.o
ln -s "$shared" "$folder/liblv.so"
