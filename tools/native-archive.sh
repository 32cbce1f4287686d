#!/bin/sh
# native-archive.sh she|garage|bench: proves what C calls of it and writes target/native/libNAME.a, for C programs of this very
# machine. One that this kit made, and that is newer than every file of the crates, is left as it is.
#
# The kit compiles for x86-64. On another processor, where the kit has a compiler for it, that one is asked for its code as well: by a
# copy of the kit made of links, in which `clang` is a script that does what it is told, puts the x86-64 object aside as
# target/native/NAME-x86-64.o, and hands the same module to the same compiler without the x86-64 flags. What is proved, and the
# module that is compiled, are the same; only the last step differs.
set -eu
name=$1
case $name in
garage) crate=garage_c ;; # the library of that name is for other crates
*) crate=$name ;;
esac
machine=$(uname -m)
mkdir -p target/native
made=target/native/lib$name.a began=target/native/$name.began
is_of_this_kit() {
    [ -f "$made" ] && [ "$(cat "$began" 2>/dev/null)" = "$(rt version)" ]
}
is_newest() { # what the kit keeps of its own work lies in out/
    [ -z "$(find crates crates.txt "$0" -name out -prune -o -newer "$made" -print -quit)" ]
}
if is_of_this_kit && is_newest; then
    exit 0
fi
rm -f "$made"
rt version >"$began"
archive() { # the kit's own, proved first; an edit of the crates after the start is newer than it
    # shellcheck disable=SC2016
    sh tools/watch.sh "proving and compiling $name" target/native/log sh -c 'cd "crates/$1" && exec rt lib' sh "$crate" ||
        { cat target/native/log; exit 1; }
    cp "crates/$crate/out/lib$crate.a" "$made"
    touch -r "$began" "$made"
}
if [ "$machine" = x86_64 ]; then
    archive
    exit 0
fi
kit=$(dirname "$(rt doc)")
[ -d "$kit/on/$machine" ] || { echo "the kit writes archives for x86-64, and has no compiler for $machine"; exit 1; }
copy=$(pwd)/target/native/kit
link_all() { # FROM TO BUT: links to everything of a folder but one name
    mkdir -p "$2"
    for item in "$1"/*; do
        [ "$(basename "$item")" = "$3" ] || ln -sfn "$item" "$2/"
    done
}
link_all "$kit" "$copy" on
link_all "$kit/on/$machine" "$copy/on/$machine" toolchain
link_all "$kit/on/$machine/toolchain" "$copy/on/$machine/toolchain" bin
link_all "$kit/on/$machine/toolchain/bin" "$copy/on/$machine/toolchain/bin" clang
compiler=$kit/on/$machine/toolchain/bin/clang
cat >"$copy/on/$machine/toolchain/bin/clang" <<SCRIPT
#!/bin/sh
set -eu
"$compiler" "\$@"
while [ \$# -gt 0 ]; do
    case \$1 in
    -o) out=\$2; shift ;;
    *.bc) module=\$1 ;;
    esac
    shift
done
cp "\$out" "$(pwd)/target/native/$name-x86-64.o"
"$compiler" --target=x86_64-unknown-linux-gnu -S -emit-llvm -Xclang -disable-llvm-passes -O3 -x ir "\$module" -o "\$module.ll"
grep -v -e '^target datalayout' -e '^target triple' "\$module.ll" >"\$module.native.ll"
exec "$compiler" -O3 -fPIC -ffunction-sections -fdata-sections -Wno-override-module -c -x ir "\$module.native.ll" -o "\$out"
SCRIPT
chmod +x "$copy/on/$machine/toolchain/bin/clang"
export RATTLE_HOME="$copy"
archive
