# Read by the run scripts of controller/ and fuzz/: has the LLVM module of a proved library written, which the toolchain compiles
# into its archive, and compiles modules. The toolchain's `rattle build` makes the module of a crate that is proved, and of no
# other, and hands it to the clang of the folder that --toolchain names. Here this is a folder whose clang keeps a copy of the
# module, and what LLVM is told, before it does what clang does. The scripts read archive.sh, and set `built`, where things are
# built, first.

# Sets `kit` to the toolchain that rt is of, and `clang` to its compiler.
find_kit() {
    need rt "the Rattle toolchain's command"
    kit=$(dirname "$(dirname "$(realpath "$(command -v rt)")")")
    clang=$kit/toolchain/bin/clang
    [ -x "$clang" ] || die "the toolchain has no clang: $clang"
}

# make_tools FILE: makes the folder `tools`, whose clang copies modules to FILE, and writes the options for LLVM that it is given.
# It has links, and stands outside the repository: rt ci refuses a checkout with a link in it.
make_tools() {
    tools=$(mktemp -d) || die "no folder for the tools"
    mkdir "$tools/bin"
    ln -s "$kit/toolchain/lib" "$tools/lib"
    for name in ld.lld llvm-ar; do
        ln -s "$kit/toolchain/bin/$name" "$tools/bin/$name"
    done
    cat >"$tools/bin/clang" <<END
#!/bin/sh
options= last=
for word; do
    case \$word in *.bc) cp -- "\$word" "$1" ;; esac
    [ "\$last" != -mllvm ] || options="\$options -mllvm \$word"
    last=\$word
done
echo "\$options" >"$built/options"
exec "$clang" "\$@"
END
    chmod +x "$tools/bin/clang"
}

# write_module CRATE FILE: writes the module, and beside it the archive that was made of it. The folder is a repository's, and
# what the crate uses is proved already (rt lib in the crate's folder).
write_module() {
    crate=$1 file=$2
    rm -f "$file.new"
    make_tools "$file.new"
    set --
    for name in $(sed -n "s/^$crate staticlib://p" crates.txt); do
        set -- "$@" --extern "$name=../$name/out/rlib/$name.rlib"
    done
    for folder in crates/*/out/rlib; do
        set -- "$@" -L "dependency=../../$folder"
    done
    status=0
    (cd "crates/$crate" && "$kit/bin/rattle" build --crate-type staticlib --crate-name "$crate" src/lib.rt \
        --extern "std=$kit/rlibs/std.rlib" "$@" -L "dependency=$kit/rlibs" \
        --antt-project "$kit/rattle/logic/antt-project.json" --logic-built "$kit/logic_built" \
        --toolchain "$tools" -o "${file%.bc}.a") >"${file%.bc}.log" 2>&1 || status=$?
    rm -rf "$tools"
    [ $status -eq 0 ] && grep -q '^logic=proved' "${file%.bc}.log" && mv "$file.new" "$file" ||
        die "no module of $crate: ${file%.bc}.log"
}

# write_text MODULE FILE: the module as text.
write_text() {
    "$clang" -S -emit-llvm -Xclang -disable-llvm-passes -x ir "$1" -o "$2" 2>"$2.log" || die "no text of the module: $2.log"
}

# compile MODULE TARGET OBJECT [WORD..]: by the toolchain's own clang, at the level that the archive is compiled at and with the
# same options for LLVM. Beside the object stands what the compiler says of its frames. Each function of the module names the
# processor that the archive is for; on another machine it is compiled for that of the target.
compile() {
    module=$1 target=$2 object=$3
    shift 3
    options=$(cat "$built/options") || die "what LLVM is told is not known: remove $built"
    case $target in
    x86_64*) ;;
    *)
        write_text "$module" "$object.ll"
        sed 's/ "target-cpu"="[^"]*"//' "$object.ll" >"$object.new.ll"
        module=$object.new.ll
        ;;
    esac
    "$clang" "--target=$target" -O3 -ffp-contract=off -fstack-usage $options "$@" -x ir -c "$module" -o "$object" 2>"$object.log" ||
        die "no object: $object.log"
}
