#!/bin/sh
# Builds the program of the working tree without proving it, to measure a change before it is proved. It runs as fast as the proved
# program would. The first word of the command is the file to write, and the second, where there is one, another crate than cilsem, as
# cil_trials; the building takes two to three minutes.
#
# `rt try` makes the program as LLVM's bitcode, with checks of overflows, indexes and addresses in it. Here it runs from a folder with a
# compiler in place of the kit's that keeps the bitcode. Out of this the checks are taken, since the proofs make them needless, the hints
# on inlining that it leaves out are put in, and it is compiled as a proved program is. A program that isn't proved may do anything, so it is for measuring alone.
set -eu
out=$(realpath -m "$1")
crate=${2:-cilsem}
cd "$(dirname "$0")/.."
kit=$(dirname "$(dirname "$(realpath "$(command -v rt)")")")
folder=$(mktemp -d)
trap 'rm -rf "$folder"' EXIT

# The kit with the other compiler: links, but for the programs that look for the kit where they stand.
mkdir -p "$folder/kit/bin" "$folder/kit/toolchain/bin" "$folder/kept"
ln -s "$kit"/* "$folder/kit/" 2> "$folder/known" || true
ln -s "$kit"/bin/* "$folder/kit/bin/"
ln -s "$kit"/toolchain/* "$folder/kit/toolchain/" 2> "$folder/known" || true
ln -s "$kit"/toolchain/bin/* "$folder/kit/toolchain/bin/"
rm "$folder/kit/bin/rt" "$folder/kit/bin/rtlib.py" "$folder/kit/toolchain/bin/clang"
cp "$kit/bin/rt" "$kit/bin/rtlib.py" "$folder/kit/bin/"
cat > "$folder/kit/toolchain/bin/clang" <<KEEP
#!/bin/sh
for word in "\$@"; do
    case \$word in
        *.bc) cp "\$word" "$folder/kept/\$\$.bc" ;;
    esac
done
exec "$kit/toolchain/bin/clang" "\$@"
KEEP
chmod +x "$folder/kit/toolchain/bin/clang"

# (a program that wants another input than none ends with another status)
(cd "crates/$crate" && "$folder/kit/bin/rt" try -- --help > "$folder/told" 2>&1) || true
module=$(ls -S "$folder"/kept/*.bc 2> "$folder/known" | head -n 1)
[ -n "$module" ] || { cat "$folder/told"; exit 1; }
clang="$kit/toolchain/bin/clang --target=x86_64-unknown-linux-gnu --no-default-config"
$clang -S -emit-llvm -O0 -x ir "$module" -o "$folder/checked.ll"
python3 bench/unchecked.py < "$folder/checked.ll" | python3 bench/hinted.py crates/* "$kit"/rattle/* > "$folder/module.ll"
$clang --sysroot="$kit/toolchain" -march=x86-64-v2 -O3 -fPIE -ffunction-sections -fdata-sections -c -x ir "$folder/module.ll" -o "$folder/module.o"
"$kit/bin/rattle-link" --target x86_64-unknown-linux-gnu --toolchain "$kit/toolchain" -o "$out" "$folder/module.o" "$kit"/c/libos_c.a "$kit"/c/liblibc_c.a > "$folder/told" 2>&1 || { cat "$folder/told"; exit 1; }
