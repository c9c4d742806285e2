# For tools/copies and tools/products, which read this file: the archive and the program of host/ that reads its module are made, and a
# module is optimised as the archive's compiler does it. They set $program, the name of the program, which is their own name too.
say() { printf 'tools/%s: %s\n' "$program" "$*" >&2; }
# these are the words of the script that reads this file
[ "$*" = '' ] || [ "$*" = planted ] || { say "usage: tools/$program [planted]"; exit 2; }
for command in rt cargo; do
    command -v "$command" >/dev/null 2>&1 || { say "'$command' is missing"; exit 2; }
done
# the program lies in host/, which links the archive
tools/archive || exit 2
cargo build --quiet --release --offline --manifest-path host/Cargo.toml --bin "$program" || exit 2
reader=host/target/release/$program
. tools/kit.sh

# optimise FROM TO: as the archive is compiled, by the same words, but to text and not to an object
optimise() {
    local words=() word after=''
    while IFS= read -r word; do
        case $after$word in
            -o) after=-o ;;
            -o*) after='' ;;
            -c | --sysroot=* | *.bc) ;;
            *) words+=("$word") ;;
        esac
    done <target/native/firmware.words
    "$clang" "${words[@]}" -S -emit-llvm "$1" -o "$2"
}
