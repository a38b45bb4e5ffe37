# Sourced by the benches of single crates: `scratch NAME DEPS..` makes a repository in a folder of its own, with copies of the
# crates that NAME stands on, and leaves the shell in the folder of the crate NAME. It is removed at the end.
scratch() {
    top=$(cd "$(dirname "$0")/.." && pwd)
    work=$(mktemp -d)
    trap 'rm -rf "$work"' EXIT
    name=$1
    shift
    mkdir -p "$work/crates/$name/src" "$work/crates/$name/specs" "$work/crates/$name/proofs"
    waiting=$*
    while [ -n "$waiting" ]; do
        rest=
        for crate in $waiting; do
            if [ -d "$top/crates/$crate" ] && [ ! -d "$work/crates/$crate" ]; then
                mkdir -p "$work/crates/$crate"
                (cd "$top/crates/$crate" && tar cf - --exclude=out .) | (cd "$work/crates/$crate" && tar xf -)
                line=$(grep "^$crate:" "$top/crates.txt")
                echo "$line" >> "$work/crates.txt"
                rest="$rest ${line#*:}"
            fi
        done
        waiting=$rest
    done
    echo "$(wc -l < "$work/crates.txt") crates below $name are proved first where nothing is kept of them: seconds, or up to half an hour" >&2
    echo "$name: $*" >> "$work/crates.txt"
    cd "$work/crates/$name"
}
