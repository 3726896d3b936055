# Read by the scripts beside it, after work.sh. It copies the crates into `work`, where programs of bench are compiled without proof beside them.
mkdir "$work/.git" "$work/crates"
cp "$top/HANDLES" "$top/crates.txt" "$work"
for crate in "$top"/crates/*; do
    mkdir "$work/crates/${crate##*/}"
    for part in src specs proofs; do
        [ ! -e "$crate/$part" ] || cp -R "$crate/$part" "$work/crates/${crate##*/}"
    done
done

# Puts the program bench/NAME/main.txt among the crates, which stands on those that are named: add_program NAME CRATE..
add_program() {
    name=$1
    shift
    echo "$name: $*" >>"$work/crates.txt"
    mkdir -p "$work/crates/$name/src"
    cp "$top/bench/$name/main.txt" "$work/crates/$name/src/main.rt"
}
