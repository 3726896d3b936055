# Read by the scripts beside it. It goes to a folder with the class files of the programs in the folder of the script's name, compiled for
# the release `release`, else 8, and sets `program`, the built jvt that the script was given, or that of this repository.
. "$(dirname -- "$0")/work.sh"
program=${1:-$top/crates/jvt/out/jvt}
cp "$top/bench/$(basename "$0" .sh)"/*.java "$work"
cd "$work"
${NEW_JDK:-} javac --release "${release:-8}" -XDstringConcat=inline -nowarn -Xlint:-options ./*.java
export PYTHONPATH="$top/bench"
