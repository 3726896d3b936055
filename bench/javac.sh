# Read by the scripts beside it. It sets what work.sh does.
. "$(dirname -- "$0")/work.sh"

# What the first line of a source says is to come: that it links, or the reasons of which one is given.
wanted() {
    head -1 "$1" | cut -c4-
}

# Whether a source of which that is wanted can be compiled for a release.
is_from() {
    since=$(echo "$1" | sed -n 's/.*from \([0-9]*\)$/\1/p')
    [ "$2" -ge "${since:-8}" ]
}

# Compiles sources for a release into a folder: compile RELEASE FOLDER SOURCE..
compile() {
    mkdir -p "$2"
    release=$1
    folder=$2
    shift 2
    javac --release "$release" -XDstringConcat=inline -nowarn -Xlint:-options -d "$folder" "$@" 2>"$work/javac" ||
        { cat "$work/javac"; exit 1; }
}

same=0
unsupported=0
other=0

# Runs a program in the current folder with jvt and with java. They write the same to standard output and end alike; of an exception that
# nothing catches, only its class is compared, and standard error not at all otherwise. Programs that jvt doesn't run yet are counted
# apart, and java doesn't run them: Parking never ends there. compare NAME RELEASE FILE..
compare() {
    name=$1
    release=$2
    shift 2
    found=0
    "$top/jvt" run "$name" "$@" >"$work/jvt" 2>"$work/jvt.err" || found=$?
    if grep -q ': Unsupported$' "$work/jvt.err"; then
        unsupported=$((unsupported + 1))
        return
    fi
    status=0
    java -XX:TieredStopAtLevel=1 -Dstdout.encoding=UTF-8 -cp . "$name" >"$work/java" 2>"$work/java.err" || status=$?
    thrown=$(sed -n 's/^\(Exception in thread "main" [A-Za-z0-9_.$]*\).*/\1/p' "$work/java.err" | head -1)
    if [ "$status" -eq "$found" ] && cmp -s "$work/java" "$work/jvt" &&
        { [ -z "$thrown" ] || grep -qxF "$thrown" "$work/jvt.err"; }; then
        same=$((same + 1))
    else
        echo "$name, Java $release: $found: $(tail -1 "$work/jvt.err"); java: $status"
        diff "$work/jvt" "$work/java" | head -4
        other=$((other + 1))
    fi
}
