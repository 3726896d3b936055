#!/bin/sh
# Makes what the program java_programs runs, and what it has to print. Compiles the programs in bench/programs that link and that jvt runs
# with the javac of this machine, for Java 8, 11 and 17 in turn, and writes the class files and the table of calls to crates/java_programs/data.
# Runs each with the java of this machine, and writes what that printed to crates/java_programs/stdout; jvt takes no part in it. Of an
# exception that nothing catches only the class is kept, since jvt prints no message and no trace. Main's file comes first, since class
# initializers run in the order of the files. After these come the programs in bench/programs/threads, of which those of virtual threads are
# compiled for Java 21: NEW_JDK is a command that runs the tool of a JDK of that release or a later one which follows it, where java and javac
# themselves are older; the names of files lie below the folder that it is called in. Then come the calls whose outcome is a matter of jvt's
# own rules: usage, refusals and limits. What they have to print is bench/own/stdout, which is written by hand, and for the classes of
# bench/own/sketches.txt what stands there. usage: [NEW_JDK=COMMAND] bench/java_programs.sh
set -eu
export LC_ALL=C
# A thread of it parks for ever.
left_out='Parking'
# Programs in which rules of jvt show: initializers run before main, and an exception's toString is that of Object.
left_out="$left_out Main2 Exceptions ErrorKinds"

. "$(dirname -- "$0")/work.sh"
data=$top/crates/java_programs/data
rm -rf "$data"

# The programs of a folder that link and that jvt runs, a line each: the name, the release that it is compiled for, and the source.
programs() {
    release=17
    for source in "$1"/*.java; do
        name=$(basename "$source" .java)
        wanted=$(head -1 "$top/$source" | cut -c4-)
        case $wanted in links*) ;; *) continue ;; esac
        case " $left_out " in *" $name "*) continue ;; esac
        since=$(echo "$wanted" | sed -n 's/.*from \([0-9]*\)$/\1/p')
        if [ "${since:-8}" -eq 21 ]; then echo "$name 21 $source"; continue; fi
        case $release in 8) release=11 ;; 11) release=17 ;; *) release=8 ;; esac
        if [ "$release" -ge "${since:-8}" ]; then echo "$name $release $source"; else echo "$name 17 $source"; fi
    done
}

# The command before a tool of the JDK for programs of a release.
jdk() {
    case $1 in 21) echo "${NEW_JDK:-}" ;; esac
}

# Compiles the programs of a release together, which also shows that no two of them have a class of one name.
compile() {
    mkdir -p "$data/$1"
    $(jdk "$1") javac --release "$1" -XDstringConcat=inline -g:none -nowarn -Xlint:-options -d "${data#"$top/"}/$1" \
        $(awk -v release="$1" '$2 == release { print $3 }' "$work/programs") 2>"$work/javac" ||
        { cat "$work/javac"; exit 1; }
}

# The class files of a program: those of its own name, those inside that, and those of the other classes of its source.
classes() {
    sed -n 's/^\(public \|abstract \|final \)*\(class\|interface\) \([A-Za-z0-9_]*\).*/\3/p' "$3" >"$work/classes"
    echo "$2/$1.class"
    (cd "$data" && while read -r class; do
        for file in "$2/$class.class" "$2/$class"\$*.class; do [ ! -e "$file" ] || echo "$file"; done
    done <"$work/classes" | sort -u | grep -vxF "$2/$1.class")
}

# Runs a program with java.
run() {
    (cd "$data/$2" && $(jdk "$2") java -Dfile.encoding=UTF-8 -Dstdout.encoding=UTF-8 -cp . "$1" >"$work/out" 2>"$work/err")
}

# The error output of java as jvt has it: no message after an exception's class, and no trace.
without_traces() {
    sed -e 's/^\(Exception in thread "[^"]*" [A-Za-z0-9_.$]*\).*/\1/' -e '/^	/d' "$1"
}

# Adds the calls of bench/own, and their class files.
own_rules() {
    mkdir "$data/own"
    python3 "$top/bench/own/classes.py" "$top/crates/jvt/data/A.class" "$data/own"
    javac --release 8 -Xlint:-options -g -d "$data/own" "$top/bench/own/"*.java
    # No method in Java may be called `<clinit>`.
    sed -i 's/\$clinit\$/<clinit>/' "$data/own/OtherInitializers.class" "$data/own/SynchronizedInitializer.class"
    javac --release 8 -Xlint:-options -g:none -d "$data/own" "$top/bench/own/special/Main.java"
    javac --release 8 -Xlint:-options -g:none -cp "$data/own" -d "$data/own" "$top/bench/own/special/later/Later.java"
    for class in D E; do python3 "$top/bench/own/owner.py" "$data/own/special/$class.class" m special/C; done
    # A method that is abstract when its class is compiled again.
    own=crates/java_programs/data/own
    $(jdk 21) javac --release 21 -XDstringConcat=inline -g:none -d "$own" bench/own/threads/*.java
    $(jdk 21) javac --release 21 -g:none -cp "$own" -d "$own" bench/own/threads/later/Middle.java
    # Threads under native frames, which want a class of jvt's own to be compiled against.
    mkdir "$own/stub"
    $(jdk 21) javac --release 21 -g:none -d "$own/stub" bench/own/pins/jvt/Native.java
    $(jdk 21) javac --release 21 -XDstringConcat=inline -g:none -cp "$own/stub" -d "$own" bench/own/pins/*.java
    rm -r "$own/stub"
    mkdir "$data/sketches"
    cp "$top/bench/own/stdout" "$work/own"
    python3 "$top/bench/own/sketches.py" "$top/bench/own/sketches.txt" "$data/sketches" "$work/own"
    sed -n -e '/^== status /d' -e 's/^== //p' "$work/own" >>"$data/programs.txt"
    cat "$work/own" >>"$work/stdout"
}

cd "$top"
{ programs bench/programs; programs bench/programs/threads; } >"$work/programs"
for release in 8 11 17 21; do compile "$release"; done
while read -r name release source; do
    words="run $name $(echo $(classes "$name" "$release" "$source"))"
    echo "$words" >>"$data/programs.txt"
    status=0
    run "$name" "$release" || status=$?
    { echo "== $words"; cat "$work/out"; without_traces "$work/err"; echo "== status $status"; } >>"$work/stdout"
done <"$work/programs"
own_rules
cp "$work/stdout" "$top/crates/java_programs/stdout"
echo "$(wc -l <"$work/programs") programs, $(cat "$data"/*/*.class | wc -c) bytes of class files"
