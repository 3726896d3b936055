# Read by the scripts beside it. It sets what work.sh does, and puts the player (bench/plays) beside a copy of the crates into `work`, where
# play_cases compiles it without proof.
. "$(dirname -- "$0")/work.sh"
. "$(dirname -- "$0")/crates.sh"
add_program plays anyhow carrier class_write history jvm_edges lib_table machine program_files ref_model ref_run runtime_program

# Plays the cases in the folder `cases` of `work`, whose class files lie in a folder, and writes what came of them to `played`:
# play_cases FOLDER
play_cases() {
    folder=$1
    set --
    for file in $(sed -n 's/^run [^ ]* //p' "$work/cases"/* | tr ' ' '\n' | sort -u); do
        set -- "$@" --data "$file=$folder/$file"
    done
    (cd "$work/crates/plays" && RT_SECONDS=7200 rt try --seconds 600 --cases "$work/cases" "$@" -- '{}' >"$work/played") ||
        echo "the player ended with status $?"
}
