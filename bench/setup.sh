# Read by the scripts beside it. It sets what work.sh does, and `classes`, the folder that the script was given, or one with the class
# files of the JDK on this machine.
. "$(dirname -- "$0")/work.sh"
classes=${1:-}
if [ -z "$classes" ]; then
    classes=$work/classes
    jimage extract --dir="$classes" "$(dirname "$(readlink -f "$(command -v java)")")/../lib/modules"
fi
