# Read by the scripts beside it. It sets `top`, the repository, and `work`, a folder that goes away when the script ends.
top=$(CDPATH='' cd -- "$(dirname -- "$0")/.." && pwd)
work=$(mktemp -d)
trap 'rm -rf "$work"' EXIT
export PYTHONDONTWRITEBYTECODE=1
