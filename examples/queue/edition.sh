# What the scripts of this folder begin with: the words PLAN FILES OUT, the queue's program (`needs`, of the Debian package
# `package`), and the edition cut into parts. The plans of the parts, what became of each, and the file `list` with a line
# for each lie in the folder PARTS, else in OUT.parts.
set -u
if [ $# -lt 3 ]; then
  sed -n 's/^# usage: //p' "$0" >&2
  exit 2
fi
if ! command -v "$needs" > /dev/null; then
  echo "$0: $needs isn't installed: apt install $package" >&2
  exit 2
fi
here=$(cd "$(dirname "$0")" && pwd)
plan=$(realpath "$1") files=$(realpath "$2") out=$(realpath -m "$3")
parts=$(realpath -m "${PARTS:-$out.parts}")
export here files out parts
shift 3
mkdir -p "$parts" || exit
"${TOOLS:-$here/../../tools}/parts.py" "$plan" "$parts" --files "$files" "$@" > "$parts/list.new" || exit
# Files that are as they were stay: what was made of them is newer.
cmp -s "$parts/list.new" "$parts/list" || mv "$parts/list.new" "$parts/list"
names=$(sed 's/^plan \(.*\)\.json .*/\1/' "$parts/list")
