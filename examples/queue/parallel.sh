#!/bin/sh
# Makes an edition in parts under GNU parallel. Run again, it makes what failed or was never done, by the log of its jobs.
# Of machines that have all at the same paths: PARALLEL='--sshlogin host1,host2 --env PLATEROOM'.
# usage: parallel.sh PLAN FILES OUT [WORDS of tools/parts.py..]      JOBS: how many at once (4); PLATEROOM: the program
needs=parallel package=parallel
. "$(dirname "$0")/edition.sh"
# The log tells jobs by their numbers, so it is of no use where the parts are others.
log=$parts/jobs
if [ -e "$log" ] && [ -n "$(find "$parts" -newer "$log" \( -name '*.json' -o -name list \))" ]; then
  rm "$log"
fi
echo "$names" | parallel --will-cite --quote --jobs "${JOBS:-4}" --joblog "$log" --resume-failed \
  "$here/part.sh" "$parts/{}" "$out" run "$parts/{}.json" "$files"
exec "$here/collect.py" "$plan" "$parts"
