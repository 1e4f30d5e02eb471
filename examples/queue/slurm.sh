#!/bin/sh
# Makes an edition in parts as an array job of Slurm, and waits for it. Run again, it hands in what failed, was never done
# or has another plan. PLAN, FILES, OUT and the program lie at the same paths on all nodes. Variables as SBATCH_PARTITION
# and SBATCH_TIMELIMIT say more of the job.
# usage: slurm.sh PLAN FILES OUT [WORDS of tools/parts.py..]      PLATEROOM: the program
needs=sbatch package=slurm-wlm
. "$(dirname "$0")/edition.sh"
missing=$(for name in $names; do
  [ "$parts/$name.report" -nt "$parts/$name.json" ] || grep -n "^plan $name.json " "$parts/list" | cut -d : -f 1
done | paste -s -d ,)
if [ -n "$missing" ]; then
  sbatch --wait --array "$missing" --job-name plateroom --output /dev/null << 'END' >&2
#!/bin/sh
name=$(sed -n "${SLURM_ARRAY_TASK_ID}s/^plan \(.*\)\.json .*/\1/p" "$parts/list")
exec "$here/part.sh" "$parts/$name" "$out" run "$parts/$name.json" "$files"
END
fi
exec "$here/collect.py" "$plan" "$parts"
