#!/bin/sh
# Makes an edition in parts under make: a part is a target, made where it failed, was never done, or has another plan.
# LATE is a folder of the same files in which some came late, behind a run with FILES: then each part is a target of
# replate, which makes the plates that changed from FILES to LATE, and what it made is printed part by part.
# usage: make.sh PLAN FILES OUT [WORDS of tools/parts.py..]      JOBS: how many at once (4); PLATEROOM: the program; LATE
needs=make package=make
. "$(dirname "$0")/edition.sh"
late=${LATE:+$(realpath "$LATE")}
export late
make --file - --directory "$parts" --silent --keep-going --jobs "${JOBS:-4}" ${late:+late} << END
parts := $(echo $names)
run: \$(parts:=.report)
late: \$(parts:=.late)
\$(parts:=.report): %.report: %.json
	"\$\$here/part.sh" \$* "\$\$out" run \$< "\$\$files"
\$(parts:=.late): %.late: %.json
	"\$\$here/part.sh" \$@ "\$\$out" replate \$< "\$\$files" \$< "\$\$late"
.PHONY: run late \$(parts:=.late)
END
exec "$here/collect.py" "$plan" "$parts" ${late:+late}
