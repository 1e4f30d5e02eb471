#!/bin/sh
# Makes the plates of one part in a folder of its own in OUT, since plateroom lets one run at a time into a site's folder,
# and moves those that are whole into the folders of their sites. WORDS are plateroom's but for OUT. At status 0 what it
# said is NAME.report; else NAME.failed has the status in its first line, and then what it said.
# usage: part.sh NAME OUT WORDS..      PLATEROOM: the program (plateroom); RING: that of a run (1024)
set -u
name=$1 out=$2
shift 2
own=$out/.${name##*/}
export own out
rm -f "$name.report" "$name.failed"
case $1 in
  run) set -- "$@" "$own" "${RING:-1024}" ;;
  *) set -- "$@" "$own" ;;
esac
"${PLATEROOM:-plateroom}" "$@" > "$name.own" 2>&1
status=$?
# The places of plates are told as those in OUT.
awk '{ at = index($0, ENVIRON["own"] "/"); rest = substr($0, at + length(ENVIRON["own"])) }
  { print at ? substr($0, 1, at - 1) ENVIRON["out"] rest : $0 }' "$name.own" > "$name.said"
rm "$name.own"
for folder in "$own"/*/; do
  site=$out/$(basename "$folder")
  if [ -d "$folder" ] && ! { mkdir -p "$site" && find "$folder" -name '*.tif' -exec mv -t "$site" {} +; } 2> "$name.why"; then
    status=1
    cat "$name.why" > "$name.said"
  fi
done
rm -f "$name.why"
if [ "$status" = 0 ]; then
  rm -rf "$own"
  mv "$name.said" "$name.report"
else
  (echo "$status" && cat "$name.said") > "$name.failed"
fi
exit "$status"
