#!/usr/bin/env bash
# Checks the pipeline designs of examples/, and runs its programs under each that is accepted. It prints the cycles of each run, and ends with 1
# where a report isn't that of `yis`, a trace isn't the same under all designs, a design is refused (but for stall_and_bubble.hcl, which has to be), or a run
# after a check prints anything but the verdict and the run. The program is ./y86, or the one that is given.
here=$(cd "$(dirname "$0")/.." && pwd) || exit 1
y86=$(realpath "${1:-$here/y86}") || exit 1
cd "$here/examples/designs" || exit 1
programs=(../programs/*.yo)
programs=("${programs[@]##*/}")
at=$(mktemp -d) || exit 1
trap 'rm -r "$at"' EXIT
for program in "${programs[@]}"; do
    "$y86" yis "../programs/$program" >"$at/$program.report"
done
status=0

printf '| design | settings |%s\n' "$(printf ' %s |' "${programs[@]%.yo}")"
printf '|---|---|%s\n' "$(printf -- '---|%.0s' "${programs[@]}")"
for design in *.hcl; do
    case $design in seq.hcl | seq_plus.hcl) continue ;; esac
    settings=$("$y86" check pipe "$design")
    answer=$?
    expected=0
    [ "$design" = stall_and_bubble.hcl ] && expected=1
    [ "$answer" -eq "$expected" ] || status=1
    case $answer in
    0) ;;
    1)
        echo "| $design | $(head -1 <<<"$settings") |"
        continue
        ;;
    *) status=1 && continue ;;
    esac
    row="| $design | ${settings#yes } |"
    [ "$("$y86" psim "$design" ../programs/add.yo --checked)" = "$settings"$'\n'"$("$y86" psim "$design" ../programs/add.yo)" ] || { row+=" differs behind a check" && status=1; }
    for program in "${programs[@]}"; do
        "$y86" psim "$design" "../programs/$program" --trace >"$at/run"
        sed '/^Ran /,$d' "$at/run" >"$at/trace"
        cycles=$(sed -n 's/^Ran \([0-9]*\) cycles.*/\1/p' "$at/run")
        [ -f "$at/$program.trace" ] || cp "$at/trace" "$at/$program.trace"
        sed '0,/^Ran /d' "$at/run" | cmp -s - "$at/$program.report" && cmp -s "$at/trace" "$at/$program.trace" || { cycles="$cycles differs" && status=1; }
        row+=" $cycles |"
    done
    echo "$row"
done
exit $status
