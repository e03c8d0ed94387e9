#!/usr/bin/env bash
# Makes anew, by docs/ alone, what is stored in crates/ of questions, of their answers and of what programs print, and
# compares it with what is stored; with --write it stores it there instead. Then it looks that the table of refusals is
# that of docs/REFUSALS.md, and that the picture in docs/ shows what is counted.
set -euo pipefail

cd "$(dirname "${BASH_SOURCE[0]}")/.."

if [ $# -gt 1 ] || { [ $# -eq 1 ] && [ "$1" != --write ]; }; then
    echo "use: reference/check_vectors.sh [--write]" >&2
    exit 2
fi
write=$#

made=$(mktemp -d)
trap 'rm -rf "$made"' EXIT

# store NAME FILE: what was made under a name is what stands in a file, or comes to stand there.
store() {
    if [ "$write" = 1 ]; then
        mkdir -p "$(dirname "$2")"
        cat "$made/$1" >"$2"
    elif [ ! -f "$2" ]; then
        echo "$2 is not there; reference/check_vectors.sh --write makes it" >&2
        exit 1
    elif ! cmp "$made/$1" "$2" >&2; then
        echo "$2 is not what reference/ makes" >&2
        exit 1
    fi
}

# The questions of all kinds, and their answers.
for kind in leaf sheet row long script last; do
    python3 "reference/${kind}_vectors.py" >>"$made/questions"
    python3 "reference/${kind}_vectors.py" --answers >>"$made/answers"
done
store questions crates/answers/stdin
store answers crates/answers/stdout
echo "answers: $(wc -l <"$made/questions") lines of questions, and $(wc -l <"$made/answers") of answers"

# What programs print for the one input that is stored with each.
python3 reference/benches.py <crates/bench/stdin >"$made/bench"
store bench crates/bench/stdout
python3 reference/sheets.py <crates/survey/stdin >"$made/survey"
store survey crates/survey/stdout
mapfile -t words <crates/yabreznul/args
(cd crates/yabreznul/data && python3 ../../../reference/views.py "${words[@]}") >"$made/yabreznul"
store yabreznul crates/yabreznul/stdout
echo "bench, survey and yabreznul: what each prints"

# The files of `viewings`, the lines that name them, and what is printed.
mkdir "$made/views"
python3 reference/view_cases.py "$made/views" 2>/dev/null
if [ "$write" = 1 ]; then
    python3 reference/view_cases.py
else
    for part in data stdin stdout; do
        if ! diff -r "$made/views/$part" "crates/viewings/$part" >&2; then
            echo "viewings: crates/viewings/$part is not what reference/view_cases.py makes" >&2
            exit 1
        fi
    done
fi
echo "viewings: $(wc -l <"$made/views/stdin") lines, their files and what is printed"

python3 reference/refusals.py
python3 reference/pictures.py crates/yabreznul/data/tasks.csv --rank 3 --linear 3 <docs/demand.svg
