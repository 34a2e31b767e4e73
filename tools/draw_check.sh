#!/usr/bin/env bash
# Reads drawings back by `dot`, where it is installed: those of the cases of the workbench, and those that a built program makes of each
# blueprint of README.md, of the pages of docs and of examples/. tools/draw_check.sh [PROGRAM]; PROGRAM is ./blueprint, or else
# out/quick/blueprint. A drawing of which dot complains fails. It is no part of the gate.
cd "$(dirname "$0")/.." || exit 2
if ! command -v dot >/dev/null; then
    echo "dot is not installed: nothing was read back"
    exit 0
fi
work=$(mktemp -d)
trap 'rm -rf "$work"' EXIT
failed=0

# Reads the drawing in a file back, and tells what dot says of it.
read_back() {
    local said
    if ! said=$(dot -Tsvg -o /dev/null "$1" 2>&1) || [ -n "$said" ]; then
        echo "$2: $said"
        failed=$((failed + 1))
    fi
}

# The lines of a case's drawing are those from `|digraph` to `|}`.
mkdir "$work/cases"
awk -v to="$work/cases" '/^\|digraph /{n++; on=1} on{print substr($0, 2) > (to "/" n ".dot")} /^\|}$/{on=0}' crates/workbench_rows/data/draw.txt
count=0
for drawing in "$work"/cases/*.dot; do
    read_back "$drawing" "drawing $(basename "$drawing" .dot) of draw.txt"
    count=$((count + 1))
done
echo "$count drawings of cases, $failed not read"

program=${1:-./blueprint}
[ -x "$program" ] || [ -n "${1:-}" ] || program=out/quick/blueprint
if [ ! -x "$program" ]; then
    echo "there is no program $program: the blueprints of the pages and of examples were not drawn"
    test "$failed" -eq 0
    exit
fi
program=$(realpath "$program")

# A block of a page is a blueprint where its first line that is no comment is its version.
mkdir "$work/pages"
awk -v to="$work/pages" '
    /^```/ { if (inside && is_blue) { name = FILENAME; gsub(/[^A-Za-z0-9]/, "_", name); printf "%s", text > (to "/" name "_" ++n ".blue") } inside = !inside; text = ""; seen = 0; is_blue = 0; next }
    inside { text = text $0 "\n"; if (!seen && $0 !~ /^ *(#|$)/) { seen = 1; is_blue = $0 ~ /^streams [12]$/ } }
' README.md docs/*.md docs/book/*.md
count=0 none=0 before=$failed
for file in "$work"/pages/*.blue examples/*/*.blue; do
    (cd "$(dirname "$file")" && "$program" draw "$(basename "$file")" >"$work/drawing" 2>/dev/null </dev/null)
    if [ "$(head -c 7 "$work/drawing")" != digraph ]; then
        none=$((none + 1))
        continue
    fi
    read_back "$work/drawing" "$file"
    count=$((count + 1))
done
echo "$count drawings of pages and examples, $((failed - before)) not read; $none blueprints cannot be drawn"
test "$failed" -eq 0
