#!/bin/sh
# Tries the edits of bench/edits, which the prover must refuse like those of crates/NAME/must-fail and which the gate leaves out for its time.
#
# Usage: bench/more-edits.sh [--list] [--since REVISION] [NAME..]
#
# NAME is a crate. With --since, also each crate that the commit changed since it left REVISION, and those above it; with neither, each that has
# edits here. With --list they are told with the number of their edits, and nothing is tried.
#
# What is tried is the commit, each crate in a copy of its own, as many at once as there are processors, or as INVAR_WORKERS says. A copy is given
# the libraries that the checkout has built (`./invar basis LOOP` builds them), and builds those that it lacks. An edit takes 10 to 45 seconds,
# and before the first of a crate the crate is proved once more. The last line counts.
set -e
here=$(cd "$(dirname "$0")/.." && pwd)

# the edits of one crate, which a run of this script asks for: in the folder $2, which is theirs alone
if [ "$1" = --one ]; then
    name=$2 copy=$3
    git clone -q "$here" "$copy"
    for built in "$here"/crates/*/out/rlib; do
        [ -d "$built" ] || continue
        out=$copy/crates/$(basename "$(dirname "$(dirname "$built")")")/out
        mkdir -p "$out"
        cp -al "$built" "$out" 2>/dev/null || cp -a "$built" "$out"
    done
    mkdir -p "$copy/crates/$name/must-fail"
    rm -f "$copy/crates/$name/must-fail/"*.edit
    cp "$copy/bench/edits/$name/"*.edit "$copy/crates/$name/must-fail/"
    cd "$copy"
    tools/rt.py must-fail "$name" >"$copy.said" 2>&1 || true
    cat "$copy.said"
    rm -rf "$copy"
    exit
fi

only_list= names= is_chosen=
while [ $# -gt 0 ]; do
    case $1 in
        --list) only_list=yes ;;
        --since) is_chosen=yes names="$names $("$here/tools/crates.py" --changed "$2")"; shift ;;
        -*) sed -n '2,/^set/s/^# \{0,1\}//p' "$0" >&2; exit 2 ;;
        *) is_chosen=yes names="$names $1" ;;
    esac
    shift
done
[ "$is_chosen" ] || names=$(ls "$here/bench/edits")

room=$here/crates/invar/out/edits-$$
trap 'rm -rf "$room"' EXIT
trap 'exit 130' INT TERM
mkdir -p "$room"
crates=0 edits=0
for name in $(printf '%s\n' $names | sort -u); do
    count=$(ls "$here/bench/edits/$name" 2>/dev/null | grep -c '\.edit$') || continue
    crates=$((crates + 1)) edits=$((edits + count))
    printf '%5d %s\n' "$count" "$name" >>"$room/chosen"
done
[ "$edits" -gt 0 ] || { echo "0 edits"; exit; }
if [ "$only_list" ]; then
    cat "$room/chosen"
    echo "$edits edits of $crates crates"
    exit
fi
# the crates with the most edits first, so that none of them is left alone at the end
sort -rn "$room/chosen" | while read -r count name; do printf '%s\n' "$name"; done |
    xargs -P "${INVAR_WORKERS:-$(nproc)}" -I NAME "$0" --one NAME "$room/NAME"
refused=$(cat "$room"/*.said | grep -c ': refused, as it must be') || true
names_alone=$(cat "$room"/*.said | grep -c 'names what the edit took away') || true
echo "$edits edits of $crates crates: $refused refused, $names_alone of them for a name that is gone; $((edits - refused)) not refused"
[ "$refused" -eq "$edits" ] && [ "$names_alone" -eq 0 ]
