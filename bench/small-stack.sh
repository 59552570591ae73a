#!/bin/sh
# Runs the built program in 512 KB of stack: the rows of bench/rows.sh, and texts whose polynomials, lists and nestings are as long and as deep as they may be.
# Usage: bench/small-stack.sh            (the program that answers ./invar, which is built where it has to be; INVAR names another one)
here=$(cd "$(dirname "$0")/.." && pwd)
INVAR=$(realpath "${INVAR:-$("$here/tools/program.py" build)}") && program=$INVAR || exit 1
export INVAR
folder=$(mktemp -d)
trap 'rm -rf "$folder"' EXIT
ulimit -s 512 || exit 1
cd "$folder" || exit 1
failed=0
"$here/bench/rows.sh" || failed=1
# forms and images with up to 33,915 terms, forward and backward, in a loop, behind code, and of sequences
printf '%s' 'vars a, b, c, d, e, f, g, h, i; branch { a=b*c; b=(d+e+f+1)^16; c=(g+h+i+1)^4; }' >forms.loop
printf '%s' 'vars a, b, c, d, e, f, g, h, i; branch { a=a+b*c; b=b+(d+e+f+1)^12; c=c+(g+h+i+1)^4; }' >sums.loop
printf '%s' 'vars a, b, c, d, e, f, g, h, i; branch { a=a+b*c; b=(d+e+f+1)^16; c=(g+h+i+1)^4; }' >classes.loop
printf '%s' 'vars a, b, c, d, e, f, g, h, i; branch { } then branch { a=b*c; b=(d+e+f+1)^16; c=(g+h+i+1)^4; }' >forms.chain
printf '%s' 'sequences a=(1), b=(1), c=(1), d=(2), e=(3), f=(1), g=(1), h=(2), i=(1); a=b*c; b=(d+e+f+1)^8; c=(g+h+i+1)^4; d=d; e=e; f=f; g=g; h=h; i=i;' >forms.seqs
# texts as deep and as long as they may be
python3 - <<'PY'
from pathlib import Path

names = "abcdefgh"
Path("deep.loop").write_text("vars x; branch { x=" + "(" * 63 + "-x" + "+1)" * 63 + "; }")
Path("minus.loop").write_text("vars x; branch { x=" + "-" * 64 + "x; }")
sides = {
    "sum": "y" + "+y" * 1024,
    "difference": "y" + "-y" * 1024,
    "product": "y" + "*1" * 1024,
    "quotient": "y" + "/1" * 1024,
    "left": "(" * 64 + "y" + "+y)" * 64 + "-y" * 960,
    "right": "y-(" * 64 + "y" + "-y" * 960 + ")" * 64,
    "mixed": "y+1*(" * 64 + "y" + "-y" * 896 + ")" * 64,
}
for name, side in sides.items():
    Path(f"{name}.loop").write_text(f"vars x, y; init x={side}; branch {{ y=-y; x={side}; }} branch {{ x=-x; y=-y; }}")
    Path(f"{name}.equation").write_text(f"x={side}")
    Path(f"{name}.program").write_text(f"vars x, y; x = {side}; assert y = {side};")
Path("nothing.json").write_text('{"kind":"program","lists":[[],[]],"steps":[[],[]],"vars":["x","y"],"version":1}')
# blocks in one another, and 200 choices behind one another; the 255 that the language takes need up to 1 MB
Path("blocks.program").write_text("vars x; " + "while * { " * 16 + "} " * 16)
blocks = '"lists":[' + ",".join(["[]"] * 17) + '],"steps":[' + ",".join(["[]"] * 33) + "]"
Path("blocks.json").write_text('{"kind":"program",' + blocks + ',"vars":["x"],"version":1}')
Path("choices.program").write_text("vars x; " + "if x = 0 { } else " * 200 + "{ }")
Path("same.loop").write_text("vars " + ", ".join(names) + "; branch { }")
Path("deep.json").write_text('{"basis":' + "[" * 126 + "]" * 126 + "}")
Path("too-deep.json").write_text("[" * 500_000)
terms = [f"{a}^{i}*{b}^{j}" for a in names for b in names if a < b for i in range(1, 40) for j in range(1, 60)]
Path("long.json").write_text('{"basis":["' + "+".join(terms) + '"],"steps":[[["1"]]],"vars":[' + ",".join(f'"{name}"' for name in names) + '],"version":1}')
elements = ",".join(f'"a^{i}*b"' for i in range(1, 513))
rows = ",".join(f'[[{i},"1"]]' for i in range(512))
Path("elements.json").write_text(f'{{"basis":[{elements}],"steps":[[{rows}]],"vars":[' + ",".join(f'"{name}"' for name in names) + '],"version":2}')
PY
letters=$(printf '1,%.0s' $(seq 4095))1
row() {
    want_status=$1
    shift
    "$program" "$@" >answer
    status=$?
    [ "$status" = "$want_status" ] || { echo "invar $*: status $status, and not $want_status: $(head -c 80 answer)" | cut -c1-200; failed=1; }
}
row 0 basis forms.loop
row 0 basis sums.loop
row 0 basis classes.loop
row 0 chain forms.chain
row 0 relations forms.seqs
row 0 basis deep.loop
row 0 basis minus.loop
for side in sum difference product quotient left right mixed; do
    equation=$(cat "$side.equation")
    row 0 basis "$side.loop"
    row 0 member "$side.loop" "$equation"
    row 0 decide "$side.loop" "$equation"
    row 0 cert "$side.loop"
    mv answer "$side.json"
    row 0 check "$side.loop" "$side.json"
    row 0 run "$side.loop" 1,2,2 0,0
    row 0 checkproof "$side.program" nothing.json
done
row 0 checkproof blocks.program blocks.json
row 3 checkproof choices.program nothing.json
row 3 checkproof blocks.program too-deep.json
row 3 check same.loop deep.json
row 3 check same.loop too-deep.json
row 3 checkfull same.loop too-deep.json
row 1 check same.loop long.json
row 1 check same.loop elements.json
row 0 run same.loop "$letters" 1,1,1,1,1,1,1,1
[ $failed = 0 ] && echo 'all runs end in 512 KB of stack'
exit $failed
