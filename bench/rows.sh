#!/bin/sh
# Runs the built program on worked rows, on those of crates/acceptance/data/loops.txt too, and compares its text and status with what they want.
# Usage: bench/rows.sh            (the program that answers ./invar, which is built where it has to be; INVAR names another one)
here=$(cd "$(dirname "$0")/.." && pwd)
program=$(realpath "${INVAR:-$("$here/tools/program.py" build)}") || exit 1
case $program in */unproved/*) unproved=' (built without its proofs)' ;; *) unproved= ;; esac
folder=$(mktemp -d)
trap 'rm -rf "$folder"' EXIT
cd "$folder" || exit 1
cp "$here"/examples/*.loop "$here"/examples/*.json "$here"/examples/sequences/*.seqs "$here"/examples/chains/*.chain .
printf '%s' 'vars x; branch { x=x+1; }' >count.loop
printf '%s' 'vars x; init x=0; branch { x=2*x; }' >double.loop
printf '%s' 'vars x; branch { x=x+; }' >broken.loop
printf '%s' 'vars x, y; init x=y, y=0; branch { }' >uses.loop
printf '%s' 'vars x, x; branch { }' >twice.loop
printf '%s' 'vars x; branch { x=1/x; }' >divides.loop
printf '%s' 'vars x; branch { x=x^16*x^16*x^16*x^16*x; }' >high.loop
printf '%s' 'vars x; branch { x=170141183460469231731687303715884105727*x+x; }' >wide.loop
printf '%s' 'vars x; locals t; branch { t=2*x; x=t-x; }' >local.loop
printf '%s' 'vars x; locals t; branch { t=x; } branch { x=t; }' >unset.loop
: >empty.loop
printf '%s' '{"basis":[],"steps":[[]],"vars":["x"],"version":1}' >none.json
printf '%s' '{"basis":["x"],"steps":[[["1"]]],"vars":["x"],"version":1}' >start.json
printf '%s' '{"basis":["1/0"],"steps":[[["1"]]],"vars":["x"],"version":1}' >zero.json
printf '%s' '{"basis":["170141183460469231731687303715884105727*x"],"steps":[[["2"]]],"vars":["x"],"version":1}' >large.json
sed 's/2\*a - t + 1/a - 1\/2*t + 1\/2/' squares.json >fractions.json
sed 's/"0","1"/"0","2"/' fractions.json >fails.json
sed 's/\["1","0"\],/["1","0"]/; s/\["0","1"\]//' squares.json >short.json
sed 's/\["1","0"\]/[[0,"1"]]/; s/\["0","1"\]/[[1,"1"]]/; s/"version":1/"version":2/' fractions.json >short-version.json
sed 's/\[1,"1"\]/[2,"1"]/' short-version.json >past.json
sed 's/"version":2/"version":3/' short-version.json >next-version.json
head -c 50 fractions.json >cut.json
head -c 65537 /dev/zero | tr '\0' ' ' >long.loop
head -c 1048577 /dev/zero | tr '\0' ' ' >long.json
head -c 1048576 /dev/zero | tr '\0' ' ' >spaces.json
usage='usage: invar basis [--budget N] [--degree D] LOOP | member [--budget N] LOOP EQUATION | cert [--budget N] [--degree D] LOOP | check LOOP CERT | run LOOP WORD VALUES | gen NUMBER | chain [--budget N] CHAIN | chainrun CHAIN WORDS VALUES | counter [--length N] LOOP EQUATION | full [--budget N] LOOP | checkfull LOOP CERT | relations [--budget N] FILE | decide [--budget N] LOOP EQUATION | prove [--budget N] LOOP EQUATION | checkproof PROGRAM CERT; invar --help says more'
failed=0
row() {
    want_status=$1 want_text=$2
    shift 2
    text=$("$program" "$@")
    status=$?
    if [ "$status" != "$want_status" ] || [ "$text" != "$want_text" ]; then
        echo "invar $*: '$text' with status $status, and not '$want_text' with status $want_status"
        failed=1
    fi
}
row 0 'a - 1/2*t + 1/2 = 0
t^2 - 4*s + 2*t + 1 = 0' basis squares.loop
row 0 'b*q - a + r = 0' basis division.loop
row 0 'a - 1/2*t + 1/2 = 0
t^2 - 4*s + 2*t + 1 = 0' basis square-root.loop
row 0 'n - 1/6*z + 1 = 0
z^2 - 12*y - 6*z + 12 = 0
y*z - 18*x - 12*y + 2*z - 6 = 0
y^2 - 3/2*x*z - 9*x - 5*y + 3/2*z - 5 = 0' basis cubes.loop
row 0 'p^2 - n*q + q*r = 0' basis dijkstra-root.loop
row 0 'a*b - x*y - z = 0' basis product.loop
row 0 'q*r - p*s + 1 = 0
y*r - x*s + a = 0
a*q + b*s - y = 0
y*p - x*q - b = 0
a*p + b*r - x = 0' basis gcd.loop
row 0 'q^2 - 8/9*s*c - 1/9*c = 0
s*q - 2/3*n*c - 1/3*c = 0
n*q - 1/6*s + 1/2*q - 4/3*c = 0
s^2 - c = 0
n*s + 1/2*s - 3/2*q = 0
n^2 + n - 2*s = 0' basis power-sums.loop
row 0 'y*a - b = 0
x*a - r*a - q*b = 0
y*q - x + r = 0' basis cohen-division.loop
row 0 'b*q - a + r = 0' basis euclid.loop
row 0 'x - 2*p + q - 2 = 0
n - 1/2*p + 1/2*q - 3/2 = 0
p^2 - 2*p*q + q^2 - 2*p - 2*q + 1 = 0' basis delay-line.loop
row 0 'none' basis count.loop
row 0 "$(cat sign-full.json)" full sign.loop
row 0 'complete' checkfull sign.loop sign-full.json
row 5 'budget: 1' basis --budget 1 product.loop
row 3 'loop: syntax at 0' basis empty.loop
row 3 'loop: limit at 38' basis high.loop
row 4 'loop: wide at 60' basis wide.loop
row 7 'read fault: none' basis none
row 7 'too long: long.loop' basis long.loop
row 0 'yes
a^2 + a*b - b^2 - s = 0' decide fibonacci.loop 'b^2 - a*b - a^2 = -s'
row 1 'no
word 1
a = 1, b = 1, s = 1
a = 1, b = 2, s = -1
value -1' decide fibonacci.loop 'a = b'
row 0 'yes
x^2 + y^2 - 1 = 0' decide rotation.loop 'x^2+y^2 = 1'
row 0 'yes
x*v*h - x^2 - v^2 + e = 0' decide leapfrog.loop 'x^2+v^2-h*x*v = e'
row 0 'yes
x*z - y*z - x + 1 = 0' decide geometric-sum.loop 'x*(z-1) = y*z - 1'
row 0 'yes
x*y - z = 0' decide squaring.loop 'z = x*y'
row 0 '{"basis":["-x*y + z","x*y - z"],"steps":[[[[1,"-x*y - z"]],[[1,"x*y + z"]]]],"vars":["x","y","z"],"version":2}' prove squaring.loop 'z = x*y'
row 0 's^2 - 1 = 0
a^2 + a*b - b^2 - s = 0' basis --degree 4 fibonacci.loop
row 0 'x^2 + y^2 - 1 = 0' basis --degree 2 rotation.loop
row 0 'x*v*h - x^2 - v^2 + e = 0' basis --degree 3 leapfrog.loop
row 0 '{"basis":["x*z - y*z - x + 1"],"steps":[[[[0,"z"]]]],"vars":["x","y","z"],"version":2}' cert --degree 2 geometric-sum.loop
row 5 'budget: 10' basis --budget 10 --degree 2 squaring.loop
row 3 'limit: degree 16' basis --degree 16 leapfrog.loop
row 0 "invar 1.6.0$unproved" --version
row 0 "$("$program" help)" --help
row 0 'invar gen NUMBER
Analyses the first so many loops of a family, 1 to 1000, and prints how many
loops and elements there are, and the greatest degree. It reads no file.' help gen
row 2 "$usage" help help
row 2 "$usage" --version basis
row 2 "$usage" basis
row 2 "$usage" basis -x
row 2 "$usage" basis --budget 0 product.loop
row 2 "$usage" basis --degree 0 product.loop
row 2 "$usage" basis --degree 2 --budget 10 product.loop
row 0 't - 2*q + f = 0
q^2 - 4/3*q*f + 4/9*f^2 - 1/9*q = 0' relations figurate.seqs
row 0 'g - 1/2*p + 1/2 = 0' relations geometric-sums.seqs
row 0 'j^2 - 2/3*j*p + 1/9*p^2 - 1/9 = 0' relations jacobsthal.seqs
row 0 'm - p + 1 = 0' relations mersenne.seqs
row 0 'a*b - c = 0' relations powers.seqs
row 0 'm*p - x = 0' relations product.seqs
row 0 's^2 - c = 0
n^2 + n - 2*s = 0' relations sums-of-powers.seqs
row 0 'n^3 + 3/2*n^2 + 1/2*n - 3*s = 0' relations sums-of-squares.seqs
row 0 'loop 1:
q = 0
a - r = 0
p*y - b = 0
loop 2:
q*y - a + r = 0
p*y - b = 0
a*p - b*q - p*r = 0' chain doubling.chain
row 0 'loop 1:
q = 0
a - r = 0
b*p - d = 0
loop 2:
b*q - a + r = 0
b*p - d = 0
a*p - d*q - p*r = 0' chain hardware-division.chain
row 0 'loop 1:
p = 0
n - r = 0
loop 2:
p^2 - n*q + q*r = 0' chain dijkstra-root.chain
row 0 'loop 1:
i^2 + i - 2*s = 0
loop 2:
n^2 - 2*i + n - 2*s = 0' chain reset.chain
row 0 'loop 1:
a - 1/2*t + 1/2 = 0
t^2 - 4*s + 2*t + 1 = 0' chain squares.loop
row 5 'loop 1: budget: 1' chain --budget 1 doubling.chain
row 3 'loop: syntax at 0' chain empty.loop
row 0 'a = 7, b = 3, p = 1, q = 0, r = 7, y = 3
a = 7, b = 6, p = 2, q = 0, r = 7, y = 3
a = 7, b = 12, p = 4, q = 0, r = 7, y = 3
a = 7, b = 6, p = 2, q = 0, r = 7, y = 3
a = 7, b = 3, p = 1, q = 1, r = 4, y = 3' chainrun doubling.chain 1,1/1,2 7,3,1,0,7,3
row 0 'i = 0, n = 7, s = 0
i = 1, n = 7, s = 1
i = 2, n = 7, s = 3
i = 0, n = 2, s = 3
i = 1, n = 2, s = 2' chainrun reset.chain 1,1/1 0,7,0
row 3 'words: 1 given, 2 wanted' chainrun doubling.chain 1 7,3,1,0,7,3
row 3 'no branch: letter 3' chainrun doubling.chain 1,1/3 7,3,1,0,7,3
row 3 'loop: syntax at 0' chainrun empty.loop 1 1
row 2 "$usage" chainrun doubling.chain 1/1
row 5 'budget: 1' relations --budget 1 mersenne.seqs
row 3 'sequences: syntax at 0' relations empty.loop
row 7 'read fault: none' relations none
row 7 'too long: long.loop' relations long.loop
row 2 "$usage" relations
row 2 "$usage" relations -x
row 0 'yes
-a - 1/2*t - 3/2
-1/4' member squares.loop 's = (a+1)^2'
row 1 'no' member squares.loop 's = a^2'
row 0 'yes' member count.loop '0 = 0'
row 3 'equation: unknown at 0' member count.loop 'q = 0'
row 4 'equation: wide at 4' member count.loop 'x = 170141183460469231731687303715884105728'
row 5 'budget: 1' member --budget 1 product.loop 'a*b = z'
row 2 "$usage" member squares.loop
row 0 '{"basis":["a - 1/2*t + 1/2","t^2 - 4*s + 2*t + 1"],"steps":[[[[0,"1"]],[[1,"1"]]]],"vars":["a","s","t"],"version":2}' cert squares.loop
for name in squares division square-root dijkstra-root cubes product gcd power-sums cohen-division euclid delay-line count; do
    "$program" cert $name.loop >written.json
    row 0 valid check $name.loop written.json
done
row 5 'budget: 1' cert --budget 1 product.loop
row 7 'read fault: none' cert none
row 2 "$usage" cert
row 0 'loops 1, elements 2, greatest degree 2' gen 1
row 0 'loops 10, elements 20, greatest degree 8' gen 10
row 2 "$usage" gen 0
row 2 "$usage" gen 1001
for name in squares division square-root dijkstra-root cubes product gcd power-sums cohen-division euclid delay-line; do
    row 0 valid check $name.loop $name.json
done
row 0 valid check cubes.loop cubes-singular.json
row 0 valid check squares.loop fractions.json
row 0 valid check squares.loop short-version.json
row 3 'certificate: shape at /steps/0/1/0' check squares.loop past.json
row 3 'certificate: shape at /version' check squares.loop next-version.json
row 1 'step fails: branch 1, element 2' check squares.loop fails.json
row 1 'step fails: branch 1, element 2' check squares.loop squares-step-fails.json
row 1 'start fails: element 1' check squares.loop squares-start-fails.json
row 0 valid check count.loop none.json
row 1 'start fails: element 1' check count.loop start.json
row 3 'certificate: not json' check squares.loop cut.json
row 3 'certificate: not json' check squares.loop spaces.json
row 3 'certificate: shape at /steps/0' check squares.loop short.json
row 3 'certificate: shape at /vars' check squares.loop none.json
row 3 'certificate: polynomial at /basis/0' check count.loop zero.json
row 3 'loop: syntax at 0' check empty.loop none.json
row 3 'loop: syntax at 21' check broken.loop none.json
row 3 'loop: init uses at 21' check uses.loop none.json
row 3 'loop: twice at 8' check twice.loop none.json
row 3 'loop: unset at 45' check unset.loop none.json
row 3 'loop: divisor at 21' check divides.loop none.json
row 3 'loop: limit at 38' check high.loop none.json
row 4 'loop: wide at 60' check wide.loop none.json
row 4 'wide: branch 1, element 1' check double.loop large.json
row 0 'a = 0, s = 1, t = 1
a = 1, s = 4, t = 3
a = 2, s = 9, t = 5' run squares.loop 1,1 0,1,1
row 0 'a = 7, b = 2, q = 0, r = 7
a = 7, b = 2, q = 1, r = 5
a = 7, b = 2, q = 2, r = 3' run division.loop 1,1 7,2,0,7
row 3 'start: q' run division.loop 1 7,2,1,7
row 3 'no branch: letter 2' run division.loop 1,2 7,2,0,7
row 3 'values: 2 given, 4 wanted' run division.loop 1 7,2
row 4 'wide: step 1, variable t' run local.loop 1 170141183460469231731687303715884105727
row 4 'wide: step 1, variable x' run count.loop 1 170141183460469231731687303715884105727
row 0 'x = -1/2' run count.loop '' -5/10
row 2 "$usage"
row 2 "$usage" check squares.loop
row 2 "$usage" check -x squares.json
row 2 "$usage" run squares.loop 1 0,1,1/0
row 7 'read fault: none' check none squares.json
row 7 'read fault: none' check squares.loop none
row 7 'too long: long.loop' check long.loop squares.json
row 7 'too long: long.json' check squares.loop long.json
for words in 'basis squares.loop' 'check squares.loop squares.json'; do
    "$program" $words >/dev/full
    [ $? = 8 ] || { echo "$words on a full disk: not status 8"; failed=1; }
done
python3 - "$program" "$here/crates/acceptance/data/loops.txt" <<'PY' || failed=1
import pathlib, subprocess, sys

program, rows = sys.argv[1], pathlib.Path(sys.argv[2])
differ = 0
for line in rows.read_text().splitlines():
    call, *columns = line.removeprefix("units\t").split("\t")
    if (call, len(columns)) in (("basis", 3), ("member", 4)):
        budget, text, *asked, wanted = columns
        pathlib.Path("row.loop").write_text(text)
        done = subprocess.run([program, call, "--budget", budget, "row.loop", *asked], capture_output=True, text=True)
        answer = f"{done.returncode} {'; '.join(done.stdout.splitlines())}"
        if answer != wanted.split(" units, ")[-1]:
            differ += 1
            print(f"{line}\n    answers {answer}")
sys.exit(1 if differ else 0)
PY
[ $failed = 0 ] && echo 'all rows as they should be'
exit $failed
