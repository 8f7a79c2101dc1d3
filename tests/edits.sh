#!/bin/bash
# bin/edits, over a crate of its own: it has to report as refused exactly the edits that an open goal of a clause of their
# function refuses. It has to report as such the edits that change nothing, that can't be applied or read, whose function stays
# proved, or that are refused only by what another edit does to another function. The edits that show less, for want of an
# answer, by an answer that names what moved, or by a loop or a call alone, fail unless their files say so.

set -u
tests=$(cd "$(dirname "$0")" && pwd) || exit 1
work=$(mktemp -d) || exit 1
trap 'rm -rf "$work"' EXIT
passed=0
failed=0
export EDITS_TOP=$work XDG_CACHE_HOME=$work/cache

mkdir -p "$work"/crates/small/{src,proofs/{bounded,counted}} "$work/tests/edits/small/more"
echo 'small:' >"$work/crates.txt"
cat >"$work/crates/small/src/lib.rt" <<'END'
//! Small functions.
#![tactic(auto)]

ghost use Rattle.std.specs.Prelude.{◌+◌, ◌*◌, ◌≡◌, ◌≤◌, ◌<◌, length};

/// Returns twice the number.
pub fn double(number: u32) -> u32
    requires { number ≤ 1000 }
    ensures { result ≡ number + number }
{
    number + number
}

/// Returns four times the number.
pub fn quadruple(number: u32) -> u32
    requires { number ≤ 500 }
    ensures { result ≡ number + number + (number + number) }
{
    let half = double(number);
    double(half)
}

/// Returns the least number.
pub fn least() -> u32
    ensures { result ≡ 0 }
{
    LEAST
}

const LEAST: u32 = 0;

/// Returns 0, whatever twice the number is.
pub fn nothing(number: u32) -> u32
    requires { number ≤ 1000 }
    ensures { result ≡ 0 }
{
    let _twice = double(number);
    0
}

/// Returns a number that is as great as its square.
pub fn bounded(number: u32) -> u32
    requires { number ≤ 1 }
    ensures { result * result ≡ number }
{
    let first = double(number);
    first - number
}

/// Returns how many numbers there are.
pub fn counted(numbers: &[u8]) -> u64
    requires { length numbers.now < 1000 }
    ensures { result ≤ length numbers.now }
{
    let mut count: u64 = 0;
    for _number in numbers {
        count += 1;
    }
    count
}
END
: >"$work/crates/small/proofs/Lib.antt"
cat >"$work/crates/small/proofs/counted/Invariants.antt" <<'END'
use Rattle.std.proofs.Common.{◌≡◌}
use Rattle.small.proofs.counted.Given as goal

abbrev pub invariant-loop-number : goal.invariant-loop-number
invariant-loop-number l = l.count ≡ l._number-index
END
cat >"$work/crates/small/proofs/bounded/Answers.antt" <<'END'
use Rattle.std.proofs.Common.{◌≡◌, ◌*◌, ◌≤◌, ◌-◌, ℕ, suc, zero, arith, refl, subst}
use Rattle.small.proofs.bounded.Goals as goal

square : (number : ℕ) → number ≤ 1 → number * number ≡ number
square zero _ = refl
square (suc zero) _ = refl
square (suc (suc k)) h = absurd (omega (arith, h))

pub returns : goal.returns
returns c =
    let e : c.args.number ≡ c.double-first.result - c.args.number = omega (arith, c.double-first.ensures) in
    subst (λ n. n * n ≡ c.args.number) e (square c.args.number c.requires)
END

# edit NAME FUNCTION OLD NEW: writes an edit of the crate.
edit() {
    printf 'function: %s\nfile: src/lib.rt\nold: %s\nnew: %s\n' "$2" "$3" "$4" >"$work/tests/edits/small/$1.edit"
}

edit adds-one double '    number + number' '    number + 1'
edit starts-with-one quadruple 'let half = double(number);' 'let half = double(1);'
edit least-is-one least 'const LEAST: u32 = 0;' 'const LEAST: u32 = 1;'
edit says-the-same double '    number + number' '    number * 2'
edit changes-nothing quadruple 'double(half)' 'double(half)'
edit is-not-there double 'number - number' 'number'
edit cannot-be-read quadruple 'double(half)' 'double(half'
edit has-another-type least '    LEAST' '    LEAST == 0'
edit calls-what-is-refused quadruple '    number + number' '    number + 2'
edit names-no-function quadruples 'double(half)' 'double(number)'
printf 'file: src/lib.rt\nold: double(half)\nnew: double(number)\n' >"$work/tests/edits/small/has-no-function.edit"
edit more/adds-two double '    number + number' '    number + 2'

# These show less than a clause, or need the answers that they bring.
edit calls-beyond nothing 'let _twice = double(number);' 'let _twice = double(1001);'
edit says-it-calls-beyond nothing 'let _twice = double(number);' 'let _twice = double(1002);'
sed -i '1a shows: requires' "$work/tests/edits/small/says-it-calls-beyond.edit"
edit says-it-is-a-loop nothing '    0' '    1'
sed -i '1a shows: invariant' "$work/tests/edits/small/says-it-is-a-loop.edit"
edit counts-two counted 'count += 1;' 'count += 2;'
cp "$work"/tests/edits/small/counts-two{,-with-its-loop}.edit
cat >>"$work/tests/edits/small/counts-two-with-its-loop.edit" <<'END'
file: proofs/counted/Invariants.antt
old: {◌≡◌}
new: {◌≡◌, ◌+◌}
file: proofs/counted/Invariants.antt
old: l.count ≡ l._number-index
new: l.count ≡ l._number-index + l._number-index
END
edit renames-a-step bounded 'let first = double(number);' 'let second = double(number); let first = second;'
edit has-no-answer bounded 'first - number' 'first - double(0)'
cp "$work"/tests/edits/small/has-no-answer{,-that-fits}.edit
cp "$work"/tests/edits/small/has-{no,an}-answer.edit
cat >>"$work/tests/edits/small/has-no-answer-that-fits.edit" <<'END'
add: proofs/bounded/Answers.antt
pub returns : goal.returns
returns c = square c.args.number c.requires
END
cat >>"$work/tests/edits/small/has-an-answer.edit" <<'END'
add: proofs/bounded/Answers.antt
use Rattle.std.proofs.Common.{◌+◌}
pub returns : goal.returns
returns c =
    let e : c.args.number + c.args.number ≡ c.double-first.result - c.double.result = omega (arith, c.double-first.ensures, c.double.ensures) in
    subst (λ n. n * n ≡ c.args.number) e ?
END
edit says-the-same-with-its-answer bounded 'first - number' 'first - double(number) + number'
cat >>"$work/tests/edits/small/says-the-same-with-its-answer.edit" <<'END'
add: proofs/bounded/Answers.antt
use Rattle.std.proofs.Common.{◌+◌}
pub returns : goal.returns
returns c =
    let e : c.args.number ≡ c.double-first.result - c.double.result + c.args.number = omega (arith, c.double-first.ensures, c.double.ensures) in
    subst (λ n. n * n ≡ c.args.number) e (square c.args.number c.requires)
END
edit has-no-such-kind least '    LEAST' '    LEAST + 1'
sed -i '1a shows: little' "$work/tests/edits/small/has-no-such-kind.edit"

# report_is NAME TEXT: what bin/edits reports about the edit has to begin with this text.
report_is() {
    if grep -q "^small/$1.edit: $2" "$work/said"; then
        passed=$((passed + 1))
    else
        failed=$((failed + 1))
        echo "FAILED: $1 is not reported as '$2': $(grep "small/$1.edit" "$work/said")"
    fi
}

# run_is STATUS LAST ARGUMENT..: runs bin/edits, and compares its status and its last line.
run_is() {
    wanted=$1
    last=$2
    shift 2
    "$tests/../bin/edits" "$@" >"$work/said" 2>&1
    status=$?
    if [ "$status" -eq "$wanted" ] && [ "$(tail -n 1 "$work/said")" = "$last" ]; then
        passed=$((passed + 1))
    else
        failed=$((failed + 1))
        echo "FAILED: bin/edits $*: status $status, last line: $(tail -n 1 "$work/said")"
    fi
}

run_is 1 '5 passed, 16 failed'
report_is adds-one 'refused: '
report_is starts-with-one 'refused: '
report_is least-is-one 'refused: '
report_is says-the-same 'NOT REFUSED (proved): it is still proved'
report_is changes-nothing "NOT REFUSED (untried): it can't be tried: it changes nothing"
report_is is-not-there "NOT REFUSED (untried): it can't be tried: an 'old:' text is in src/lib.rt 0 times"
report_is cannot-be-read 'NOT REFUSED (untried): no contract was tried: '
report_is has-another-type 'NOT REFUSED (untried): no contract was tried: '
report_is calls-what-is-refused 'NOT REFUSED (undecided): '
report_is names-no-function "NOT REFUSED (untried): it can't be tried: the sources have no function quadruples"
report_is has-no-function "NOT REFUSED (untried): it can't be tried: it names no function"
report_is calls-beyond 'NOT REFUSED (requires: only what a call, a sum or an index requires '
report_is says-it-calls-beyond 'requires, as its file says: '
report_is says-it-is-a-loop 'NOT INVARIANT, as its file says (clause): '
report_is counts-two 'NOT REFUSED (invariant: only the invariant or the measure of a loop '
report_is counts-two-with-its-loop 'refused: returns: false if '
report_is renames-a-step 'NOT REFUSED (moved: '
report_is has-no-answer 'NOT REFUSED (unanswered: no answer is written for the path that the edit makes'
report_is has-no-answer-that-fits 'NOT REFUSED (answer: an answer that the edit brings is not accepted'
report_is has-an-answer 'refused: returns: ⊢ '
report_is says-the-same-with-its-answer 'NOT REFUSED (proved): it is still proved'
report_is has-no-such-kind "NOT REFUSED (untried): it can't be tried: bin/goals.py has no kind 'little'"
if grep -q '^edits that show less than a clause, as their files say: 1 requires$' "$work/said"; then
    passed=$((passed + 1))
else
    failed=$((failed + 1))
    echo 'FAILED: the edit that shows less is not counted by itself'
fi
run_is 1 '18 passed, 5 failed' --read

# Refused edits are recorded until the crate changes; --all tries the folder more too.
rm "$work"/tests/edits/small/{changes,is-not,cannot,calls,names,renames,has-no,has-another}-*.edit
rm "$work"/tests/edits/small/{says-the-same,says-the-same-with-its-answer,says-it-is-a-loop,counts-two}.edit
run_is 0 '6 passed, 0 failed' --all
report_is adds-one 'refused: .*(kept)'
report_is more/adds-two 'refused: '
sed -i 's/^const LEAST/const FURTHER: u32 = 0;\nconst LEAST/' "$work/crates/small/src/lib.rt"
run_is 0 '5 passed, 0 failed' small
if grep -q '(kept)' "$work/said"; then
    failed=$((failed + 1))
    echo 'FAILED: an edit of a crate that has changed is not tried again'
else
    passed=$((passed + 1))
fi
echo "$passed passed, $failed failed"
[ "$failed" -eq 0 ]
