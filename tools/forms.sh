#!/bin/sh
# Lists where the crates' code may be written in older forms than the language has, kind by kind; a reader decides which are.
# Usage: tools/forms.sh [COMMIT]; without a commit the last one is read.
set -eu
cd "$(dirname "$0")/.."
commit=${1:-HEAD}
look() {
    echo "== $1"
    git grep -nE "$2" "$commit" -- 'crates/*/src/*.rt' | sed 's/^[^:]*:crates\///' || true
}

look '1 enums of their own' '^(pub(\(crate\))? )?enum '
look '1 a number that stands for none' 'or how many (there are|streams there are|seconds there are)|, or their count|0 (for two that|if the two|where they don|where nothing)'
look '1 an error or an outcome as an Option or a bool' '^ *(pub(\(crate\))? )?fn .*-> (Result<)?(Option<(Refusal|Fault)|Option<bool|bool, )|^ *\) -> (Result<)?(Option<Fault|bool, )'
look '1 a flag beside a value' 'let mut [a-z_]+ = (true|false);|^ +(pub(\(crate\))? )?[a-z_]+: bool,|^fn .*: bool,'
echo '== 2 functions alike'
python3 tools/alike.py "$commit"
look '2 types that are arrays of twelve by value' '^ +(pub(\(crate\))? )?[a-z_]+: \[[A-Za-z0-9]+; (12|MOST|MOST_STREAMS)\],'
look '3 loops' '^ *(for .* in .*\.\.|while |loop )'
look '4 types that are not compared or shown by derives' '^ *#\[derive\((Clone, Copy|Drop)\)\]'
look '4 conversions and comparisons by hand' 'fn (same|seconds_in|byte|lesser|more|green|good|unfit|close|cycle|number_and_place)\(|[<>=]=? (9|10|13|32|35|46|48|57|128|192)\b|\{ [0-9]+ \} else \{ [0-9]+ \}'
echo '== 5 facts in three contracts or more'
git grep -hE '^ +(requires|ensures)\b' "$commit" -- 'crates/*/src/*.rt' | sed -E 's/^ +//; s/(requires|ensures) [a-z_]+ \{/\1 {/' | sort | uniq -c | awk '$1 >= 3'
look '5 two facts joined in one requires' 'requires.*×'
echo '== 5 parameters that travel together'
git grep -hE '' "$commit" -- 'crates/*/src/*.rt' | tr -s ' \n' '  ' | grep -oE 'gaps: &Gaps, bounds: &(mut )?Bounds|heap: Global, out: &mut Vec<u8>|junction: &Junction, spare: u8|junction: &Junction, anchor: usize, ground: &Setting|crowd: &Crowd|setting: &mut Setting' | sort | uniq -c
look '6 places worked out in a flat table' '\* MOST'
look '6 lists of fixed size, and lists' '^ +(pub(\(crate\))? )?[a-z_]+: (\[[A-Za-z0-9]+; [A-Za-z0-9_]+\]|Vec<.*>),'
look '7 functions passed' 'dyn |Fn(Mut|Once)?\(|: fn\('
echo '== 8 answers and lines of proofs'
git grep -hE ': goal\.|^returns' "$commit" -- 'crates/*/proofs/*' | grep -cE '^pub .*: goal\.' || true
git grep -hE '' "$commit" -- 'crates/*/proofs/*' | wc -l
