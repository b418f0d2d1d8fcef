#!/bin/sh
# Lists, for each point of docs/DESIGN-PASS.md, the lines of crates/*/src/ that may be places of it. A line is a place only if it reads so.
#   tools/places.sh          how many lines each search finds
#   tools/places.sh -l       the lines too
cd "$(dirname "$0")/.." || exit 2
src=$(ls crates/*/src/*.rt)
found() {
    name=$1
    shift
    lines=$("$@" $src)
    printf '%-48s %s\n' "$name" "$(printf '%s' "$lines" | grep -c .)"
    if [ "$show" = -l ]; then printf '%s\n\n' "$lines"; fi
}
show=$1

found '1 own enums' grep -nE '^ *(pub(\(crate\))? )?enum '
found '1 flags: fields, and answers beside a value' grep -nE '^ +(pub(\(crate\))? )?[a-z_]+: bool,$|-> \(?.*Result<bool|&mut self.*-> bool'
found '1 numbers for kinds, for refusals, for nothing' grep -nE '\(u64, u64, u64\)|(code|CODE): u8|number: u8|MARK: |=> (Some\()?0,$|\(0, 0\)'
found '2 one name, declared more than once' sh -c 'grep -ohE "^ *(pub(\(crate\))? )?(const )?fn [a-z_0-9]+|^ *(pub(\(crate\))? )?const [A-Z_]+" "$@" | sed "s/.* //" | sort | uniq -c | awk "\$1 > 1 { print \$2, \$1 }"' sh
found '2 functions and constants with a size in the name' grep -nE 'fn [a-z_]+(8|16|32|64)\b'
found '3 loops' grep -nE '^ *(for|while|loop)\b'
found '3 loops that go by an index or a hand-made count' grep -nE '^ *while |for [a-z_]+ in [0-9a-z_.]+\.\.|\.enumerate\(\)|\+= 1;|usize::MAX\)'
found '4 impls of traits of std' grep -nE '^impl.*[ :](Copy|Clone|Default|PartialEq|Display|From<.*>|TryFrom<.*>|FromStr|Drop|Iterator) for '
found '4 conversions by `as`' grep -nE ' as (u8|u16|u32|u64|usize|char)\b'
found '4 Option or Result taken apart and put together' grep -nE '^ *(Some|None|Ok|Err)(\(.*\))? => |^ *return None;|return Err\(Word'
found '4 from and to a letter, a word, a number' grep -nE 'fn (of|letter|from_letter|text|number|new)\('
found '5 clauses that a type might say' grep -nE '(requires|ensures) (same|closes|shape|bytes|len|live|opens)? ?\{|requires '
found '5 functions of five parameters or more' awk '/^ *(pub(\(crate\))? )?fn /{ s = ""; on = 1 } on { s = s $0; if ($0 ~ /\)( ->.*)?( \{|;)?$/ || $0 ~ /\) ->/) { on = 0; t = s; sub(/^[^(]*(<[^(]*>)?\(/, "", t); sub(/\) *(->.*)?$/, "", t); n = gsub(/: /, ": ", t); if (s ~ /self/) n++; if (n >= 5) print FILENAME ": " FNR } }'
found '6 a length or a place beside, lists side by side' grep -nE '^ +(pub(\(crate\))? )?(count|len|at|start|starts|lines|floor): '
found '7 matches on a kind' grep -nE 'match (self|code|fold|agreement\.code|self\.places|word|complaint|refusal|\(self, )'
proofs=$(find crates -name '*.antt' -path 'crates/*/proofs/*' -not -path '*/out/*')
printf '%-48s %s\n' '8 answers and lemmas in proof files' "$(cat $proofs | grep -cE '^pub ')"
printf '%-48s %s\n' '8 proof files' "$(printf '%s\n' "$proofs" | wc -l)"
printf '%-48s %s\n' '8 lines of proof files' "$(cat $proofs | grep -c .)"
