#!/usr/bin/env bash
# places.sh POINT [COMMIT]: the lines of src/ that docs/DESIGN-PASS.md counts for one of its points, in the files as they are or in a commit.
cd "$(dirname "$0")/.." || exit 1
commit=${2:-}
lines() { git grep -nE "$1" $commit -- 'crates/*/src/*' | sed "s/^${commit:-^}://"; }
case $1 in
1) # flags, hand-made matches on Option and Result, tests by match, numbers for kinds, fallbacks, an enum's case for "none"
    lines '^ +(pub(\([a-z]+\))? )?[a-z_]+: bool,|Err\([a-z_]+\) =>|None => (Err|None)|Some\([a-z]+\) => (Ok|Some)|unwrap_or\(|=> (true|false),|\) -> u8$|const SOURCE|Reason::[A-Za-z]+, 0, 0\)|[a-z.]+ < 2 \|\||^ +Apart,' ;;
2) # functions and types of one shape: pairs of files, by the rows of `duplicates`, then by reading
    folder=$(mktemp -d)
    for file in $(git ls-tree -r --name-only "${commit:-HEAD}" | grep 'src/.*\.rt$'); do
        mkdir -p "$folder/$(dirname "$file")"
        git show "${commit:-HEAD}:$file" > "$folder/${file%.rt}.rs"
    done
    (cd "$folder" && duplicates --most 100 --min-lines 5)
    rm -rf "$folder" ;;
3) # loops
    lines '^ +(for [a-z_(), &]+ in .*|while .*|loop) \{|\+= 1;' ;;
4) # kinds without the usual derives; conversions, tests and printing by hand
    lines '^#\[derive\((Clone, Copy|Drop)(, PartialEq)?\)\]|fn (number|layer|letter|lead|graphic|formed|name_byte|is_name|is_word|device_kind|gate_kind|read_word|reason_for|conducts_at|closed|covering|listed|place_in|until|put|put_digits|put_number)\b' ;;
5) # facts in the clauses of three and more functions; then functions of six and more parameters
    git grep -hE '^ +(requires|ensures)[^{]*\{.*\}' $commit -- 'crates/*/src/*' |
        sed -E 's/^ +(requires|ensures)[ a-z_]*\{ ?//; s/ ?\}$//; s/\.(old|new|now)\b//g; s/\b(may|sure|states|table)\b/T/g' |
        sort | uniq -c | sort -rn | awk '$1 >= 3' ;;
6) # arrays, and lengths and places beside lists
    lines '^ +(pub )?[a-z_]+: \[[A-Za-z0-9]+; ?[A-Z0-9]+\],|count: usize,|^ +(nets|sizes): Vec|row: &mut \[u8; ROW\]|page: &mut \[u8\], at: usize|table: &mut \[A::Sign\],' ;;
7) # switches and tables of functions
    lines 'fn\(|dyn |Box<|impl Fn|: Fn' ;;
8) # answers, by crate
    for crate in crates/*; do
        count=$(git grep -hcE '^pub \S+ : goal\.' $commit -- "$crate/proofs/*" | awk '{n += $1} END {print n + 0}')
        echo "$count $crate"
    done ;;
esac
