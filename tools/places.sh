#!/bin/bash
# The patterns that docs/DESIGN-PASS.md counts in the sources of a commit: how often each is hit, and with -v the lines.
# usage: bash tools/places.sh [-v] COMMIT
verbose=; [ "$1" = -v ] && { verbose=1; shift; }
commit=$1
sources='crates/*/src/*.rt'
hits() {
    printf '%-4s %3d  %s\n' "$1" "$(git grep -hE -e "$2" "$commit" -- "$sources" | wc -l)" "$2"
    [ -n "$verbose" ] && git grep -nE -e "$2" "$commit" -- "$sources" | sed "s/^$commit:/       /"
}
twice() {
    printf '%-4s %3d  %s, more than once\n' "$1" "$(git grep -hoE -e "$2" "$commit" -- "$sources" | sort | uniq -d | wc -l)" "$2"
    [ -n "$verbose" ] && git grep -hoE -e "$2" "$commit" -- "$sources" | sort | uniq -cd | sed 's/^/       /'
}
hits  1a '^ *(pub(\(crate\))? )?enum '
hits  1b '=> [0-9]+,'
hits  1c '-> \((bool|u8)|\(0, 0\)|: bool, '
twice 2a 'fn [a-z_]+'
twice 2b '^ {4,8}[a-zA-Z].*[^,{;]$'
hits  3  "^ *('[a-z]+: )?(for|while|loop) "
hits  4a '== .* && .* == |matches!|^ *match (self|pin|item|placed|\*byte)'
hits  4b ' as u(8|32|64)|\{ 1 \}|^ +1$'
hits  4c 'format!|push_str|write!'
hits  4d 'else \{$|Fail::new'
hits  5a 'requires .*\{.* × '
hits  5b 'heap: Global, |at: usize, |line_number: usize'
hits  5c 'G\.Game\.rules'
hits  6  'Vec<|Vec::new|vec!|\[u(8|64); '
hits  7  'fn\(|Fn\(|FnMut|FnOnce|dyn '
