#!/bin/sh
# Lists the lines of the code where an older form may stand, by the points of docs/DESIGN-PASS.md.
# Run it at the top; with a folder it reads the crates there.
cd "${1:-.}" || exit 1
find_in() { grep -rnE "$@" --include='*.rt' crates/*/src | sort; }
count() { echo "== $1"; list=$(cat); [ -z "$list" ] || echo "$list"; echo "-- $(printf %s "$list" | grep -c "")"; }

find_in '^ *(pub(\(crate\))? )?enum ' | count '1a own enums'
{ find_in '(Ok|Err)\(_\) =>|\bNone =>|^ *let (Ok|Some)\(.*= .*else \{'; grep -rnE '(Ok|Err)\(.*\) => \{?$' --include='*.rt' crates/*/src; } | sort -u | count '1b Option and Result taken apart by hand'
find_in 'fn (number\(self|from_number)' | count '1c numbers for kinds and refusals'
find_in '^(pub(\(crate\))? )?struct |^impl|^pub type ' | count '2 types and impls, to be read in pairs'
find_in '\bwhile\b|\bfor [a-z_(), ]+ in [0-9a-z]+\.\.|\+= 1;' | count '3 loops and counters'
find_in 'fn (same|number\(self|from_number|print_entity|read[a-z_]*|add|sub)\b|fn next\(' | count '4a equality, conversion, printing, operators and iteration by hand'
find_in '^ *#\[derive\((Clone, Copy(, PartialEq, Eq)?|Drop)\)\]' | count '4b derives that give neither Debug nor equality'
find_in 'requires|shape\.rows shape\.columns' | count '5 facts asked for, and numbers that travel together'
find_in '&mut \[|\[(u|0|[0-9])[^]]*; [A-Z0-9a-z]+\]' | count '6 buffers'
find_in 'dyn |impl Fn|Fn\(|match (self|selector|choice|entity)\b' | count '7 switches'
