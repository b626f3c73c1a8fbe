#!/usr/bin/env bash
# Counts, at a commit (HEAD where none is named), the places of src/ that docs/DESIGN-PASS.md speaks of; with -l it lists them.
set -euo pipefail
cd "$(dirname "$0")/.."
list=no
if [ "${1:-}" = "-l" ]; then list=yes; shift; fi
commit=${1:-HEAD}

places() { # NAME PATTERN
  local found
  found=$(git grep -nP -e "$2" "$commit" -- 'crates/*/src/*.rt' | sed "s/^$commit://" || true)
  printf '%-3s %3s  %s\n' "$1" "$(printf '%s' "$found" | grep -c . || true)" "$2"
  if [ "$list" = yes ] && [ -n "$found" ]; then printf '%s\n' "$found" | sed 's/^/         /'; fi
}

places 1a '\-> Option<(Question|Fault|Refusal)>'
places 1b '\b(way|sharing|side|kind): u8\b'
places 1c '^pub fn .*\(\) -> u8$'
places 1d 'fn (lowest|highest)_tick.*-> u16'
places 1e '(Question|Refusal)::\w+ => \d+,'
places 1f 'Err\(_\) => Err\(AllocError\)'
places 1g 'return (Err|Some)\((Question|Fault|Refusal)\b'
places 3a '^\s*[a-z_.]+ \+= (1|SIX);$'
places 3b '\bfor \w+ in \(?[\w.() ]*\.\.'
places 3c '\bif .*\b(place|index|number|member|value)\b.* (<|<=|>=|>) [\w.]*(len\(\)|count|MEMBERS|HIGHEST)\b'
places 4a '(Side::Buy, Side::Buy)|Side::(Buy|Sell) => (true|false|Side::)|Life::Standing => \{\}|Life::Standing, Side::Buy, Side::Sell|Kind::Normal => true'
places 4b 'fn (header_of|placement_of|withdrawal_of|of|entry|ask_of|fields_of|word_of|bytes_of|key|quote|number)\(.*\) ->'
places 4c 'fn (\w+_name|wording_of|side_word|spell|print_\w+|append_\w+|put_\w+)\('
places 4d 'const NONE'
places 4e 'fn is_ahead\(.*\) -> bool \{'
places 5a 'requires .*(length \(entries|NoRounds)'
places 5b '(figures: &.*)?\bvolume: u64'
places 5c 'member: u8, number: u16'
places 6a '\b(count|made|next): usize,'
places 6b '\w+: \[\w+; [A-Z_]+\],'
places 7a 'TickTest for'
places 7b 'fn vouch'
