#!/usr/bin/env bash
# Plants one error at a time into a copy of the Rust linker, links the copy in place of the verified library, and looks
# whether differ notices. So it tries the harness and the C interface, and needs no verified library. A quarter of an hour and more.
#
#   scripts/mutants.sh [WORD]                only mutants whose label has the word
#   scripts/mutants.sh WORD --no-limits      the same by the random cases alone; any arguments of differ
#   scripts/mutants.sh WORD --each           by the cases at the limits alone, and by the random cases alone
set -eu
cd "$(dirname "$0")/../compare"
here=$PWD
copy=$here/target/mutants/copy
stand_in=$here/target/mutants/stand-in
export CARGO_PROFILE_RELEASE_OPT_LEVEL=1

# The stand-in over the copy, as liblinker.a. The copy is a crate of another name: else the linker could take a function of
# the copy from the unchanged crate.
build_library() {
  sed -i 's/^name = "compare"/name = "mutant"/' "$copy/Cargo.toml"
  sed -i 's/^compare = { path = ".." }/compare = { path = "..", package = "mutant" }/' "$copy/stand-in/Cargo.toml"
  (cd "$copy/stand-in" && CARGO_TARGET_DIR=$stand_in cargo build --offline --quiet --release)
}

differ() {
  LNK100_LIB=$stand_in/release CARGO_TARGET_DIR=$here/target/mutants/differ \
    cargo run --offline --quiet --release --features library --bin differ -- "$@"
}

fresh_copy() {
  rm -rf "$copy" "$here/target/mutants/include"
  mkdir -p "$copy/stand-in"
  cp -r Cargo.toml build.rs src "$copy"
  # the linker alone, which is sooner built
  rm -r "$copy/src/differ" "$copy/src/bin"
  sed -i '/^pub mod differ;/d' "$copy/src/lib.rs"
  cp -r stand-in/Cargo.toml stand-in/src "$copy/stand-in"
  # where the copy's build.rs looks for the header
  [ ! -d ../include ] || cp -r ../include "$here/target/mutants/include"
}

# The first failure that differ tells with these arguments; nothing where it agrees.
failure() {
  local said
  if ! said=$(differ 20000 1 "$@"); then
    printf '%s\n' "$said" | grep -m 1 '^FAILED' || echo 'it did not come back'
  fi
}

# By the limits alone and by the random cases alone; both must notice it.
mutant_by_each() { # label
  local limits random
  limits=$(failure --seconds 0)
  random=$(failure --no-limits)
  if [ -n "$limits" ] && [ -n "$random" ]; then
    echo "noticed      $1: $limits; $random"
  else
    echo "NOT NOTICED  $1: ${limits:-not by the limits}; ${random:-not by the random cases}"
    missed=$((missed + 1))
  fi
}

missed=0
tried=0
mutant() { # label, file under src/, sed expression
  case "$1" in *"${word:-}"*) ;; *) return 0 ;; esac
  tried=$((tried + 1))
  fresh_copy
  sed -i "$3" "$copy/src/$2"
  if cmp -s "src/$2" "$copy/src/$2"; then
    echo "NO EDIT      $1: the expression fits nothing in src/$2"
    missed=$((missed + 1))
  elif ! build_library; then
    echo "NO BUILD     $1"
    missed=$((missed + 1))
  elif [ "${more[*]}" = --each ]; then
    mutant_by_each "$1"
  elif said=$(failure "${more[@]}") && [ -n "$said" ]; then
    echo "noticed      $1: $said"
  else
    echo "NOT NOTICED  $1"
    missed=$((missed + 1))
  fi
}

word=${1:-}
more=("${@:2}")
fresh_copy
build_library
if ! said=$(differ 500 1); then
  printf '%s\n' "$said" "The stand-in without an error does not agree with the Rust linker."
  exit 1
fi
echo "agrees       the stand-in without an error"

mutant "absolute entries moved" linker.rs 's/if entry.relocated {/if true {/'
mutant "search once only" linker.rs 's/if self.table.is_undefined(\*name) {/if provider > place \&\& self.table.is_undefined(*name) {/'
mutant "idle round not counted" linker.rs 's/rounds = round + 1;/rounds = round;/'
mutant "fourth quarter does not wrap" linker.rs 's/wrapping_add/saturating_add/'
mutant "last word has no room" linker.rs 's/base + module.length > PROGRAM_WORDS/base + module.length >= PROGRAM_WORDS/'
mutant "words of no placed block lengthen" reader.rs 's/if count > 0 {/if true {/'
mutant "section duplicates only within a module" linker.rs 's/if providers.insert(entry.name, place).is_some() {/if providers.insert(entry.name, place) == Some(place) {/'
mutant "section duplicates told at line 0" linker.rs 's/Refusal::at(Reason::Duplicate, section.line)/Refusal::at(Reason::Duplicate, 0)/'
mutant "last external refused" linker.rs 's/let externals = 1..=module.externals.len();/let externals = 1..module.externals.len();/'
mutant "table of 257" linker.rs 's/self.table.symbols.len() > MOST_SYMBOLS/self.table.symbols.len() > MOST_SYMBOLS + 1/'
mutant "forced table of 255" linker.rs 's/self.table.symbols.len() == MOST_SYMBOLS/self.table.symbols.len() >= MOST_SYMBOLS - 1/'
mutant "BASE of 4096" linker.rs 's/if address > LARGEST_BASE {/if address > LARGEST_BASE + 1 {/'
mutant "lowest reference told" linker.rs 's/highest(&self.words.0, refers)/self.words.0.iter().position(refers).map_or(NO_ADDRESS, |address| address as u16)/'
mutant "file of 65537" linker.rs 's/file.len() > LONGEST_FILE/file.len() > LONGEST_FILE + 1/'
mutant "END on a frozen state refused" linker.rs 's/let length = self.image_length();/self.refuse_frozen()?; let length = self.image_length();/'
mutant "octal read as decimal" text.rs 's/value \* 8/value * 10/'
mutant "seven digits" text.rs 's/MOST_DIGITS: usize = 6/MOST_DIGITS: usize = 7/'
mutant "line of 81" text.rs 's/LONGEST_LINE: usize = 80/LONGEST_LINE: usize = 81/'
mutant "CR dropped without LF" text.rs "s/None => line,/None => line.strip_suffix(b\"\\\\r\").unwrap_or(line),/"
mutant "byte 127" text.rs "s/(b' '..=b'~')/(b' '..=0x7f)/"
mutant "names that begin with a digit" name.rs 's/!text.first()?.is_ascii_uppercase()/!text.first()?.is_ascii_alphanumeric()/'
mutant "names of five" name.rs 's/LONGEST: usize = 6/LONGEST: usize = 5/'
mutant "names with stray bytes" name.rs 's/filter(|name| name.0 == cell)/filter(|name| name.0 <= cell)/'
mutant "65 entries" reader.rs 's/MOST_ENTRIES: usize = 64/MOST_ENTRIES: usize = 65/'
mutant "65 externals" reader.rs 's/MOST_EXTERNALS: usize = 64/MOST_EXTERNALS: usize = 65/'
mutant "257 modules" reader.rs 's/MOST_MODULES: usize = 256/MOST_MODULES: usize = 257/'
mutant "FPB size of 8" reader.rs 's/LARGEST_FPB_SIZE: u16 = 7/LARGEST_FPB_SIZE: u16 = 8/'
mutant "FPB without sub-records" reader.rs 's/self.skip(size, .*/let _ = size;/'
mutant "END title not compared" reader.rs 's/if self.record(Kind::Name, parse_name)? != title {/if self.record(Kind::Name, parse_name)? < title {/'
mutant "type 4 as external" reader.rs 's/(0, 5) => Relocation/(0, 4 | 5) => Relocation/'
mutant "first number not tested" reader.rs 's/(0, 5) => Relocation/(_, 5) => Relocation/'
mutant "a sixth field of a DBIB record" reader.rs '/fn parse_five_fields/,/^}/s/fields.end()$/Some(())/'
mutant "end of file told at the last line" reader.rs 's/self.next_header()?.ok_or(Stop::Place)/self.next_header()?.ok_or_else(|| { self.line -= 1; Stop::Place })/'
mutant "names twice are sound" memory.rs 's/&& all_different(names)/\&\& all_different(\&names[..names.len() \/ 2])/'
mutant "unused names may hold anything" memory.rs 's/no_names.iter().chain(no_values)/no_values.iter()/;s/(names, no_names)/(names, _)/'
mutant "reference past the table is sound" memory.rs 's/tag < REFERENCE + count/tag <= REFERENCE + count/'
mutant "spare cell not tested" memory.rs 's/ || cells\[SPARE\] != 0//'
mutant "next address of 4097 is sound" memory.rs 's/next > PROGRAM_WORDS as u64/next > PROGRAM_WORDS as u64 + 1/'
mutant "unplaced text is sound" memory.rs 's/tag != UNPLACED || text == 0/tag != UNPLACED || text < 2/'
mutant "work of a refused load kept" lent.rs 's/if work_fits {/if work_fits \&\& outcome.is_ok() {/'
mutant "short work memory accepted" lent.rs 's/work.len() == WORK_CELLS/work.len() >= WORK_CELLS - 1/'
mutant "broken mark forgotten" lent.rs 's/state\[MARK\] = BROKEN;/let _ = (BROKEN, MARK);/'
mutant "overlap not tested" linker.rs 's/if slot.is_some() {/if false \&\& slot.is_some() {/'
mutant "duplicates of the table not tested" linker.rs 's/if value.is_some() {/if false \&\& value.is_some() {/'
mutant "relocated entry wraps" linker.rs 's/u16::try_from(usize::from(entry.value) + base).ok()/Some((usize::from(entry.value) + base) as u16)/'
mutant "HIGH of MEMORY from the next address" lent.rs 's/memory::high(state)/(state[memory::NEXT] as u16).wrapping_sub(1)/'
mutant "HIGH of MEMORY is the lowest placed word" lent.rs 's/memory::high(state)/state[memory::TAGS].iter().position(|tag| *tag != memory::UNPLACED).map_or(65_535, |address| address as u16)/'
mutant "HIGH of MEMORY overlooks 4,095" memory.rs '/^pub fn high/,/^}/s/&cells\[TAGS\]/\&cells[TAGS][..4095]/'
mutant "HIGH of MEMORY overlooks words that refer" memory.rs '/^pub fn high/,/^}/s/tag != UNPLACED/tag == PLAIN/'
mutant "HIGH of MEMORY is 0 where no word is placed" lent.rs 's/memory::high(state)/(& % 65_535)/'
mutant "HIGH of END from the next address" linker.rs 's/highest(&self.words.0, Option::is_some)/(self.next as u16).wrapping_sub(1)/'
mutant "HIGH of END is the lowest placed word" linker.rs 's/highest(&self.words.0, Option::is_some)/self.words.0.iter().position(Option::is_some).map_or(NO_ADDRESS, |address| address as u16)/'
mutant "HIGH of END overlooks 4,095" linker.rs 's/highest(&self.words.0, Option::is_some)/highest(\&self.words.0[..4095], Option::is_some)/'
mutant "HIGH of END is 0 where no word is placed" linker.rs 's/highest(&self.words.0, Option::is_some)/& % NO_ADDRESS/'
mutant "defined symbols counted as undefined" linker.rs '/fn write_image/,/^    }/s/symbol.value.is_none()/symbol.value.is_some()/'
mutant "END on a broken state" linker.rs '/pub fn end/,/^    }/s/self.refuse_broken()?;//'
mutant "BASE on a frozen state" linker.rs '/pub fn base/,/^    }/s/self.refuse_frozen()?;//'
mutant "next address one too far" linker.rs 's/self.next += module.length;/self.next += module.length + usize::from(module.length == 7);/'
mutant "CR in front of LF kept" text.rs 's/line.strip_suffix(b"\\r").unwrap_or(line)/line/'
mutant "a library in a library" reader.rs 's/Header::LibraryEnd => return Ok(section),/Header::LibraryStart | Header::LibraryEnd => return Ok(section),/'
mutant "mark 3 is sound" memory.rs 's/cells\[MARK\] > FROZEN/cells[MARK] > FROZEN + 1/'
mutant "values above sixteen bits are sound" memory.rs 's/(DEFINED..2 \* DEFINED)/(DEFINED..=2 * DEFINED)/'
mutant "output cleared behind the image" linker.rs 's/let image = out.get_mut(..length).ok_or(Reason::Out)?;/out.get(..length).ok_or(Reason::Out)?; out.fill(0); let image = \&mut out[..length];/'
mutant "too long breaks" answer.rs 's/Reason::Line as u64..=/Reason::TooLong as u64..=/'
mutant "lookup: the table's last symbol is not found" linker.rs '/pub(crate) fn mention/a\        if self.symbols.last().is_some_and(|last| last.name == name) { self.index.remove(\&name); }'
mutant "lookup: the table's first symbol is not found" linker.rs '/pub(crate) fn mention/a\        if self.symbols.first().is_some_and(|first| first.name == name) { self.index.remove(\&name); }'
mutant "lookup: the lowest name of a long table is not found" linker.rs '/pub(crate) fn mention/a\        if self.symbols.len() > 200 \&\& self.symbols.iter().map(|symbol| symbol.name).min() == Some(name) { self.index.remove(\&name); }'
mutant "lookup: the highest name of a full table is not found" linker.rs '/pub(crate) fn mention/a\        if self.symbols.len() == 256 \&\& self.symbols.iter().map(|symbol| symbol.name).max() == Some(name) { self.index.remove(\&name); }'
mutant "lookup: a name is found at its neighbour's position" linker.rs 's/map(|&name| self.table.mention(name))/map(|\&name| { let at = self.table.mention(name); let next = self.table.symbols.iter().enumerate().filter(|next| next.1.name > name).min_by_key(|next| next.1.name); next.filter(|_| at >= 200).map_or(at, |next| next.0) })/'
mutant "lookup: a missing name is found at a neighbour's position" linker.rs 's/map(|&name| self.table.mention(name))/map(|\&name| match self.table.symbols.iter().position(|symbol| symbol.name > name) { Some(at) if self.table.symbols.len() > 200 \&\& self.table.find(name).is_none() => at, _ => self.table.mention(name) })/'
mutant "lookup: a joined external is not found again in its load" linker.rs 's/map(|&name| self.table.mention(name))/map(|\&name| { let count = self.table.symbols.len(); let at = self.table.mention(name); if at >= count.max(200) { self.table.index.remove(\&name); } at })/'
mutant "lookup: a joined entry is not found again in its load" linker.rs 's/let symbol = self.table.mention(entry.name);/let count = self.table.symbols.len(); let symbol = self.table.mention(entry.name); if symbol >= count.max(200) { self.table.index.remove(\&entry.name); }/'
mutant "lookup: the sixth character is not compared" linker.rs '/pub(crate) fn mention/a\        if let Some(at) = self.symbols.iter().position(|symbol| symbol.name.packed() >> 8 == name.packed() >> 8) { return at; }'
mutant "lookup: a 0 behind a name is not compared" linker.rs '/pub(crate) fn mention/a\        let front = |name: Name| name.to_string().trim_end_matches("0").to_string();\n        if let Some(at) = self.symbols.iter().position(|symbol| self.symbols.len() > 200 \&\& front(symbol.name) == front(name)) { return at; }'
mutant "lookup: FORCE does not find the lowest name of a full table" linker.rs 's/if self.table.find(name).is_none() {/if self.table.find(name).is_none() || self.table.symbols.len() == 256 \&\& self.table.symbols.iter().all(|symbol| symbol.name >= name) {/'
mutant "lookup: a module is not taken for the highest name of a long table" linker.rs 's/queue.push(1, place);/if self.table.symbols.len() <= 200 || section.modules[place].entries.iter().any(|entry| self.table.is_undefined(entry.name) \&\& self.table.symbols.iter().any(|symbol| symbol.name > entry.name)) { & }/'
mutant "lookup: 14 as soon as the 257th entry joins" linker.rs '/pub fn place/,/^    }/s/for entry in &module.entries {/& if self.table.symbols.len() > MOST_SYMBOLS { return Err(fault(Reason::Table)); }/'
mutant "lookup: an entry that shares its remainder is not found" linker.rs '/^fn providers/,/^}/s/for entry in &module.entries {/& if providers.keys().any(|name: \&Name| *name != entry.name \&\& name.packed() % 2039 == entry.name.packed() % 2039) { continue; }/'
mutant "lookup: the 65th entry of one remainder is not found" linker.rs '/^fn providers/,/^}/s/for entry in &module.entries {/& if providers.keys().filter(|name: \&\&Name| **name != entry.name \&\& name.packed() % 2039 == entry.name.packed() % 2039).count() >= 64 { continue; }/'
mutant "lookup: the 65th entry of one remainder is a duplicate" linker.rs '/^fn providers/,/^}/s/for entry in &module.entries {/& if providers.keys().filter(|name: \&\&Name| name.packed() % 2039 == entry.name.packed() % 2039).count() >= 64 { return Err(Refusal::at(Reason::Duplicate, section.line)); }/'
mutant "lookup: a duplicate among 64 of one remainder is not noticed" linker.rs '/^fn providers/,/^}/s/if providers.insert(entry.name, place).is_some() {/if providers.insert(entry.name, place).is_some() \&\& providers.keys().filter(|name: \&\&Name| name.packed() % 2039 == entry.name.packed() % 2039).count() < 64 {/'
mutant "8 told before a bad 65th entry" reader.rs 's/let entry = self.record(Kind::Entry, parse_entry)?;/if module.entries.len() == MOST_ENTRIES { self.next_line(Kind::Entry)?.ok_or(Stop::Place)?; return Err(Stop::List); } &/'
mutant "fault: the rightmost is told" fault.rs 's/min_by_key(Fault::rank)/max_by_key(Fault::rank)/'
mutant "fault: 6 before all others" fault.rs 's/min_by_key(Fault::rank)/min_by_key(|fault| (fault.reason != Reason::Line, fault.rank()))/'
mutant "fault: 6 behind all others" fault.rs 's/min_by_key(Fault::rank)/min_by_key(|fault| (fault.reason == Reason::Line, fault.rank()))/'
mutant "fault: 20 before 6 at one column" fault.rs 's/\[Reason::Line, Reason::Marker, /[Reason::Marker, Reason::Line, /'
mutant "fault: 6 last at one column" fault.rs 's/\[Reason::Line, \(.*\)\];/[\1, Reason::Line];/'
mutant "fault: columns from 0" reader.rs 's/column: told.column as u32/& - 1/'
mutant "fault: column told with 7" reader.rs 's/Stop::Place => Refusal::at(Reason::Place, reader.line),/Stop::Place => Refusal { column: 1, ..Refusal::at(Reason::Place, reader.line) },/'
mutant "fault: column told with 8" reader.rs 's/Stop::List => Refusal::at(Reason::List, reader.line),/Stop::List => Refusal { column: 1, ..Refusal::at(Reason::List, reader.line) },/'
mutant "fault: column behind the rounds in the answer" calls.rs '/^    pub column: u64,/d; s/^    pub rounds: u64,/&\n    pub column: u64,/'
mutant "fault: length told at column 80" fault.rs 's/then_some(LONGEST_LINE + 1)/then_some(LONGEST_LINE)/'
mutant "fault: length told at the last byte" fault.rs 's/then_some(LONGEST_LINE + 1)/then_some(line.len())/'
mutant "fault: fields cut off at 80 bytes" fault.rs 's/let fields = fields(line);/let fields = fields(\&line[..line.len().min(80)]);/'
mutant "fault: a TAB parts fields" fault.rs "s/line.split(|&b| b == b' ')/line.split(|\&b| b == b' ' || b == b'\\\\t')/"
mutant "fault: a field too many told at the last field" fault.rs 's/= fields.get(shape.len()) {/= fields.get(shape.len()).and(fields.last()) {/'
mutant "fault: a field too many told one past the line" fault.rs 's/if let Some(&(column, _)) = fields.get(shape.len()) {/if let Some(column) = fields.get(shape.len()).map(|_| line.len() + 1) {/'
mutant "fault: a missing field told at the last byte" fault.rs 's/column: line.len() + 1/column: line.len()/'
mutant "fault: a missing field told behind the last field" fault.rs "s/column: line.len() + 1/column: line.iter().rposition(|b| *b != b' ').map_or(1, |place| place + 2)/"
mutant "fault: a type that is no number told as 21" fault.rs 's/None => Some(Reason::Number),/None => Some(Reason::Type),/'
mutant "fault: a relocation type out of range told as 18" fault.rs 's/number < first || number > last).then_some(Reason::Type)/number < first || number > last).then_some(if last == 5 { Reason::Number } else { Reason::Type })/'
mutant "fault: a first number that is not 0 told as 18" fault.rs 's/Due::Type(0, 0)/Due::AtMost(0)/'
mutant "fault: an entry type out of range told as 18" fault.rs 's/Due::Type(0, 1)/Due::AtMost(1)/'
mutant "fault: FPB size told as 21" fault.rs 's/number > most).then_some(Reason::Number)/number > most).then_some(if number.is_some() { Reason::Type } else { Reason::Number })/'
mutant "fault: a code that is no number told as 18" fault.rs 's/return vec!\[Fault { reason: Reason::Marker,/return vec![Fault { reason: if text::number(fields[0].1).is_none() { Reason::Number } else { Reason::Marker },/'
mutant "fault: an unknown code told as 6" fault.rs 's/return vec!\[Fault { reason: Reason::Marker,/return vec![Fault { reason: if text::number(fields[0].1).is_some() { Reason::Line } else { Reason::Marker },/'
mutant "fault: a name told as 18" fault.rs 's/then_some(Reason::Symbol)/then_some(Reason::Number)/'
mutant "fault: an asterisk with more behind it begins a relocated record" fault.rs 's/field(0) == Some(b"\*")/field(0).is_some_and(|field| field.starts_with(b"*"))/'
mutant "fault: an illegal byte in a field that is not read told at its start" fault.rs 's/Due::Anything => None,/Due::Anything => field.iter().any(|b| !text::is_legal_byte(*b)).then_some(Reason::Number),/'
mutant "fault: no broken mark for 17 to 21" answer.rs 's/ || parted_from_6.contains(&number)//; s/let parted_from_6 = .*//'
mutant "fault: no broken mark for 21" answer.rs 's/Reason::Fields as u64..=Reason::Type as u64/Reason::Fields as u64..=Reason::Type as u64 - 1/'

# Request 4/14. 36 and 46 are $ and ., and 35, 37, 45 and 47 the bytes beside them.
mutant 'alphabet: $ is not taken' name.rs 's/ | b.\$. | b/ | b/'
mutant 'alphabet: . is not taken' name.rs 's/ | b.\..)$/)/'
mutant 'alphabet: $ is taken as a first character' name.rs 's/!text.first()?.is_ascii_uppercase()/!(text.first()?.is_ascii_uppercase() || text[0] == 36)/'
mutant 'alphabet: . is taken as a first character' name.rs 's/!text.first()?.is_ascii_uppercase()/!(text.first()?.is_ascii_uppercase() || text[0] == 46)/'
mutant 'alphabet: #, below $, is taken' name.rs 's/matches!(byte, /&35 | /'
mutant 'alphabet: %, above $, is taken' name.rs 's/matches!(byte, /&37 | /'
mutant 'alphabet: -, below ., is taken' name.rs 's/matches!(byte, /&45 | /'
mutant 'alphabet: /, above ., is taken' name.rs 's/matches!(byte, /&47 | /'
mutant "alphabet: small letters are taken" name.rs 's/matches!(byte, /&97..=122 | /'
mutant 'alphabet: $ in the second place alone' name.rs 's/text.iter().all(|&b| may_follow(b))/text.iter().enumerate().all(|(at, \&b)| may_follow(b) \&\& (b != 36 || at == 1))/'
mutant 'alphabet: . in the second place alone' name.rs 's/text.iter().all(|&b| may_follow(b))/text.iter().enumerate().all(|(at, \&b)| may_follow(b) \&\& (b != 46 || at == 1))/'
mutant 'alphabet: $ not in the sixth place' name.rs 's/text.iter().all(|&b| may_follow(b))/text.iter().enumerate().all(|(at, \&b)| may_follow(b) \&\& (b != 36 || at < 5))/'
mutant 'alphabet: . not in the sixth place' name.rs 's/text.iter().all(|&b| may_follow(b))/text.iter().enumerate().all(|(at, \&b)| may_follow(b) \&\& (b != 46 || at < 5))/'
mutant "alphabet: FORCE by the old one alone" linker.rs 's/Name::parse(name).ok_or/Name::parse(name).filter(|_| name.iter().all(u8::is_ascii_alphanumeric)).ok_or/'
mutant "alphabet: soundness by the old one alone" name.rs 's/Name::parse(&text\[..length\])/&.filter(|_| !text.iter().any(|b| matches!(b, 36 | 46)))/'
mutant 'alphabet: soundness takes $ as a first character' name.rs 's/Name::parse(&text\[..length\])/&.or_else(|| if text[0] == 36 { Name::from_packed(cell ^ (36 ^ 65) << 40).map(|_| Name(cell)) } else { None })/'
mutant 'alphabet: soundness takes . as a first character' name.rs 's/Name::parse(&text\[..length\])/&.or_else(|| if text[0] == 46 { Name::from_packed(cell ^ (46 ^ 65) << 40).map(|_| Name(cell)) } else { None })/'
beside='&.or_else(|| { let at = text.iter().position(|b| *b == NEAR)?; Name::from_packed(cell ^ (NEAR ^ ADDED) << (40 - 8 * at))?; Some(Name(cell)) })'
mutant 'alphabet: soundness takes #' name.rs "s/Name::parse(&text\[..length\])/$beside/; s/NEAR/35/g; s/ADDED/36/"
mutant 'alphabet: soundness takes %' name.rs "s/Name::parse(&text\[..length\])/$beside/; s/NEAR/37/g; s/ADDED/36/"
mutant 'alphabet: soundness takes -' name.rs "s/Name::parse(&text\[..length\])/$beside/; s/NEAR/45/g; s/ADDED/46/"
mutant 'alphabet: soundness takes /' name.rs "s/Name::parse(&text\[..length\])/$beside/; s/NEAR/47/g; s/ADDED/46/"
# A line that is bad by the old alphabet alone has no fault by the new one, so 19 is told at the field with the first $ or .
old='packed().to_be_bytes().iter().all(|b| !matches!(b, 36 | 46))'
told='s/fault::told(text, kind).expect(.*);/fault::told(text, kind).unwrap_or_else(|| fault::Fault { reason: Reason::Symbol, column: text.split(|b| matches!(b, 36 | 46)).next().and_then(|front| front.iter().rposition(|b| *b == 32)).map_or(1, |at| at + 2) });/'
mutant "alphabet: titles by the old one alone" reader.rs "$told; s/let title = self.record(Kind::Name, parse_name)?;/& if !title.$old { return Err(Stop::Bad(Kind::Name)); }/"
mutant "alphabet: externals by the old one alone" reader.rs "$told; s/let name = self.record(Kind::Name, parse_name)?;/& if !name.$old { return Err(Stop::Bad(Kind::Name)); }/"
mutant "alphabet: entries by the old one alone" reader.rs "$told; /fn parse_entry/,/^}/s/fields.name()?/fields.name().filter(|name| name.$old)?/"
mutant "alphabet: DBDB's symbol by the old one alone" reader.rs "$told; s/let _symbol = fields.name()?;/let _symbol = fields.name().filter(|name| name.$old)?;/"

# Request 5/14. 10 is LF.
tells='Ok(fault(bytes).filter(|fault| fault.line > before))'
mutant "feed: advice told again by every later piece with an LF" feed.rs "s/$tells/{ let _ = before; Ok(fault(bytes)) }/"
mutant "feed: advice told again by the next piece with an LF" feed.rs 's/fault.line > before/fault.line >= before/'
mutant "feed: advice told again by an empty piece" feed.rs 's/if !piece.contains(/if !piece.is_empty() \&\& !piece.contains(/; s/fault.line > before/fault.line > before || piece.is_empty()/'
mutant "feed: a second fault is told too" feed.rs "s/$tells/Ok(fault(bytes).and_then(|first| if first.line > before { Some(first) } else { fault(piece).map(|second| Refusal { line: second.line + before, ..second }) }))/"
mutant "feed: advice for a line without LF" feed.rs 's/let lines = &bytes\[..end\];/let lines = bytes;/; s/fault.line <= line_ends(lines)/fault.line <= line_ends(lines) + u64::from(end < lines.len())/'
mutant "feed: advice for a line without LF, by a piece without any" feed.rs 's/if !piece.contains(.*{/if piece.is_empty() {/; s/let lines = &bytes\[..end\];/let lines = bytes;/; s/fault.line <= line_ends(lines)/fault.line <= line_ends(lines) + u64::from(end < lines.len())/'
mutant "feed: advice for a file that ends too soon" feed.rs 's/\.err()\.filter(|fault| fault.line <= line_ends(lines))/.err()/'
mutant "feed: no advice where the LF is first in its piece" feed.rs 's/let before = line_ends(bytes);/let before = line_ends(bytes) + u64::from(piece.first() == Some(\&10));/'
mutant "feed: no advice for 7 and 8" feed.rs 's/fault.line > before/fault.line > before \&\& fault.column > 0/'
mutant "feed: advice without its column" lent.rs 's/column: fault.column.into() }/column: 0 }/'
mutant "feed: the line of an advice counted from its piece" feed.rs "s/$tells/Ok(fault(bytes).filter(|fault| fault.line > before).map(|fault| Refusal { line: fault.line - before, ..fault }))/"
mutant "feed: advice by a piece that goes over the total" feed.rs 's/\*self = Feed::TooLong;/let told = fault(bytes).filter(|fault| fault.line > before); &  if told.is_some() { return Ok(told); }/'
mutant "feed: no advice at a total of 65536" feed.rs 's/if !piece.contains(/if bytes.len() == LONGEST_FILE || !piece.contains(/'
mutant "feed: a refused piece advises" lent.rs 's/Err(refusal) => FeedAnswer { number: refusal.number(), /&advice: refusal.number(), /'
mutant "feed: a total of 65536 is too many" feed.rs 's/if bytes.len() > LONGEST_FILE {/if bytes.len() >= LONGEST_FILE {/'
mutant "feed: a total of 65537 is kept" feed.rs 's/if bytes.len() > LONGEST_FILE {/if bytes.len() > LONGEST_FILE + 1 {/'
mutant "feed: the total wraps" feed.rs 's/\*self = Feed::TooLong;/bytes.drain(..LONGEST_FILE);/'
mutant "feed: the total goes on past 65537" lent.rs 's/match feed::change(feed, |feed| feed.feed(piece)) {/match feed::change(feed, |feed| feed.feed(piece)).inspect(|_| if feed[0] == 65_538 { feed[0] += piece.len() as u64 }) {/'
mutant "feed: the bytes of too many are kept" feed.rs 's/cells.copy_from_slice(&encode(&feed));/let new = encode(\&feed); if feed == Feed::TooLong { cells[0] = new[0]; } else { cells.copy_from_slice(\&new); }/'
mutant "feed: the first byte stands highest" feed.rs 's/le_bytes/be_bytes/g'
mutant "feed: a CR at the end of a piece is dropped" feed.rs 's/bytes.extend_from_slice(piece);/bytes.extend_from_slice(if piece.last() == Some(\&13) { \&piece[..piece.len() - 1] } else { piece });/'
mutant "feed: a piece of 513 is taken" feed.rs 's/LONGEST_PIECE: usize = 512/LONGEST_PIECE: usize = 513/'
mutant "feed: a piece of 512 is refused" feed.rs 's/LONGEST_PIECE: usize = 512/LONGEST_PIECE: usize = 511/'
mutant "feed: a refused piece is kept" feed.rs 's/if piece.len() > LONGEST_PIECE || /if let (Feed::Open(bytes), true) = (\&mut *self, piece.len() > LONGEST_PIECE) { bytes.extend_from_slice(piece); } &/; s/let answer = call(&mut feed)?;/let answer = call(\&mut feed);/; s/^    Ok(answer)$/    answer/'
mutant "feed: a second open starts anew" feed.rs 's/if \*self != Feed::Idle {/if false {/'
mutant "feed: an open behind too many starts anew" feed.rs 's/if \*self != Feed::Idle {/if let Feed::Open(_) = self {/'
mutant "feed: a piece with none open opens" feed.rs 's/if piece.len() > LONGEST_PIECE || \*self == Feed::Idle {/if *self == Feed::Idle { *self = Feed::Open(Vec::new()); } if piece.len() > LONGEST_PIECE {/'
mutant "feed: an empty piece with none open is DONE" feed.rs 's/|| \*self == Feed::Idle {/|| *self == Feed::Idle \&\& !piece.is_empty() {/'
mutant "feed: a close with none open loads nothing" lent.rs 's/match feed::change(feed, Feed::take) {/match feed::change(feed, |feed| if *feed == Feed::Idle { Ok(Vec::new()) } else { feed.take() }) {/'
mutant "feed: a drop with none open is DONE" lent.rs 's/feed::change(feed, Feed::take).map(drop)/&.or_else(|refusal| if refusal.reason == Reason::Feed { Ok(()) } else { Err(refusal) })/'
atomic=std::sync::atomic
mutant "feed: a close forgets the last piece" feed.rs "s/^const BYTES_IN_CELL.*/& static LAST: $atomic::AtomicUsize = $atomic::AtomicUsize::new(0);/; s/bytes.extend_from_slice(piece);/& LAST.store(piece.len(), $atomic::Ordering::Relaxed);/; s/Feed::Open(bytes) => Ok(bytes),/Feed::Open(bytes) => Ok(bytes[..bytes.len().saturating_sub(LAST.load($atomic::Ordering::Relaxed))].to_vec()),/"
mutant "feed: a close forgets a last line without LF" feed.rs 's/Feed::Open(bytes) => Ok(bytes),/Feed::Open(bytes) => Ok(bytes[..bytes.iter().rposition(|byte| *byte == 10).map_or(0, |at| at + 1)].to_vec()),/'
mutant "feed: a close leaves an open feed" lent.rs 's/Ok(file) => self.load(state, work, &file),/Ok(file) => { feed[0] = 1; self.load(state, work, \&file) }/'
kept='Ok(file) => { let answer = self.load(state, work, \&file); if answer.number == NUMBER { feed.copy_from_slice(\&feed::encode(\&if file.len() > 65_536 { Feed::TooLong } else { Feed::Open(file) })); } answer }'
for number in 1 2 3 4 5 20; do
  mutant "feed: a close refused by $number leaves the feed open" lent.rs "s/Ok(file) => self.load(state, work, &file),/${kept/NUMBER/$number}/"
done
mutant "feed: 5 ahead of the state's checks" lent.rs 's/Ok(file) => self.load(state, work, &file),/Ok(file) if file.len() > 65_536 => { clear(work); refused_load(Reason::TooLong.into()) } &/'
mutant "feed: a drop leaves the memory" lent.rs 's/feed::change(feed, Feed::take).map(drop)/feed::change(\&mut feed.to_vec(), Feed::take).map(drop)/'
mutant "feed: a drop leaves the bytes" lent.rs 's/call_answer(feed::change(feed, Feed::take).map(drop))/{ let kept = feed.to_vec(); let answer = call_answer(feed::change(feed, Feed::take).map(drop)); if answer.number == 0 { feed[1..].copy_from_slice(\&kept[1..]); } answer }/'
mutant "feed: a drop leaves an open feed" lent.rs 's/call_answer(feed::change(feed, Feed::take).map(drop))/{ let answer = call_answer(feed::change(feed, Feed::take).map(drop)); if answer.number == 0 { feed[0] = 1; } answer }/'
mutant "feed: work memory kept by a refused close" lent.rs 's/^                clear(work);/                clear(\&mut []);/'
mutant "feed: work memory of another length cleared by a refused close" lent.rs 's/if work.len() == WORK_CELLS {/if !work.is_empty() {/'
mutant "feed: a close refused by the feed breaks" lent.rs 's/^                clear(work);/& if state.len() == STATE_CELLS { state[MARK] = BROKEN; }/'
mutant "feed: 23 behind the state's 1 and 2" lent.rs 's/match feed::change(feed, Feed::take) {/match feed::change(feed, |feed| { if *feed == Feed::Idle { decode(state)?; } feed.take() }) {/'
mutant "feed: 23 behind the state's 3 and 4" lent.rs 's/match feed::change(feed, Feed::take) {/match feed::change(feed, |feed| { if let (Feed::Idle, Ok(mut linker)) = (\&*feed, decode(state)) { linker.base(0)?; } feed.take() }) {/'
mutant "feed: the state's 1 ahead of the feed's 2" lent.rs 's/match feed::change(feed, Feed::take) {/if feed.len() == feed::FEED_CELLS \&\& feed::decode(feed).is_none() \&\& test_length(state).is_err() { clear(work); return refused_load(Reason::Buffer.into()); } &/'
mutant "feed: another length is 2" feed.rs 's/Err(Reason::Buffer.into())/Err(Reason::Damaged.into())/'
mutant "feed: 2 ahead of 1" feed.rs 's/if cells.len() != FEED_CELLS {/& let mut all = cells.to_vec(); all.resize(FEED_CELLS, 0); decode(\&all).ok_or(Reason::Damaged)?;/'
mutant "feed: more cells are accepted" feed.rs 's/if cells.len() != FEED_CELLS {/if cells.len() < FEED_CELLS {/; s/let mut feed = decode(cells)/let cells = \&mut cells[..FEED_CELLS]; let mut feed = decode(cells)/'
mutant "feed: 23 for a longer piece ahead of 2" lent.rs 's/match feed::change(feed, |feed| feed.feed(piece)) {/if feed.len() == feed::FEED_CELLS \&\& piece.len() > feed::LONGEST_PIECE { return FeedAnswer { number: 23, ..FeedAnswer::default() }; } &/'
mutant "feed: 23 for a longer piece ahead of 1" lent.rs 's/match feed::change(feed, |feed| feed.feed(piece)) {/if feed.len() != feed::FEED_CELLS \&\& piece.len() > feed::LONGEST_PIECE { return FeedAnswer { number: 23, ..FeedAnswer::default() }; } &/'
sound='{ let form = encode(\&feed); let end = match \&feed { Feed::Open(bytes) => OPEN, Feed::Idle => IDLE, Feed::TooLong => LONG }; (form[..end] == cells[..end]).then_some(feed) }'
accepts() { printf %s "s/(encode(&feed) == cells).then_some(feed)/$sound/; s/OPEN/$1/; s/\bIDLE, Feed/$2, Feed/; s/LONG }; (form/$3 }; (form/"; }
mutant "feed: cells behind the total are not tested" feed.rs "$(accepts '1 + bytes.len().div_ceil(8)' FEED_CELLS FEED_CELLS)"
mutant "feed: the total's cell and those behind it are not tested" feed.rs "$(accepts '1 + bytes.len() \/ 8' FEED_CELLS FEED_CELLS)"
mutant "feed: bytes where none is open are not tested" feed.rs "$(accepts FEED_CELLS 1 FEED_CELLS)"
mutant "feed: bytes of too many are not tested" feed.rs "$(accepts FEED_CELLS FEED_CELLS 1)"
mutant "feed: the last cell is not tested" feed.rs "$(accepts 'FEED_CELLS - 1' 'FEED_CELLS - 1' 'FEED_CELLS - 1')"
mutant "feed: a first cell over 65538 is sound" feed.rs 's/TOO_LONG => Feed::TooLong,/TOO_LONG.. => Feed::TooLong,/; s/(encode(&feed) == cells)/(encode(\&feed)[1..] == cells[1..])/'

echo "$tried mutants, $missed not noticed"
[ "$missed" -eq 0 ]
