"""The faults that tests/gate-promises plants, one at a time, in the text that it has read: for each a rule, the file, a
text that stands once in it, what is put there, and what is then to be found.
"""
PAGE = "docs/PROMISES.md"
DETERMINED = "crates/buffers/proofs/Determined.antt"
MORUS = "crates/morus/proofs/Determined.antt"
SAID = "crates/journal/proofs/Determined.antt"
LINES = "crates/lines/proofs/Determined.antt"
EDIT = "crates/buffers/must-fail/last_byte_not_looked_at.edit"
EXPORT = "crates/export/src/lib.rt"
COPY = "crates/buffers/src/copying.rt"
FIND = "crates/buffers/src/finding.rt"
KEY = "crates/keyline/src/lib.rt"
REFUSAL = "crates/answers/src/refusal.rt"
BLOCK = "crates/state/src/block.rt"
LANE = "crates/state/src/lane.rt"
STATE = "crates/state/src/lib.rt"
WINDOW = "crates/lines/src/window.rt"
WORD_ERROR = "crates/lines/src/error.rt"
UNSEALED = "crates/sealing/src/unsealed.rt"
LITTLE = "crates/buffers/src/little.rt"
IN_PLACE = "crates/morus/src/in_place.rt"
MESSAGE = "crates/morus/src/message.rt"
LENGTHS = "crates/morus/src/lib.rt"
JOURNAL = "crates/journal/src/lib.rt"
STEP = "crates/parts/src/lib.rt"
ONE_BY_ONE = "crates/journal/src/lines.rt"
TEXT = "crates/journal/src/text.rt"
SEALER = "crates/parts/src/sealer.rt"
INTAKE = "crates/parts/src/intake.rt"
PARTS = "crates/parts/proofs/Determined.antt"
DEMANDS = "crates/demands/src/lib.rt"
OUTPUT = "crates/cases/src/output.rt"
ANSWERS = "crates/cases/src/main.rt"
WRITES = "crates/seal/src/output.rt"
HEADER = "include/votrikany.h"
BINDING = "bindings/rust/src/library.rs"
PUT = "        let _ = output.write_str(\"?\");\n    }\n    let _ = output.write_str(\"\\n\");\n"
IMPORT = "use mathlib.Core.List.{List, ◌++◌}\n"
FAULTS = (
    ("promises", KEY, "    ensures {", "    requires { v < 256 }\n    ensures {", "key_line has a requires"),
    ("promises", KEY, "    ensures {", "    // ensures {", "key_line has no ensures"),
    ("promises", FIND, "\nfn holds", "\npub fn copy", "copy is the name of two public functions"),
    ("promises", FIND, "\nfn holds", "\npub extern \"C\" fn holds", "holds has no lemma"),
    ("promises", FIND, "\nfn holds", "\n#[unsafe(no_mangle)] pub extern \"C\" fn holds", "holds has no lemma"),
    ("promises", FIND, "\nfn holds", "\n#[tactic(auto, unfolding(crate::specs::Find::has))] pub fn holds",
     "holds has no lemma"),
    ("promises", SEALER, "pub fn message(", "pub fn data(", "data is the name of two public functions"),
    ("promises", SEALER, "pub fn message(", "pub fn check_part(", "sealer_check_part has no lemma"),
    ("promises", BLOCK, "pub fn block(", "pub fn update(", "state_update has no lemma"),
    ("promises", PARTS, "pub checker_tag :", "pub tag :", "checker_tag has no lemma"),
    ("promises", DETERMINED, "pub some_nonzero_determined :", "some_nonzero_determined :", "some_nonzero has no lemma"),
    ("promises", DETERMINED, "pub some_nonzero_determined :",
     "pub some_nonzero : ℕ\nsome_nonzero = 0\n\npub some_nonzero_determined :", "some_nonzero has two lemmas"),
    ("promises", DETERMINED, "r₁ ≡ first_from v b at → r₂ ≡ first_from v b at →", "r₁ ≡ r₂ →", "the lemma of find"),
    # of a size that a caller picks, of a module's own, methods, and methods over a lifetime
    ("promises", DETERMINED, "pub padded_determined :", "padded_determined :", "padded has no lemma"),
    ("promises", COPY, "pub fn padded<const N: usize>(", "pub fn fifteen<const N: usize>(", "fifteen has no lemma"),
    ("promises", COPY, "    ensures { result ≡ padded N", "    requires { N ≤ 32 }\n    ensures { result ≡ padded N",
     "padded has a requires"),
    ("promises", LITTLE, "pub fn half_at(", "pub fn quarter_at(", "quarter_at has no lemma"),
    ("promises", LENGTHS, "pub fn check_lengths(", "pub fn check_length(", "check_length has no lemma"),
    ("promises", JOURNAL, "        ensures { result ≡ (n_of self.now.opened, m_of self.now.opened) }\n", "",
     "lengths has no ensures"),
    ("promises", SAID, "→ a ≡ (n_of opened, m_of opened)\n    → b ≡ (n_of opened, m_of opened) →", "→ a ≡ b →",
     "the lemma of lengths"),
    ("promises", WORD_ERROR, "pub fn number(", "pub fn count(", "worderror_count has no lemma"),
    ("promises", UNSEALED, "pub fn word(", "pub fn number(", "number is the name of two public functions"),
    ("promises", WINDOW, "pub fn newline(self,", "pub fn part(self,", "window_part has no lemma"),
    ("promises", ONE_BY_ONE, "pub fn new(journal: &'a [u8],", "pub fn at(journal: &'a [u8],", "at has no lemma"),
    # no lemma where nothing comes out, and nowhere else
    ("promises", DEMANDS, "pub fn bad_input()", "pub fn bad_input() -> bool", "bad_input has no lemma"),
    ("promises", DEMANDS, "pub fn bad_input()", "pub fn bad_input(n: &mut usize)", "bad_input has no lemma"),
    ("promises", DEMANDS, "{ Demand1 }\n{}", "{ Demand1 }\n{\n    work();\n}", "bad_input has no lemma"),
    ("promises", DEMANDS, "    ensures { Demand1 }\n", "", "bad_input has no ensures"),
    ("promises", DEMANDS, "    ensures { Demand1", "    requires { Demand2 }\n    ensures { Demand1",
     "bad_input has a requires"),
    # premises in types
    ("promises", REFUSAL, "number<T>(", "number<T: Known>(", "number has the bound Known"),
    ("promises", REFUSAL, "number<T>(", "number<T, F: Fn(T) -> T>(", "number has the bound Fn"),
    ("promises", WINDOW, "refill<R: Read>(", "refill<R: Read + Sorted>(", "refill has the bound Sorted"),
    ("promises", WINDOW, "    ensures { Refilled", "where\n        R: crate::Sorted,\n        ensures { Refilled",
     "refill has the bound Sorted"),
    ("promises", WINDOW, "    ensures { Refilled", "where\n        Option<R>: Sorted,\n        ensures { Refilled",
     "refill has the bound Sorted"),
    ("promises", WINDOW, "behind(self, end: usize", "behind(self, end: impl Sorted", "behind has the bound Sorted"),
    ("promises", COPY, "padded<const N: usize>(", "padded<const N: usize, T: Copy + Sorted>(",
     "padded has the bound Sorted"),
    ("promises", STEP, "<R: Copy> Step<R> {\n    // A call that is done.\n    fn", "<R: Sorted> Step<R> {\n    pub fn",
     "the impl for Step has the bound Sorted"),
    ("promises", STEP, "<R: Copy> Step<R> {\n    // A call that is done.\n    fn",
     "<R: Copy + Sorted> Step<R> {\n    #[inline] pub const fn", "the impl for Step has the bound Sorted"),
    ("promises", MESSAGE, "pub fn absorb(s", "pub fn absorb<D: Direction>(s", "absorb has the bound Direction"),
    ("promises", ONE_BY_ONE, "impl<'a> Lines<'a> {", "impl<'a, K: Key> Lines<'a, K> {", "Lines has the bound Key"),
    ("promises", WINDOW, "    pub ended: bool,\n", "    pub ended: bool,\n    ghost in_order: { from ≤ to },\n",
     "who makes a Window"),
    ("promises", KEY, "    ensures {", "    ghost top: { ℕ }\n    ensures {", "key_line has a ghost value"),
    ("promises", KEY, "    ensures {", "    ghost top: { ℕ }\n    requires { top ≡ 0 }\n    ensures {",
     "key_line has a requires"),
    # what a trait's impl gives
    ("promises", STATE, "\nimpl State {", "\nimpl From<Lane> for State {\n    ghost from_gives = { λ l s. s ≡ l };\n}\n"
     "\nimpl State {", "from has no lemma"),
    ("promises", LANE, "    ghost bitxor_gives = { λ a b r. r ≡ a ⊕ b };\n", "", "bitxor has no ensures"),
    ("promises", LANE, "    ghost bitxor_gives", "    ghost can_bitxor = { λ a b. a ≡ b };\n\n    ghost bitxor_gives",
     "bitxor has a requires"),
    ("promises", ONE_BY_ONE, "-> Option<Line> {", "-> Option<Line>\n        requires { 0 < 1 }\n    {",
     "next has a requires"),
    ("promises", LANE, "impl BitXor for", "impl Turns for", "an impl of Turns, and no rule"),
    ("promises", LANE, "impl BitXor for Lane", "impl BitXor for [Lane; 2]", "an impl of a form that"),
    ("promises", LANE, "impl BitXor for", "pub trait Turns {}\n\nimpl BitXor for", "the public trait Turns"),
    ("promises", UNSEALED, "    ghost from_gives = { λ why e. e ≡ Unwritten why };\n", "", "from has no ensures"),
    # a trait that is public outside its crate, and one that has an inner trait's name
    ("promises", LANE, "impl BitXor for", "pub trait Turns {}\n\nimpl Turns for Lane {}\n\nimpl BitXor for",
     "an impl of Turns, and no rule"),
    ("promises", IN_PLACE, "pub(crate) trait Direction", "pub trait Direction", "an impl of Direction, and no rule"),
    ("promises", IN_PLACE, "pub(crate) trait Direction", "pub unsafe trait Direction", "the public trait Direction"),
    ("promises", IN_PLACE, "// A whole block by `enc`", "#[deprecated] pub trait Turn {}\n\n// A whole block by `enc`",
     "the public trait Turn"),
    ("promises", IN_PLACE, "impl Direction for Sealing", "impl state::Direction for Sealing",
     "an impl of Direction, and no rule"),
    ("promises", MESSAGE, "use state::State;\n", "use state::{Direction, State};\n\nimpl Direction for Opening {}\n",
     "an impl of Direction, and no rule"),
    ("promises", IN_PLACE, "pub(crate) trait Direction", "pub(crate) trait Read", "has the name of one of std's"),
    ("promises", EXPORT, "SealedInPlace key.now nonce.now",
     "SealedInPlace nonce.now key.now", "the parameters of votrikany_seal_in_place"),
    ("promises", EXPORT, "m.new at.new", "at.new m.new",
     "the parameters of votrikany_read_line"),
    ("promises", EXPORT, "Read journal.now place", "Read place journal.now",
     "the parameters of votrikany_read_line"),
    ("promises", EXPORT, "frames.new next.new", "next.new frames.new",
     "the parameters of votrikany_read_lines"),
    ("promises", EXPORT, "slots.old frames.old", "frames.old slots.old",
     "the parameters of votrikany_read_lines"),
    ("promises", EXPORT, "ratio.new tick.new", "tick.new ratio.new",
     "the parameters of votrikany_decode"),
    ("promises", EXPORT, " result ratio.new", " result ratio.old", "the parameters of votrikany_decode"),
    ("promises", EXPORT, "Newer a b", "Newer b a", "the parameters of votrikany_newer"),
    ("promises", EXPORT, "Newer a b", "Newer a a", "the parameters of votrikany_newer"),
    ("promises", EXPORT, "Newer a b", "Newer a 0", "the parameters of votrikany_newer"),
    ("declared", HEADER, "double *ratio, uint32_t *tick", "uint32_t *tick, double *ratio", "votrikany_decode is not"),
    ("declared", HEADER, "double *ratio", "float *ratio", "votrikany_decode is not"),
    ("declared", HEADER, "size_t *n, size_t *m", "size_t *m, size_t *n", "votrikany_read_line is not"),
    ("declared", HEADER, "bool votrikany_newer", "uint8_t votrikany_newer", "votrikany_newer is not"),
    ("declared", HEADER, "size_t *slots, ", "uint8_t *slots, ", "votrikany_read_lines is not"),
    ("declared", HEADER, "size_t *slots, ", "const size_t *slots, ", "votrikany_read_lines is not"),
    ("declared", HEADER, "size_t slots_length, ", "int slots_length, ", "votrikany_read_lines is not"),
    ("declared", HEADER, "size_t slots_length, ", "", "votrikany_read_lines is not"),
    ("declared", HEADER, "size_t *slots, size_t slots_length, uint8_t *frames, size_t frames_length",
     "uint8_t *frames, size_t frames_length, size_t *slots, size_t slots_length", "votrikany_read_lines is not"),
    ("declared", HEADER, "votrikany_checker votrikany_checker_begin", "votrikany_sealer votrikany_checker_begin",
     "votrikany_checker_begin is not"),
    ("declared", HEADER, "votrikany_sealer *sealer, uint8_t *tag", "votrikany_checker *sealer, uint8_t *tag",
     "votrikany_sealer_tag is not"),
    ("declared", HEADER, "*sealer, uint8_t *part", "*sealer, const uint8_t *part", "votrikany_sealer_message is not"),
    ("declared", BINDING, "votrikany_sealer_begin(key: *const u8, nonce: *const u8)",
     "votrikany_sealer_begin(nonce: *const u8, key: *const u8)", "votrikany_sealer_begin is not"),
    ("declared", BINDING, "nonce: *const u8) -> Checker;", "nonce: *const u8) -> Sealer;", "checker_begin is not"),
    ("declared", BINDING, "checker: *mut Checker, tag", "checker: *mut Sealer, tag", "votrikany_checker_tag is not"),
    ("declared", EXPORT, "sealer: &mut Sealer, tag", "sealer: &mut Checker, tag", "votrikany_sealer_tag is not"),
    ("declared", BINDING, "tick: *mut u32", "tick: *mut u64", "votrikany_decode is not"),
    ("declared", BINDING, "newer(a: u32, b: u32) -> bool;", "newer(b: u32, a: u32) -> bool;", "votrikany_newer is not"),
    ("declared", BINDING, "slots: *mut usize", "slots: *mut u8", "votrikany_read_lines is not"),
    ("declared", BINDING, "slots: *mut usize", "slots: *mut u32", "votrikany_read_lines is not"),
    ("declared", BINDING, "slots_length: usize,", "", "votrikany_read_lines is not"),
    ("declared", EXPORT, "slots: &mut [usize]", "slots: &mut usize", "votrikany_read_lines is not"),
    ("declared", EXPORT, "slots: &mut [usize]", "slots: &[usize]", "a type that this test cannot read"),
    ("declared", EXPORT, "tick: &mut u32", "tick: &mut u16", "a type that this test cannot read"),
    ("imports", FIND, "\nghost use Rattle.std", "\nuse crate::copying::copy;\nghost use Rattle.std", "copy is unused"),
    ("imports", COPY, "◌≡◌, drop}", "◌≡◌, drop, take}", "take is unused"),
    ("imports", INTAKE, "◌-◌, ◌%◌", "◌-◌, ◌++◌, ◌%◌", "◌++◌ is unused"),
    ("imports", TEXT, "{Refusal, sizes}", "{Refusal, sizes, refusal::{self, DONE}}", "DONE is unused"),
    ("imports", TEXT, "{Refusal, sizes}", "{Refusal, sizes, refusal::{self, DONE}}", "refusal is unused"),
    ("imports", TEXT, "{Refusal, sizes}", "{Refusal as Sizes, sizes}", "Sizes is unused"),
    # a trait whose methods are called
    ("imports", WRITES, "use std::io::Write;", "use crate::Write;", "Write is unused"),
    ("imports", OUTPUT, "use std::fmt;", "use std::fmt;\nuse std::io::Read;", "Read is unused"),
    ("imports", OUTPUT, "        let _ = rt.stdout().write_all(&self.buffer[..count]);\n", "", "Write is unused"),
    ("imports", ANSWERS, PUT, "    }\n", "Write is unused"),
    # all of a module
    ("imports", LANE, "use std::simd::prelude::*;", "use std::ops::*;", "a form that this test cannot read"),
    ("imports", BLOCK, "use buffers::padded;", "use buffers::padded;\nuse std::simd::prelude::*;",
     "std::simd::prelude::* is unused"),
    # what ghost members alone use, and a block's own imports
    ("imports", LANE, "    ghost bitand_gives = { λ a b r. r ≡ a & b };\n", "", "◌&◌ is unused"),
    ("imports", REFUSAL, "    ghost try_from_gives = { Numbers };\n", "", "Numbers is unused"),
    ("imports", WORD_ERROR, "λ d e. number_of e ≡", "λ d e. e ≡", "number_of is unused"),
    ("imports", ONE_BY_ONE, "{YieldsFirstBy, item_count}", "{YieldsFirstBy, item_count, IsFinite}",
     "IsFinite is unused"),
    ("imports", ONE_BY_ONE, "{reading_in, lines_left}", "{reading_in, readings, lines_left}", "readings is unused"),
    ("imports", ONE_BY_ONE, "    ghost use Rattle.std.specs.Iterator.{", "    ghost use Rattle.std.specs.Iterator {",
     "a form that this test cannot read"),
    ("imports", MORUS, "Nat.{ℕ}", "Nat.{ℕ}\nuse lib.Seq.{number}", "number is unused"),  # a field there
    ("imports", LINES, "{arith}", "{arith}\nuse lib.Seq.{keeps}", "keeps is unused"),  # likewise, behind a dot
    ("imports", DETERMINED, IMPORT, IMPORT + "use lib.Seq.{\n  take_all,\n}\n", "take_all is unused"),
    ("imports", DETERMINED, IMPORT, IMPORT + "use lib.Seq as seq\n-- seq.x\n", "seq is unused"),
    ("imports", DETERMINED, IMPORT, IMPORT + "use lib.Seq.{paste as over}\n", "over is unused"),
    ("imports", DETERMINED, "List.{List, ◌++◌}", "List.{List, ◌++◌, ◌∷◌}", "◌∷◌ is unused"),
    ("imports", DETERMINED, IMPORT, IMPORT + "use lib.Seq {take}\n", "a form that this test cannot read"),
    ("old_texts", EDIT, "old: ", "old: no such ", "stands 0 times"),
    ("old_texts", EDIT, "old: holds(&b[i..i + BLOCK], v)", "old: holds(", "stands 2 times"),
    ("page", PAGE, "`fifteen_bytes`", "`fifteen`", "the edit fifteen_bytes is not named"),
    ("page", PAGE, "`find` | `first_from`", "`search` | `first_from`", "the function find is not named"),
    ("page", PAGE, "`all_alike` in Copies", "`all_alike` in Words", "all_alike is not in Words"),
    ("page", PAGE, "`all_over` (specs/Copy)", "`all_over` (specs/Copies)", "there is no specs/Copies"),
    ("page", PAGE, "| `sixteen` |", "| `seven" + "teenth` |", "is named and stands nowhere"),
    ("links", PAGE, "](CASES.md)", "](CASE.md)", "there is no CASE.md"),
    ("machine_paths", FIND, "// The search", "// /ho" + "me/somebody/x: the search", ":1 names /ho"),
    ("machine_paths", FIND, "// The search", "// C:" + "\\x: the search", ":1 names C:"),
)
