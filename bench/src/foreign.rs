//! The functions of C that are timed, each behind a safe one, a look at the stack below a call, and
//! a state of the processor: the only unsafe code of the program.

#![allow(unsafe_code)]

use std::ffi::{c_char, CStr};

pub type Key = [u8; 32];
pub type Nonce = [u8; 12];
pub type Tag = [u8; 16];

/// The verified functions of crates/bench_cipher, bench_check, c_door and c_lock, at each level of x86-64,
/// and what the cipher and the check are handed; beside them those of plain/iris.c.
pub mod ours {
    use super::door::{ClockAnswer, Dealer, DealerAnswer, Party, PartyAnswer, Terms, TrialAnswer};
    use super::iris::HammingAnswer;
    use super::*;
    use crate::level::Level;
    use second::dcf::{self, Seed};

    /// A level's correction, as crates/dcf_node has it: of the flags, bit 0 is the left one and bit 1
    /// the right one.
    #[repr(C)]
    #[derive(Clone, Copy, PartialEq)]
    pub struct Correction {
        seed: Seed,
        word: u32,
        flags: u32,
    }

    #[repr(C)]
    #[derive(Clone, Copy, PartialEq)]
    pub struct ComparisonKey {
        corrections: [Correction; dcf::LEVELS],
        last: u32,
    }

    impl ComparisonKey {
        /// The same key as the second implementation has it.
        pub fn plain(&self) -> dcf::Key {
            let plain = |c: Correction| {
                assert!(c.flags < 4, "there are two flags");
                dcf::Correction {
                    seed: c.seed,
                    word: c.word,
                    left: c.flags & 1 == 1,
                    right: c.flags & 2 == 2,
                }
            };
            dcf::Key {
                corrections: self.corrections.map(plain),
                final_word: self.last,
            }
        }
    }

    /// Declares the functions once for all levels.
    macro_rules! functions {
        ([$($level:tt)*] $declared:tt) => {
            pointers!($declared);
            $(at_level!($level $declared);)*
        };
    }

    macro_rules! pointers {
        ({$(fn $name:ident($($argument:ident: $type:ty,)*) $(-> $answer:ty)?;)*}) => {
            /// A pointer to each function: every level is called by the same code.
            pub struct Functions {
                $(pub(super) $name: unsafe extern "C" fn($($type),*) $(-> $answer)?,)*
            }
        };
    }

    /// The functions of one level, whose names in the archives end in its suffix.
    macro_rules! at_level {
        (($at:ident $suffix:literal)
         {$(fn $name:ident($($argument:ident: $type:ty,)*) $(-> $answer:ty)?;)*}) => {
            static $at: Functions = {
                extern "C" {
                    $(
                        #[link_name = concat!(stringify!($name), $suffix)]
                        fn $name($($argument: $type),*) $(-> $answer)?;
                    )*
                }
                Functions { $($name,)* }
            };
        };
    }

    // On x86-64 the place of a large answer is a hidden first argument. It is said here where a box
    // is called, since rustc would have a copy made of the answer that a C compiler need not make.
    functions!([(PLAIN "_x86_64") (V3 "_x86_64_v3") (V4 "_x86_64_v4")] {
        fn cipher_stream(key: &Key, nonce: &Nonce, out: *mut u32, words: usize,);
        fn cipher_seal(
            key: &Key,
            nonce: &Nonce,
            aad: *const u8,
            aad_len: usize,
            text: *mut u8,
            text_len: usize,
            tag: &mut Tag,
        ) -> bool;
        fn cipher_open(
            key: &Key,
            nonce: &Nonce,
            aad: *const u8,
            aad_len: usize,
            text: *mut u8,
            text_len: usize,
            tag: &Tag,
        ) -> bool;

        fn check_key(k0: &Seed, k1: &Seed, point: u32,) -> ComparisonKey;
        fn check_value(key: ComparisonKey, seed: &Seed, party: u32, u: u32,) -> u32;
        fn check_answer(key: ComparisonKey, seed: &Seed, party: u32, z: u32,) -> u32;
        fn check_mask(
            v: *const u32,
            v_len: usize,
            m: *const u32,
            m_len: usize,
            out: *mut u32,
            out_len: usize,
        ) -> bool;
        fn check_word(
            code: u32,
            party: u32,
            c: u32,
            r: u32,
            v: *const u32,
            v_len: usize,
            mx: *const u32,
            mx_len: usize,
            my: *const u32,
            my_len: usize,
            sx: *const u32,
            sx_len: usize,
            sy: *const u32,
            sy_len: usize,
        ) -> u32;

        fn door_start_dealer(
            name: *const u8,
            name_len: usize,
            key0: *const u8,
            key0_len: usize,
            key1: *const u8,
            key1_len: usize,
            floor: u64,
        ) -> DealerAnswer;
        fn door_deal(
            dealer: Dealer,
            number: u64,
            seed: *const u8,
            seed_len: usize,
            terms: Terms,
            threshold: u32,
            out0: *mut u8,
            out0_len: usize,
            out1: *mut u8,
            out1_len: usize,
        ) -> DealerAnswer;
        fn door_deal_between(
            dealer: Dealer,
            number: u64,
            seed: *const u8,
            seed_len: usize,
            terms: Terms,
            p: u32,
            q: u32,
            out0: *mut u8,
            out0_len: usize,
            out1: *mut u8,
            out1_len: usize,
        ) -> DealerAnswer;
        fn door_deal_by_clock(
            dealer: Dealer,
            number: u64,
            seed: *const u8,
            seed_len: usize,
            terms: Terms,
            firsts: *const u32,
            firsts_len: usize,
            lasts: *const u32,
            lasts_len: usize,
            thresholds: *const u32,
            thresholds_len: usize,
            minute: u32,
            out0: *mut u8,
            out0_len: usize,
            out1: *mut u8,
            out1_len: usize,
        ) -> ClockAnswer;
        fn door_start_party(
            name: *const u8,
            name_len: usize,
            party: u32,
            key: *const u8,
            key_len: usize,
            floor: u64,
        ) -> PartyAnswer;
        fn door_load(
            answer: *mut PartyAnswer,
            party: Party,
            half: *const u8,
            half_len: usize,
        );
        fn door_trial(party: Party, half: *const u8, half_len: usize,) -> TrialAnswer;
        fn door_mask(
            answer: *mut PartyAnswer,
            party: Party,
            v: *const u32,
            v_len: usize,
            out: *mut u32,
            out_len: usize,
        );
        fn door_take(
            answer: *mut PartyAnswer,
            party: Party,
            kind: u32,
            name: *const u8,
            name_len: usize,
            sender: u32,
            number: u64,
            v: *const u32,
            v_len: usize,
        );
        fn door_finish(
            answer: *mut PartyAnswer,
            party: Party,
            kind: u32,
            name: *const u8,
            name_len: usize,
            sender: u32,
            number: u64,
            word: u32,
        );
        fn door_drop(answer: *mut PartyAnswer, party: Party,);

        fn lock_join(
            name: *const u8,
            name_len: usize,
            last: u64,
            kind0: u32,
            name0: *const u8,
            name0_len: usize,
            sender0: u32,
            number0: u64,
            answer0: u32,
            kind1: u32,
            name1: *const u8,
            name1_len: usize,
            sender1: u32,
            number1: u64,
            answer1: u32,
        ) -> u32;

        fn door_iris_to_rings(code: *const u8, code_len: usize, out: *mut u8, out_len: usize,) -> u32;
        fn door_iris_to_angles(code: *const u8, code_len: usize, out: *mut u8, out_len: usize,) -> u32;
        fn door_iris_unpack(code: *const u8, code_len: usize, out: *mut u32, out_len: usize,) -> u32;
        fn door_iris_pack(v: *const u32, v_len: usize, out: *mut u8, out_len: usize,) -> u32;
        fn door_iris_hamming(
            a: *const u8,
            a_len: usize,
            b: *const u8,
            b_len: usize,
        ) -> HammingAnswer;

        fn plain_to_rings(code: *const u8, code_len: usize, out: *mut u8, out_len: usize,) -> u32;
        fn plain_to_angles(code: *const u8, code_len: usize, out: *mut u8, out_len: usize,) -> u32;
        fn plain_unpack(code: *const u8, code_len: usize, out: *mut u32, out_len: usize,) -> u32;
        fn plain_pack(v: *const u32, v_len: usize, out: *mut u8, out_len: usize,) -> u32;
        fn plain_hamming(
            a: *const u8,
            a_len: usize,
            b: *const u8,
            b_len: usize,
        ) -> HammingAnswer;
    });

    /// Ours at one level.
    #[derive(Clone, Copy)]
    pub struct Ours {
        pub(super) level: Level,
        pub(super) functions: &'static Functions,
    }

    impl Ours {
        /// There is none where the processor does not have the level, so that all of it may be
        /// called.
        pub fn at(level: Level) -> Option<Ours> {
            let functions = match level {
                Level::Plain => &PLAIN,
                Level::V3 => &V3,
                Level::V4 => &V4,
            };
            level.fits().then_some(Ours { level, functions })
        }

        pub fn level(self) -> Level {
            self.level
        }

        pub fn plain() -> Ours {
            Ours::at(Level::Plain).expect("every processor has the plain level")
        }

        /// At every level that the processor has.
        pub fn all() -> impl Iterator<Item = Ours> {
            Level::present().into_iter().filter_map(Ours::at)
        }

        pub fn key(self, seeds: &[Seed; 2], point: u32) -> ComparisonKey {
            unsafe { (self.functions.check_key)(&seeds[0], &seeds[1], point) }
        }

        pub fn value(self, key: &ComparisonKey, seed: &Seed, party: u32, u: u32) -> u32 {
            unsafe { (self.functions.check_value)(*key, seed, party, u) }
        }

        pub fn answer(self, key: &ComparisonKey, seed: &Seed, party: u32, z: u32) -> u32 {
            unsafe { (self.functions.check_answer)(*key, seed, party, z) }
        }

        pub fn mask(self, v: &[u32], m: &[u32], out: &mut [u32]) {
            let (v, v_len) = (v.as_ptr(), v.len());
            let (m, m_len) = (m.as_ptr(), m.len());
            let (out, out_len) = (out.as_mut_ptr(), out.len());
            let ok = unsafe { (self.functions.check_mask)(v, v_len, m, m_len, out, out_len) };
            assert!(ok, "check_mask");
        }

        pub fn word(self, w: &Word) -> u32 {
            let (v, v_len) = (w.v.as_ptr(), w.v.len());
            let (mx, mx_len) = (w.mx.as_ptr(), w.mx.len());
            let (my, my_len) = (w.my.as_ptr(), w.my.len());
            let (sx, sx_len) = (w.sx.as_ptr(), w.sx.len());
            let (sy, sy_len) = (w.sy.as_ptr(), w.sy.len());
            unsafe {
                (self.functions.check_word)(
                    w.code, w.party, w.c, w.r, v, v_len, mx, mx_len, my, my_len, sx, sx_len, sy,
                    sy_len,
                )
            }
        }

        pub fn stream(self, key: &Key, nonce: &Nonce, out: &mut [u32]) {
            unsafe { (self.functions.cipher_stream)(key, nonce, out.as_mut_ptr(), out.len()) }
        }

        pub fn seal(self, key: &Key, nonce: &Nonce, aad: &[u8], text: &mut [u8]) -> Tag {
            let mut tag = [0; 16];
            let seal = self.functions.cipher_seal;
            let (text, text_len) = (text.as_mut_ptr(), text.len());
            let (aad, aad_len) = (aad.as_ptr(), aad.len());
            let ok = unsafe { seal(key, nonce, aad, aad_len, text, text_len, &mut tag) };
            assert!(ok, "cipher_seal");
            tag
        }

        pub fn open(
            self,
            key: &Key,
            nonce: &Nonce,
            aad: &[u8],
            text: &mut [u8],
            tag: &Tag,
        ) -> bool {
            let open = self.functions.cipher_open;
            let (text, text_len) = (text.as_mut_ptr(), text.len());
            let (aad, aad_len) = (aad.as_ptr(), aad.len());
            unsafe { open(key, nonce, aad, aad_len, text, text_len, tag) }
        }
    }

    /// What a party's word is made of: its own vector, both masked vectors, and its shares of the
    /// two masks.
    #[derive(Clone, Copy)]
    pub struct Word<'a> {
        pub code: u32,
        pub party: u32,
        pub c: u32,
        pub r: u32,
        pub v: &'a [u32],
        pub mx: &'a [u32],
        pub my: &'a [u32],
        pub sx: &'a [u32],
        pub sy: &'a [u32],
    }
}

/// The verified calls of dealer, box and lock, and their states.
pub mod door {
    use super::iris::HammingAnswer;
    use super::ours::{ComparisonKey, Ours};
    use super::*;
    use crate::calls::{Calls, Said, States, Step};
    use crate::door::Day;
    use crate::measure::Who;
    use second::dealer::Order;
    use second::lock::Answer;
    use second::message::Label;
    use second::opened::OpenedSet;
    use second::party::Told;
    use second::rule::Rule;
    use second::{dcf, party};
    use std::mem::MaybeUninit;

    /// Who a box is, as crates/base_messages has it.
    #[repr(C)]
    #[derive(Clone, Copy, PartialEq)]
    pub struct Identity {
        name: [u8; 16],
        party: u32,
        key: Key,
    }

    /// What a set's measure is of, as crates/measure_table has it.
    #[repr(C)]
    #[derive(Clone, Copy, PartialEq)]
    pub struct Terms {
        code: u32,
        n: usize,
    }

    /// A dealer's state, as crates/call_dealer has it.
    #[repr(C)]
    #[derive(Clone, Copy, PartialEq)]
    pub struct Dealer {
        name: [u8; 16],
        key0: Key,
        key1: Key,
        last: u64,
    }

    #[repr(C)]
    pub struct DealerAnswer {
        pub why: u32,
        dealer: Dealer,
    }

    /// The same of a deal by the clock, with a place.
    #[repr(C)]
    pub struct ClockAnswer {
        why: u32,
        place: u32,
        dealer: Dealer,
    }

    /// An opened set, as crates/half_content has it.
    #[repr(C)]
    #[derive(Clone, Copy, PartialEq)]
    pub struct Set {
        number: u64,
        terms: Terms,
        mask: [u32; 512],
        x: [u32; 512],
        y: [u32; 512],
        c: u32,
        r: u32,
        seed: dcf::Seed,
        key: ComparisonKey,
        width: u32,
        mark: u32,
    }

    impl Set {
        /// The set as the second implementation has it.
        fn plain(&self) -> OpenedSet {
            OpenedSet {
                number: self.number,
                code: self.terms.code,
                length: self.terms.n as u32,
                own_mask: self.mask,
                x_share: self.x,
                y_share: self.y,
                c: self.c,
                r: self.r,
                seed: self.seed,
                key: self.key.plain(),
                width: self.width,
                mark: self.mark,
            }
        }
    }

    /// The check that a box has open, as crates/call_party has it.
    #[repr(C)]
    #[derive(Clone, Copy, PartialEq)]
    pub struct Check {
        phase: u32,
        set: Set,
        masked: [u32; 512],
        own: u32,
        word: u32,
    }

    /// A box's state, as crates/call_party has it.
    #[repr(C)]
    #[derive(Clone, Copy, PartialEq)]
    pub struct Party {
        who: Identity,
        last: u64,
        check: Check,
        waiting: Set,
    }

    /// What a call on a box answers: the next state is in it.
    #[repr(C)]
    #[derive(Clone, Copy, PartialEq)]
    pub struct PartyAnswer {
        why: u32,
        party: Party,
        word: u32,
    }

    /// What a trial answers: there is no state in it.
    #[repr(C)]
    pub struct TrialAnswer {
        why: u32,
        name: [u8; 16],
        terms: Terms,
    }

    impl PartyAnswer {
        fn said(&self) -> Said {
            let PartyAnswer { why, word, .. } = *self;
            Said { why, word }
        }

        /// The state as the second implementation has it.
        pub fn plain(&self) -> party::Party {
            let Party {
                who,
                last,
                check,
                waiting,
            } = &self.party;
            party::Party {
                name: who.name,
                party: who.party,
                key: who.key,
                last: *last,
                phase: check.phase,
                set: check.set.plain(),
                check: party::Check {
                    masked: check.masked,
                    own: check.own,
                    word: check.word,
                },
                waiting: waiting.plain(),
            }
        }
    }

    impl Calls for Ours {
        type Dealer = Dealer;
        type Party = PartyAnswer;

        fn who(self) -> Who {
            Who::Ours(self.level)
        }

        fn start_dealer(self, name: &[u8], floor: u64, keys: &[Key; 2]) -> Dealer {
            let start = self.functions.door_start_dealer;
            let (name, name_len) = (name.as_ptr(), name.len());
            let [key0, key1] = keys.each_ref().map(|key| key.as_ptr());
            let answer = unsafe { start(name, name_len, key0, 32, key1, 32, floor) };
            assert_eq!(answer.why, 0, "door_start_dealer");
            answer.dealer
        }

        fn deal(self, dealer: &Dealer, order: &Order, out: [&mut [u8]; 2]) -> u32 {
            let terms = Terms {
                code: order.code as u32,
                n: order.length as usize,
            };
            let (seed, len) = (order.seed.as_ptr(), order.seed.len());
            let [(out0, len0), (out1, len1)] = out.map(|out| (out.as_mut_ptr(), out.len()));
            let answer = match order.rule {
                Rule::Threshold(t) => unsafe {
                    let deal = self.functions.door_deal;
                    let (number, t) = (order.number, t as u32);
                    deal(*dealer, number, seed, len, terms, t, out0, len0, out1, len1)
                },
                Rule::Between(p, q) => unsafe {
                    let deal = self.functions.door_deal_between;
                    let (number, p, q) = (order.number, p as u32, q as u32);
                    deal(
                        *dealer, number, seed, len, terms, p, q, out0, len0, out1, len1,
                    )
                },
            };
            answer.why
        }

        fn deal_by_clock(
            self,
            dealer: &Dealer,
            order: &Order,
            day: &Day,
            out: [&mut [u8]; 2],
        ) -> Said {
            let terms = Terms {
                code: order.code as u32,
                n: order.length as usize,
            };
            let [(out0, len0), (out1, len1)] = out.map(|out| (out.as_mut_ptr(), out.len()));
            let answer = unsafe {
                (self.functions.door_deal_by_clock)(
                    *dealer,
                    order.number,
                    order.seed.as_ptr(),
                    order.seed.len(),
                    terms,
                    day.table.firsts.as_ptr(),
                    day.table.firsts.len(),
                    day.table.lasts.as_ptr(),
                    day.table.lasts.len(),
                    day.table.thresholds.as_ptr(),
                    day.table.thresholds.len(),
                    day.minute,
                    out0,
                    len0,
                    out1,
                    len1,
                )
            };
            Said {
                why: answer.why,
                word: answer.place,
            }
        }

        fn start_party(self, name: &[u8], party: usize, key: &Key, floor: u64) -> PartyAnswer {
            let start = self.functions.door_start_party;
            let (name, name_len) = (name.as_ptr(), name.len());
            let (key, key_len) = (key.as_ptr(), key.len());
            let answer = unsafe { start(name, name_len, party as u32, key, key_len, floor) };
            assert_eq!(answer.why, 0, "door_start_party");
            answer
        }

        fn step(self, party: &mut PartyAnswer, step: Step) -> Said {
            let mut answer = MaybeUninit::uninit();
            unsafe {
                self.call(party, answer.as_mut_ptr(), step);
                *party = answer.assume_init();
            }
            party.said()
        }

        fn step_to(self, party: &PartyAnswer, next: &mut PartyAnswer, step: Step) -> Said {
            unsafe { self.call(party, next, step) };
            next.said()
        }

        /// Not taken into its callers, as `call` is not.
        #[inline(never)]
        fn trial(self, party: &PartyAnswer, half: &[u8]) -> Result<Told, u32> {
            let trial = self.functions.door_trial;
            let TrialAnswer { why, name, terms } =
                unsafe { trial(party.party, half.as_ptr(), half.len()) };
            match why {
                0 => Ok(Told {
                    name,
                    code: terms.code,
                    length: terms.n as u32,
                }),
                _ => Err(why),
            }
        }

        fn join(self, name: &[u8], last: u64, answers: [&Answer; 2]) -> u32 {
            let [(kind0, name0, len0, sender0, number0), (kind1, name1, len1, sender1, number1)] =
                answers.map(|answer| apart(&answer.label));
            let [answer0, answer1] = answers.map(|answer| answer.answer);
            let (name, len) = (name.as_ptr(), name.len());
            unsafe {
                (self.functions.lock_join)(
                    name, len, last, kind0, name0, len0, sender0, number0, answer0, kind1, name1,
                    len1, sender1, number1, answer1,
                )
            }
        }

        fn states(states: &mut States) -> &mut [PartyAnswer; 2] {
            &mut states.ours
        }
    }

    impl Ours {
        /// Writes the whole answer: there must be room for it, and it may be uninitialised. The
        /// state is handed over by value and stays as it is. Not taken into its callers, whose
        /// frames the stack of all calls is counted from.
        #[inline(never)]
        unsafe fn call(self, party: &PartyAnswer, answer: *mut PartyAnswer, step: Step) {
            let (functions, party) = (self.functions, party.party);
            match step {
                Step::Load(half) => (functions.door_load)(answer, party, half.as_ptr(), half.len()),
                Step::Mask(v, out) => {
                    let (out, out_len) = (out.as_mut_ptr(), out.len());
                    (functions.door_mask)(answer, party, v.as_ptr(), v.len(), out, out_len)
                }
                Step::Take(label, v) => {
                    let (kind, name, len, sender, number) = apart(&label);
                    let (v, v_len) = (v.as_ptr(), v.len());
                    let take = functions.door_take;
                    take(answer, party, kind, name, len, sender, number, v, v_len)
                }
                Step::Finish(label, word) => {
                    let (kind, name, len, sender, number) = apart(&label);
                    let finish = functions.door_finish;
                    finish(answer, party, kind, name, len, sender, number, word)
                }
                Step::Drop => (functions.door_drop)(answer, party),
            }
        }
    }

    /// Kind, name with its length, sender and number, as the functions take them.
    fn apart(label: &Label) -> (u32, *const u8, usize, u32, u64) {
        let (kind, sender) = (label.kind as u32, label.sender as u32);
        let (name, name_len) = (label.name.as_ptr(), label.name.len());
        (kind, name, name_len, sender, label.number)
    }

    /// The structs of the calls, with their sizes in bytes.
    pub const SIZES: [(&str, usize); 8] = [
        ("door_dealer", size_of::<Dealer>()),
        ("door_dealer_answer", size_of::<DealerAnswer>()),
        ("door_clock_answer", size_of::<ClockAnswer>()),
        ("door_set", size_of::<Set>()),
        ("door_party", size_of::<Party>()),
        ("door_party_answer", size_of::<PartyAnswer>()),
        ("door_trial_answer", size_of::<TrialAnswer>()),
        ("door_hamming_answer", size_of::<HammingAnswer>()),
    ];
}

/// The calls on iris codes, ours and those of plain/iris.c.
pub mod iris {
    use super::ours::Ours;

    #[repr(C)]
    pub struct HammingAnswer {
        why: u32,
        distance: u32,
    }

    type Rearrange = unsafe extern "C" fn(*const u8, usize, *mut u8, usize) -> u32;

    /// The five of one level: whoever has them is called by the same code.
    #[derive(Clone, Copy)]
    pub struct Iris {
        to_rings: Rearrange,
        to_angles: Rearrange,
        unpack: unsafe extern "C" fn(*const u8, usize, *mut u32, usize) -> u32,
        pack: unsafe extern "C" fn(*const u32, usize, *mut u8, usize) -> u32,
        hamming: unsafe extern "C" fn(*const u8, usize, *const u8, usize) -> HammingAnswer,
    }

    impl Iris {
        pub fn ours(ours: Ours) -> Iris {
            Iris {
                to_rings: ours.functions.door_iris_to_rings,
                to_angles: ours.functions.door_iris_to_angles,
                unpack: ours.functions.door_iris_unpack,
                pack: ours.functions.door_iris_pack,
                hamming: ours.functions.door_iris_hamming,
            }
        }

        /// In plain C, compiled for the level that this one of ours is compiled for.
        pub fn plain(ours: Ours) -> Iris {
            Iris {
                to_rings: ours.functions.plain_to_rings,
                to_angles: ours.functions.plain_to_angles,
                unpack: ours.functions.plain_unpack,
                pack: ours.functions.plain_pack,
                hamming: ours.functions.plain_hamming,
            }
        }

        pub fn to_rings(self, code: &[u8], out: &mut [u8]) -> u32 {
            unsafe { (self.to_rings)(code.as_ptr(), code.len(), out.as_mut_ptr(), out.len()) }
        }

        pub fn to_angles(self, code: &[u8], out: &mut [u8]) -> u32 {
            unsafe { (self.to_angles)(code.as_ptr(), code.len(), out.as_mut_ptr(), out.len()) }
        }

        pub fn unpack(self, code: &[u8], out: &mut [u32]) -> u32 {
            unsafe { (self.unpack)(code.as_ptr(), code.len(), out.as_mut_ptr(), out.len()) }
        }

        pub fn pack(self, v: &[u32], out: &mut [u8]) -> u32 {
            unsafe { (self.pack)(v.as_ptr(), v.len(), out.as_mut_ptr(), out.len()) }
        }

        /// The distance goes to `out`.
        pub fn hamming(self, a: &[u8], b: &[u8], out: &mut u32) -> u32 {
            let answer = unsafe { (self.hamming)(a.as_ptr(), a.len(), b.as_ptr(), b.len()) };
            *out = answer.distance;
            answer.why
        }
    }
}

/// How much of the stack a call takes.
pub mod stack {
    use std::arch::asm;
    use std::hint::black_box;

    /// What is painted below the frame of `depth`; no call goes so deep.
    const PAINTED: usize = 512 * 1024;

    /// What a thread must have so that `depth` may be called on it.
    pub const ROOM: usize = 8 * PAINTED;

    /// A function may use so much below its stack pointer.
    const RED_ZONE: usize = 128;

    const PAINT: u64 = 0xA5C3_96E1_5A3C_691E;

    /// The bytes of stack from here down to the lowest that the call has written to. The thread
    /// must have `ROOM` bytes of stack, most of them unused.
    #[inline(never)]
    pub fn depth(call: &mut dyn FnMut()) -> usize {
        let here: usize;
        unsafe { asm!("mov {}, rsp", out(reg) here, options(nomem, nostack)) };
        let top = (here - RED_ZONE) / 8 * 8;
        let bottom = top - PAINTED;
        let mut word = bottom;
        while word < top {
            // Volatile, as are the reads: the compiler knows nothing of these words.
            unsafe { (word as *mut u64).write_volatile(PAINT) };
            word += 8;
        }
        black_box(call)();
        let mut lowest = bottom;
        while lowest < top && unsafe { (lowest as *const u64).read_volatile() } == PAINT {
            lowest += 8;
        }
        assert!(lowest > bottom, "the call goes deeper than what is painted");
        here - lowest
    }
}

/// The upper halves of the vector registers.
pub mod vectors {
    use std::arch::is_x86_feature_detected;
    use std::arch::x86_64::_mm256_zeroupper;

    /// OpenSSL's sealing leaves them in use, and on some processors code for SSE2 then takes twice
    /// its time, until they are cleared.
    pub fn clear_upper() {
        if is_x86_feature_detected!("avx") {
            unsafe { zero_upper() }
        }
    }

    #[target_feature(enable = "avx")]
    fn zero_upper() {
        _mm256_zeroupper();
    }
}

pub mod sodium {
    use super::*;
    use std::ptr::{null, null_mut};

    #[link(name = "sodium")]
    extern "C" {
        fn sodium_init() -> i32;
        fn sodium_version_string() -> *const c_char;
        fn crypto_stream_chacha20_ietf(out: *mut u8, len: u64, nonce: &Nonce, key: &Key) -> i32;
        fn crypto_aead_chacha20poly1305_ietf_encrypt_detached(
            sealed: *mut u8,
            tag: &mut Tag,
            tag_len: *mut u64,
            text: *const u8,
            text_len: u64,
            aad: *const u8,
            aad_len: u64,
            unused: *const u8,
            nonce: &Nonce,
            key: &Key,
        ) -> i32;
        fn crypto_aead_chacha20poly1305_ietf_decrypt_detached(
            text: *mut u8,
            unused: *mut u8,
            sealed: *const u8,
            sealed_len: u64,
            tag: &Tag,
            aad: *const u8,
            aad_len: u64,
            nonce: &Nonce,
            key: &Key,
        ) -> i32;
    }

    /// To be called first: libsodium then looks at the processor and takes its fastest code.
    pub fn init() {
        assert!(unsafe { sodium_init() } >= 0, "sodium_init");
    }

    pub fn version() -> String {
        unsafe { string(sodium_version_string()) }
    }

    pub fn stream(key: &Key, nonce: &Nonce, out: &mut [u32]) {
        let (out, len) = (out.as_mut_ptr().cast(), size_of_val(out) as u64);
        let status = unsafe { crypto_stream_chacha20_ietf(out, len, nonce, key) };
        assert_eq!(status, 0, "crypto_stream_chacha20_ietf");
    }

    pub fn seal(key: &Key, nonce: &Nonce, aad: &[u8], text: &mut [u8]) -> Tag {
        let mut tag = [0; 16];
        let (text, text_len) = (text.as_mut_ptr(), text.len() as u64);
        let (aad, aad_len) = (aad.as_ptr(), aad.len() as u64);
        let status = unsafe {
            crypto_aead_chacha20poly1305_ietf_encrypt_detached(
                text,
                &mut tag,
                null_mut(),
                text,
                text_len,
                aad,
                aad_len,
                null(),
                nonce,
                key,
            )
        };
        assert_eq!(status, 0, "encrypt_detached");
        tag
    }

    pub fn open(key: &Key, nonce: &Nonce, aad: &[u8], text: &mut [u8], tag: &Tag) -> bool {
        let (text, text_len) = (text.as_mut_ptr(), text.len() as u64);
        let (aad, aad_len) = (aad.as_ptr(), aad.len() as u64);
        let status = unsafe {
            crypto_aead_chacha20poly1305_ietf_decrypt_detached(
                text,
                null_mut(),
                text,
                text_len,
                tag,
                aad,
                aad_len,
                nonce,
                key,
            )
        };
        status == 0
    }
}

pub mod openssl {
    use super::*;
    use std::ffi::{c_int, c_void};
    use std::ptr::{null, null_mut};

    const GET_TAG: c_int = 0x10;
    const SET_TAG: c_int = 0x11;
    const DECRYPT: c_int = 0;
    const ENCRYPT: c_int = 1;

    /// Neither is ever seen from the inside: OpenSSL hands out pointers to them.
    #[repr(C)]
    struct Cipher([u8; 0]);
    #[repr(C)]
    struct CipherContext([u8; 0]);

    #[link(name = "crypto")]
    extern "C" {
        fn OpenSSL_version(which: c_int) -> *const c_char;
        fn EVP_chacha20() -> *const Cipher;
        fn EVP_chacha20_poly1305() -> *const Cipher;
        fn EVP_CIPHER_CTX_new() -> *mut CipherContext;
        fn EVP_CIPHER_CTX_free(context: *mut CipherContext);
        fn EVP_CIPHER_CTX_ctrl(
            context: *mut CipherContext,
            what: c_int,
            len: c_int,
            data: *mut c_void,
        ) -> c_int;
        fn EVP_CipherInit_ex(
            context: *mut CipherContext,
            cipher: *const Cipher,
            engine: *mut c_void,
            key: *const u8,
            nonce: *const u8,
            direction: c_int,
        ) -> c_int;
        fn EVP_CipherUpdate(
            context: *mut CipherContext,
            out: *mut u8,
            out_len: &mut c_int,
            text: *const u8,
            text_len: c_int,
        ) -> c_int;
        fn EVP_CipherFinal_ex(
            context: *mut CipherContext,
            out: *mut u8,
            out_len: &mut c_int,
        ) -> c_int;
    }

    pub fn version() -> String {
        unsafe { string(OpenSSL_version(0)) }
    }

    /// A context of one cipher and one direction, made once and used for every call, since making
    /// one takes longer than a call.
    struct Context(*mut CipherContext, c_int);

    impl Context {
        fn new(cipher: *const Cipher, direction: c_int) -> Context {
            let context = Context(unsafe { EVP_CIPHER_CTX_new() }, direction);
            assert!(!context.0.is_null(), "EVP_CIPHER_CTX_new");
            let status = unsafe {
                EVP_CipherInit_ex(context.0, cipher, null_mut(), null(), null(), direction)
            };
            assert_eq!(status, 1, "EVP_CipherInit_ex: the cipher");
            context
        }

        /// `nonce` must be as long as the cipher reads.
        unsafe fn start(&mut self, key: &Key, nonce: *const u8) {
            let key = key.as_ptr();
            let status = EVP_CipherInit_ex(self.0, null(), null_mut(), key, nonce, self.1);
            assert_eq!(status, 1, "EVP_CipherInit_ex: key and nonce");
        }

        /// `out` must have room for as many bytes, or be null: `text` is then additional data.
        unsafe fn update(&mut self, out: *mut u8, text: *const u8, len: usize) {
            let mut done = 0;
            let status = EVP_CipherUpdate(self.0, out, &mut done, text, len as c_int);
            assert_eq!((status, done), (1, len as c_int), "EVP_CipherUpdate");
        }

        /// Whether the tag fits, where there is one to compare.
        fn finish(&mut self) -> bool {
            // A cipher with no blocks writes nothing here.
            let (mut nowhere, mut done) = ([0; 32], 0);
            unsafe { EVP_CipherFinal_ex(self.0, nowhere.as_mut_ptr(), &mut done) == 1 }
        }

        /// Has OpenSSL write the tag, or read it. It writes none in SET_TAG.
        unsafe fn tag(&mut self, what: c_int, tag: *mut Tag) {
            let status = EVP_CIPHER_CTX_ctrl(self.0, what, 16, tag.cast());
            assert_eq!(status, 1, "EVP_CIPHER_CTX_ctrl");
        }
    }

    impl Drop for Context {
        fn drop(&mut self) {
            unsafe { EVP_CIPHER_CTX_free(self.0) }
        }
    }

    /// OpenSSL has no key stream as such: it is what zeros are encrypted to.
    pub struct Stream {
        context: Context,
        zeros: Vec<u32>,
    }

    impl Stream {
        pub fn new(words: usize) -> Stream {
            let context = Context::new(unsafe { EVP_chacha20() }, ENCRYPT);
            let zeros = vec![0; words];
            Stream { context, zeros }
        }

        pub fn stream(&mut self, key: &Key, nonce: &Nonce, out: &mut [u32]) {
            assert_eq!(out.len(), self.zeros.len());
            // The block counter, 0, and the nonce.
            let mut counter_and_nonce = [0; 16];
            counter_and_nonce[4..].copy_from_slice(nonce);
            let (zeros, len) = (self.zeros.as_ptr().cast(), size_of_val(out));
            unsafe {
                self.context.start(key, counter_and_nonce.as_ptr());
                self.context.update(out.as_mut_ptr().cast(), zeros, len);
            }
        }
    }

    pub struct Sealer(Context);

    impl Sealer {
        pub fn new() -> Sealer {
            Sealer(Context::new(unsafe { EVP_chacha20_poly1305() }, ENCRYPT))
        }

        pub fn seal(&mut self, key: &Key, nonce: &Nonce, aad: &[u8], text: &mut [u8]) -> Tag {
            let mut tag = [0; 16];
            let (text, len) = (text.as_mut_ptr(), text.len());
            unsafe {
                self.0.start(key, nonce.as_ptr());
                self.0.update(null_mut(), aad.as_ptr(), aad.len());
                self.0.update(text, text, len);
                assert!(self.0.finish(), "EVP_CipherFinal_ex");
                self.0.tag(GET_TAG, &mut tag);
            }
            tag
        }
    }

    pub struct Opener(Context);

    impl Opener {
        pub fn new() -> Opener {
            Opener(Context::new(unsafe { EVP_chacha20_poly1305() }, DECRYPT))
        }

        pub fn open(
            &mut self,
            key: &Key,
            nonce: &Nonce,
            aad: &[u8],
            text: &mut [u8],
            tag: &Tag,
        ) -> bool {
            let (text, len) = (text.as_mut_ptr(), text.len());
            unsafe {
                self.0.start(key, nonce.as_ptr());
                self.0.tag(SET_TAG, (tag as *const Tag).cast_mut());
                self.0.update(null_mut(), aad.as_ptr(), aad.len());
                self.0.update(text, text, len);
            }
            self.0.finish()
        }
    }
}

/// `text` must be a string of C.
unsafe fn string(text: *const c_char) -> String {
    CStr::from_ptr(text).to_string_lossy().into_owned()
}
