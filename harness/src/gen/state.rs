//! Lent buffers with guards, and half-done runs.

use super::rng::Rng;
use crate::cases::digest::Digest;
use crate::decoder::{Buffers, Record, Refusal};
use crate::independent::limits::{certificate_length, OFFSET_STEP, ROUND_LIMIT, UNIT};
use crate::independent::table::Table;

/// Elements on each side of what may be lent; no call may touch them.
const GUARD: usize = 4;

#[derive(Clone, PartialEq, Eq)]
pub struct Guarded<T> {
    whole: Vec<T>,
}

impl<T: Copy> Guarded<T> {
    fn new(length: usize, mut fill: impl FnMut() -> T) -> Guarded<T> {
        Guarded { whole: (0..length + 2 * GUARD).map(|_| fill()).collect() }
    }

    fn len(&self) -> usize {
        self.whole.len() - 2 * GUARD
    }

    pub fn lent(&self) -> &[T] {
        &self.whole[GUARD..GUARD + self.len()]
    }

    pub fn lent_mut(&mut self) -> &mut [T] {
        let length = self.len();
        self.first(length)
    }

    fn first(&mut self, length: usize) -> &mut [T] {
        &mut self.whole[GUARD..GUARD + length]
    }
}

/// The sizes that a table's buffers depend on.
#[derive(Clone, Copy)]
pub struct Shape {
    pub bits: usize,
    pub checks: usize,
    pub edges: usize,
    pub certificate: usize,
}

impl Shape {
    pub fn of(code: &[u8]) -> Result<Shape, Refusal> {
        Ok(Shape::of_table(&Table::parse(code)?))
    }

    pub fn of_table(table: &Table) -> Shape {
        let (checks, edges) = (table.checks(), table.edges());
        Shape { bits: table.bits, checks, edges, certificate: certificate_length(checks) }
    }
}

macro_rules! buffers {
    ($($name:ident: $element:ty, $need:ident;)*) => {
        /// How much of each buffer is lent, in the order of `State`.
        pub type Lengths = [usize; [$(stringify!($name)),*].len()];

        #[derive(Clone, PartialEq, Eq)]
        pub struct State {
            $(pub $name: Guarded<$element>,)*
        }

        impl Shape {
            /// The lengths a call needs.
            pub fn lengths(&self) -> Lengths {
                [$(self.$need),*]
            }
        }

        impl State {
            fn filled(lengths: Lengths, mut fill: impl FnMut() -> u64) -> State {
                let [$($name),*] = lengths;
                State { $($name: Guarded::new($name, || fill() as $element),)* }
            }

            pub fn lengths(&self) -> Lengths {
                [$(self.$name.len()),*]
            }

            pub fn lend(&mut self, lengths: &Lengths) -> Buffers<'_> {
                let [$($name),*] = *lengths;
                Buffers { $($name: self.$name.first($name),)* }
            }

            /// Adds all buffers to a digest, whole.
            pub fn put(&self, digest: &mut Digest) {
                $(digest.numbers(&self.$name.whole);)*
            }

            /// The first buffer that is not the other's.
            pub fn differing(&self, other: &State) -> Option<&'static str> {
                let differs = [$((stringify!($name), self.$name != other.$name)),*];
                differs.into_iter().find(|(_, differs)| *differs).map(|(name, _)| name)
            }
        }
    };
}
jugnayap::each_buffer!(buffers);

impl State {
    pub fn zeroed(shape: &Shape) -> State {
        State::filled(shape.lengths(), || 0)
    }

    /// Buffers of anything, some longer than a call needs.
    pub fn random(rng: &mut Rng, shape: &Shape) -> State {
        let lengths = shape.lengths().map(|length| length + rng.pick(&[0, 0, 1, 9]));
        State::filled(lengths, || rng.draw())
    }

    pub fn lend_all(&mut self) -> Buffers<'_> {
        let lengths = self.lengths();
        self.lend(&lengths)
    }

    /// Each bit's sum of copies less offsets, which wraps round where these are beyond their limits.
    pub fn true_sums(&self, table: &Table) -> Vec<i32> {
        let mut sums = vec![0i32; table.bits];
        let edges = self.copies.lent().iter().zip(self.offsets.lent());
        for (&member, (&copy, &offset)) in table.members.iter().zip(edges) {
            let sum = &mut sums[usize::from(member)];
            *sum = sum.wrapping_add(copy).wrapping_sub(offset);
        }
        sums
    }

    pub fn set_sums(&mut self, table: &Table) {
        let sums = self.true_sums(table);
        self.sums.lent_mut()[..table.bits].copy_from_slice(&sums);
    }

    /// Copies, offsets and sums as a run of so many rounds may leave them.
    pub fn half_done(&mut self, rng: &mut Rng, table: &Table, rounds: u32) {
        let limit = OFFSET_STEP * rounds.min(ROUND_LIMIT) as i32;
        let reach = rng.pick(&[limit.min(300), limit.min(3 * UNIT), limit]);
        let edgy = rng.one_in(3);
        for edge in 0..table.edges() {
            let extreme = edgy && rng.one_in(2);
            self.copies.lent_mut()[edge] = if extreme { rng.pick(&[-UNIT, UNIT]) } else { rng.signed(UNIT) };
            self.offsets.lent_mut()[edge] =
                if extreme { rng.pick(&[-limit, limit]) } else { rng.signed(reach) };
        }
        self.set_sums(table);
    }

    /// One thing that no run leaves (42, 43), or something that only looks like it.
    pub fn overstep(&mut self, rng: &mut Rng, table: &Table, record: &mut Record) {
        match rng.below(12) {
            0..=3 => self.overstep_edge(rng, table, record.rounds),
            4 => record.rounds = rng.pick(&[ROUND_LIMIT, ROUND_LIMIT + 1, u32::MAX, 1 << 19, 1 << 31]),
            5 => record.status = Record::CERTIFIED,
            6 => record.status = Record::SPENT,
            7 => record.status = rng.pick(&[3, 4, 256, u32::MAX]),
            _ => self.spoil_sums(rng, table.bits),
        }
    }

    /// A copy or an offset beyond its limit, or one past the edges. The sums are made true, so that they don't
    /// tell.
    fn overstep_edge(&mut self, rng: &mut Rng, table: &Table, rounds: u32) {
        let limit = OFFSET_STEP * rounds.min(ROUND_LIMIT) as i32;
        let edge = rng.below(table.edges());
        match rng.below(4) {
            0 => self.copies.lent_mut()[edge] = rng.pick(&[-UNIT - 1, UNIT + 1, i32::MIN, i32::MAX]),
            1 => self.offsets.lent_mut()[edge] = rng.pick(&[-limit - 1, limit + 1, i32::MIN, i32::MAX]),
            2 => self.copies.lent_mut().last_mut().into_iter().for_each(|last| *last = i32::MAX),
            _ => self.offsets.lent_mut().last_mut().into_iter().for_each(|last| *last = i32::MIN),
        }
        self.set_sums(table);
    }

    /// A sum that isn't true, or two whose errors cancel, or anything past the bits, which must not matter.
    pub fn spoil_sums(&mut self, rng: &mut Rng, bits: usize) {
        let (bit, other) = (rng.below(bits), rng.below(bits));
        let (power, any) = (1 << rng.below(32), rng.draw() as i32);
        let off = rng.pick(&[1, 1, -1, -1, power, any]);
        let sums = self.sums.lent_mut();
        match rng.below(6) {
            0..=1 => sums[bit] = sums[bit].wrapping_add(off),
            2 => sums[bit] = rng.pick(&[0, i32::MIN, i32::MAX]),
            3 => {
                sums[bit] = sums[bit].wrapping_add(off);
                sums[other] = sums[other].wrapping_sub(off);
            }
            4 => sums.swap(bit, other),
            _ => sums[bits..].fill(rng.pick(&[0, 1, i32::MIN, i32::MAX])),
        }
    }
}

/// What is lent in one call: mostly all that is needed or more, now and then too little of one buffer.
pub fn lent_lengths(rng: &mut Rng, shape: &Shape, state: &State) -> Lengths {
    let (needed, there) = (shape.lengths(), state.lengths());
    let mut lengths = if rng.one_in(2) { there } else { needed };
    if rng.one_in(12) {
        let short = rng.below(lengths.len());
        lengths[short] = if rng.one_in(3) { rng.below(needed[short]) } else { needed[short] - 1 };
    }
    lengths
}
