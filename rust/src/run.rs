//! A run of the decoder.

use crate::calls::{self, each_buffer, Buffers, Record};
use crate::{Certificate, Code, Refusal, Word};

/// What a call for rounds comes to.
#[derive(Clone, Debug, PartialEq, Eq)]
pub enum Answer {
    /// The rounds wanted are done, and the run goes on.
    Running,
    /// The run has ended with a best word, and with what shows that it is.
    Certified(Certified),
    /// 1,024 rounds brought no certificate.
    Spent,
}

/// A certified word, with what shows that it is best.
#[derive(Clone, Debug, PartialEq, Eq)]
pub struct Certified {
    /// The rounds that the run took.
    pub rounds: u32,
    /// The word: no codeword, and no point of the relaxation, agrees better with the frame.
    pub word: Word,
    /// The last round's cuts, at scale 1, by which the judge certifies the word.
    pub certificate: Certificate,
}

/// The numbers that say how long a run's buffers are.
struct Needs {
    bits: usize,
    checks: usize,
    edges: usize,
    certificate: usize,
}

impl Needs {
    fn of(code: &Code) -> Needs {
        let (bits, checks, edges) = (code.bits(), code.checks(), code.edges());
        Needs { bits, checks, edges, certificate: Certificate::length(checks) }
    }
}

macro_rules! owned {
    ($($name:ident: $element:ty, $need:ident;)*) => {
        /// The buffers of a run, of the lengths that its code needs.
        #[derive(Clone, Debug)]
        struct Owned {
            $($name: Vec<$element>,)*
        }

        impl Owned {
            fn zeroed(needs: Needs) -> Owned {
                Owned { $($name: vec![0; needs.$need],)* }
            }

            fn clear(&mut self) {
                $(self.$name.fill(0);)*
            }

            fn lend(&mut self) -> Buffers<'_> {
                Buffers { $($name: &mut self.$name,)* }
            }
        }
    };
}
each_buffer!(owned);

/// A run on one code. It owns record and buffers, so none of its calls is refused for how the run stands,
/// but for a call after its end (42). What it shows of its buffers is what the last round left, zeros before
/// the first.
///
/// Its calls for rounds should all have one frame. With another the run goes on from where the last left it;
/// a certificate is of the frame of the call that answers it.
///
/// ```
/// use jugnayap::{Answer, Code, Run};
/// let code = Code::from_checks(3, &[[0, 1, 2]])?;
/// let mut run = Run::start(&code);
/// assert_eq!(run.rounds(&[4000, 4000, -2000], 1)?, Answer::Running);
/// assert_eq!((run.rounds_done(), run.spins()), (1, &[4000, 4000, -2000][..]));
/// let Answer::Certified(found) = run.rounds(&[4000, 4000, -2000], 1024)? else { panic!("spent") };
/// assert_eq!(found.certificate.to_string(), "scale 1 0:3333:4");
/// # Ok::<(), jugnayap::Refusal>(())
/// ```
#[derive(Clone, Debug)]
pub struct Run<'c> {
    code: &'c Code,
    record: Record,
    buffers: Owned,
}

impl<'c> Run<'c> {
    /// A fresh run.
    pub fn start(code: &'c Code) -> Run<'c> {
        let mut run = Run { code, record: Record::FRESH, buffers: Owned::zeroed(Needs::of(code)) };
        run.restart();
        run
    }

    /// Starts again, in the same buffers.
    pub fn restart(&mut self) {
        self.buffers.clear();
        self.record = calls::start(self.code.file(), self.buffers.lend().for_start())
            .expect("an accepted code, and its lengths");
    }

    /// Does the rounds wanted, 0 to 1,024, or fewer if the run ends. Refusals: 8, 9, 17, 42.
    pub fn rounds(&mut self, frame: &[i16], wanted: u32) -> Result<Answer, Refusal> {
        let called = calls::rounds(self.code.file(), frame, self.record, wanted, self.buffers.lend());
        if let Some(refusal) = called.refusal {
            return Err(refusal);
        }
        self.record = called.record;
        Ok(match self.record.status {
            Record::CERTIFIED => Answer::Certified(self.certified()),
            Record::SPENT => Answer::Spent,
            _ => Answer::Running,
        })
    }

    fn certified(&self) -> Certified {
        Certified {
            rounds: self.record.rounds,
            word: Word::from_bytes(self.buffers.word.clone()).expect("a word of the decoder"),
            certificate: Certificate::at_front(&self.buffers.certificate)
                .expect("a certificate of the decoder"),
        }
    }

    /// The code that it runs on.
    pub fn code(&self) -> &'c Code {
        self.code
    }

    /// The rounds done since the start.
    pub fn rounds_done(&self) -> u32 {
        self.record.rounds
    }

    /// Each bit's spin: positive for 0, negative for 1.
    pub fn spins(&self) -> &[i32] {
        &self.buffers.spins
    }

    /// Each edge's copy, in the order of the code file's bodies.
    pub fn copies(&self) -> &[i32] {
        &self.buffers.copies
    }

    /// Each edge's offset, in the order of the code file's bodies.
    pub fn offsets(&self) -> &[i32] {
        &self.buffers.offsets
    }

    /// Each bit's sum of copies less offsets over its edges, which the next round adds to its frame number.
    pub fn sums(&self) -> &[i32] {
        &self.buffers.sums
    }

    /// Each check's multiplier, 0 for no cut.
    pub fn multipliers(&self) -> &[u32] {
        &self.buffers.multipliers
    }

    /// Each check's cut as a mask of its members, 0 for none.
    pub fn masks(&self) -> &[u32] {
        &self.buffers.masks
    }

    /// Each check's depth: by how much its cut's inequality falls short at spin plus offset, clipped; 0 for no
    /// cut.
    pub fn depths(&self) -> &[u32] {
        &self.buffers.depths
    }
}
