//! A code: a parity-check table that the proved library has accepted.

use crate::bytes::u16_at;
use crate::calls::{self, Cut, Sizes, Verdict};
use crate::{alist, limits, Answer, Certificate, Refusal, Run, Word};

/// A sparse parity-check code. It owns the bytes of its code file, which the proved library has accepted.
///
/// ```
/// use jugnayap::Code;
/// let hamming = Code::from_checks(7, &[[0, 1, 2, 4], [0, 1, 3, 5], [0, 2, 3, 6]])?;
/// assert_eq!((hamming.bits(), hamming.checks(), hamming.edges()), (7, 3, 12));
/// assert_eq!(hamming.members(1), [0, 1, 3, 5]);
/// assert_eq!(Code::from_file(hamming.file())?, hamming);
/// # Ok::<(), jugnayap::Refusal>(())
/// ```
#[derive(Clone, Debug, PartialEq, Eq)]
pub struct Code {
    file: Vec<u8>,
    sizes: Sizes,
}

impl Code {
    /// From a code file's bytes. Refusals: 1 to 7.
    pub fn from_file(file: impl Into<Vec<u8>>) -> Result<Code, Refusal> {
        let file = file.into();
        let sizes = calls::check_table(&file)?;
        Ok(Code { file, sizes })
    }

    /// From the checks' members, each list ascending. A list may be empty: that check is always met. Refusals:
    /// 2, 3, 4, 6, 7.
    pub fn from_checks<M: AsRef<[u16]>>(bits: usize, checks: &[M]) -> Result<Code, Refusal> {
        let mut contents = vec![bits, checks.len()];
        let mut start = 0;
        for members in checks {
            let count = members.as_ref().len();
            contents.extend([start, count]);
            start += count;
        }
        // What leaves 16 bits is refused like their greatest number; starts leave them only after a count
        // or a number of checks that is refused.
        let contents = contents.into_iter().map(|number| u16::try_from(number).unwrap_or(u16::MAX));
        let bodies = checks.iter().flat_map(|members| members.as_ref().iter().copied());
        Code::from_file(contents.chain(bodies).flat_map(u16::to_le_bytes).collect::<Vec<u8>>())
    }

    /// From an alist.
    pub fn from_alist(text: &[u8]) -> Result<Code, alist::Error> {
        alist::read(text)
    }

    /// The table as an alist.
    pub fn to_alist(&self) -> String {
        alist::write(self)
    }

    /// The code file's bytes.
    pub fn file(&self) -> &[u8] {
        &self.file
    }

    /// n: the number of bits.
    pub fn bits(&self) -> usize {
        self.sizes.bits as usize
    }

    /// m: the number of parity checks.
    pub fn checks(&self) -> usize {
        self.sizes.checks as usize
    }

    /// E: the members of all checks together.
    pub fn edges(&self) -> usize {
        self.sizes.edges as usize
    }

    /// The bits of a check, ascending.
    ///
    /// # Panics
    /// If there is no such check.
    pub fn members(&self, check: usize) -> Vec<u16> {
        assert!(check < self.checks(), "check {check} of {}", self.checks());
        let [start, count] = [4, 6].map(|place| u16_at(&self.file, place + 4 * check) as usize);
        let bodies = 4 + 4 * self.checks();
        (start..start + count).map(|edge| u16_at(&self.file, bodies + 2 * edge)).collect()
    }

    /// The number of checks of each bit.
    pub fn bit_degrees(&self) -> Vec<usize> {
        let mut degrees = vec![0; self.bits()];
        for bit in (0..self.checks()).flat_map(|check| self.members(check)) {
            degrees[usize::from(bit)] += 1;
        }
        degrees
    }

    /// Decodes a frame by a run of its own: certified or spent. Refusals: 8, 9.
    ///
    /// ```
    /// use jugnayap::{Answer, Code};
    /// let code = Code::from_checks(3, &[[0, 1, 2]])?;
    /// let Answer::Certified(found) = code.decode(&[4000, 4000, -2000])? else { panic!("spent") };
    /// assert_eq!((found.rounds, found.word.to_string().as_str()), (3, "000"));
    /// # Ok::<(), jugnayap::Refusal>(())
    /// ```
    pub fn decode(&self, frame: &[i16]) -> Result<Answer, Refusal> {
        Run::start(self).rounds(frame, limits::ROUNDS)
    }

    /// Judges a word and anybody's certificate. Refusals: 8, 9, 15, 10, 11, then entry by entry 12, 13, 14.
    ///
    /// ```
    /// use jugnayap::{Code, Verdict};
    /// let code = Code::from_checks(3, &[[0, 1, 2]])?;
    /// let (frame, word) = ([4000, 4000, -2000], "000".parse().unwrap());
    /// let judge = |certificate: &str| code.judge(&frame, &word, &certificate.parse().unwrap());
    /// assert_eq!(judge("scale 1 0:3333:4")?, Verdict::Certified { sole: true });
    /// assert_eq!(judge("scale 1 0:2000:4")?, Verdict::Certified { sole: false });
    /// assert_eq!(judge("scale 1 0:1999:4")?, Verdict::Gap(2));
    /// # Ok::<(), jugnayap::Refusal>(())
    /// ```
    pub fn judge(&self, frame: &[i16], word: &Word, certificate: &Certificate) -> Result<Verdict, Refusal> {
        calls::judge(&self.file, frame, word.bytes(), certificate.bytes())
    }

    /// The agreement of a word with a frame. Refusals: 8, 9, 15.
    pub fn agreement(&self, frame: &[i16], word: &Word) -> Result<i64, Refusal> {
        calls::agreement(&self.file, frame, word.bytes())
    }

    /// The parity inequality of a check that these spins violate, and by how much, or none. Refusals: 16, 17.
    ///
    /// ```
    /// use jugnayap::{Code, Cut, Refusal};
    /// let code = Code::from_checks(3, &[[0, 1, 2]])?;
    /// assert_eq!(code.search_cut(&[1365, 1365, -1366], 0)?, None);
    /// assert_eq!(code.search_cut(&[1365, 1365, -1367], 0)?, Some(Cut { mask: 0b100, depth: 1 }));
    /// assert_eq!(code.search_cut(&[0, 0, 4097], 0), Err(Refusal::POINT));
    /// assert_eq!(code.search_cut(&[0, 0, 0], 1), Err(Refusal::REQUEST));
    /// # Ok::<(), Refusal>(())
    /// ```
    pub fn search_cut(&self, spins: &[i32], check: usize) -> Result<Option<Cut>, Refusal> {
        calls::search_cut(&self.file, spins, check)
    }
}
