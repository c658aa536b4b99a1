//! Many questions to one table, which is checked once.
use super::{FindOption, SequenceTracker};
use crate::calls::{self, done};
use crate::{sys, Error, Second, Seq};

/// Up to sixteen questions and their answers, passed and returned by value, so that nothing is allocated: a [`TsSheet`] asks by sequence number, a [`SeqSheet`] by
/// second. Of the sixteen places the first `used` are questions. Those after them are the caller's own: whatever their keys and answers are, they come back as they
/// went in. What a place holds as its answer before it is asked for does not matter.
#[derive(Clone, Copy, Debug, PartialEq, Eq, Hash)]
pub struct Sheet<K, A> {
    /// What is asked for.
    pub keys: [K; 16],
    /// What is answered, at the place of its question.
    pub answers: [Option<A>; 16],
    /// How many of the places are questions. More than sixteen are refused (35).
    pub used: usize,
}

/// Questions by sequence number, answered by seconds: for [`SequenceTracker::find_ts_16`].
pub type TsSheet = Sheet<Seq, Second>;

/// Questions by second, answered by sequence numbers: for [`SequenceTracker::find_seq_16`].
pub type SeqSheet = Sheet<Second, Seq>;

impl TsSheet {
    /// A sheet of these questions, with no answers; the keys that are not used are 0. More than sixteen are refused (35).
    pub fn of(keys: &[Seq]) -> Result<TsSheet, Error> {
        Sheet::asking(keys, Seq(0))
    }
}

impl SeqSheet {
    /// A sheet of these questions, with no answers; the keys that are not used are 0. More than sixteen are refused (35).
    pub fn of(keys: &[Second]) -> Result<SeqSheet, Error> {
        Sheet::asking(keys, Second(0))
    }
}

impl<K: Copy, A: Copy> Sheet<K, A> {
    fn asking(keys: &[K], unused: K) -> Result<Sheet<K, A>, Error> {
        let mut sheet = Sheet { keys: [unused; 16], answers: [None; 16], used: keys.len() };
        sheet.keys.get_mut(..keys.len()).ok_or(Error::TooManyQuestions)?.copy_from_slice(keys);
        Ok(sheet)
    }

    /// The sheet with these answers to its questions. The places that are not used keep their own.
    fn answered(mut self, answers: [Option<A>; 16]) -> Sheet<K, A> {
        for (own, answer) in self.answers.iter_mut().zip(answers).take(self.used) {
            *own = answer;
        }
        self
    }
}

impl SequenceTracker {
    /// The seconds of up to sixteen sequence numbers, each as [`SequenceTracker::find_ts`] answers it, with one check of the table for all of them. Refused by 35,
    /// before all else, where the sheet has more than sixteen questions. Nothing is allocated.
    ///
    /// ```no_run
    /// # use skutlaneb::{FindOption, Second, Seq, SequenceTracker, TrackedSeq, TsSheet};
    /// # fn main() -> Result<(), Box<dyn std::error::Error>> {
    /// let mut tracker = SequenceTracker::new();
    /// tracker.insert_all(&[(100, 0), (164, 60)].map(TrackedSeq::from))?;
    /// let sheet = tracker.find_ts_16(TsSheet::of(&[Seq(163), Seq(164), Seq(99)])?, FindOption::RoundDown)?;
    /// assert_eq!(sheet.answers[..sheet.used], [Some(Second(0)), Some(Second(60)), None]);
    /// # Ok(())
    /// # }
    /// ```
    pub fn find_ts_16(&self, sheet: TsSheet, opt: FindOption) -> Result<TsSheet, Error> {
        let asked = sys::TsSheet { keys: sheet.keys.map(u64::from), used: sheet.used, ..sys::TsSheet::default() };
        let back = calls::find_ts_16(self.state, &self.seqs, &self.secs, asked, opt.number());
        done(back.answer)?;
        Ok(sheet.answered(back.sheet.answers.map(|answer| (answer.found == 1).then_some(Second(answer.second)))))
    }

    /// The sequence numbers of up to sixteen seconds, each as [`SequenceTracker::find_seq`] answers it: as [`SequenceTracker::find_ts_16`], by second.
    pub fn find_seq_16(&self, sheet: SeqSheet, opt: FindOption) -> Result<SeqSheet, Error> {
        let asked = sys::SeqSheet { keys: sheet.keys.map(i64::from), used: sheet.used, ..sys::SeqSheet::default() };
        let back = calls::find_seq_16(self.state, &self.seqs, &self.secs, asked, opt.number());
        done(back.answer)?;
        Ok(sheet.answered(back.sheet.answers.map(|answer| (answer.found == 1).then_some(Seq(answer.seq)))))
    }

    /// The second of each of these sequence numbers, as [`SequenceTracker::find_ts`] answers it, with one check of the table for all of them.
    ///
    /// ```no_run
    /// # use skutlaneb::{FindOption, Second, Seq, SequenceTracker, TrackedSeq};
    /// # fn main() -> Result<(), Box<dyn std::error::Error>> {
    /// let mut tracker = SequenceTracker::new();
    /// tracker.insert_all(&[(100, 0), (164, 60)].map(TrackedSeq::from))?;
    /// let seconds = tracker.find_ts_each(&[Seq(99), Seq(101), Seq(165)], FindOption::RoundUp)?;
    /// assert_eq!(seconds, [Some(Second(0)), Some(Second(60)), None]);
    /// # Ok(())
    /// # }
    /// ```
    pub fn find_ts_each(&self, keys: &[Seq], opt: FindOption) -> Result<Vec<Option<Second>>, Error> {
        let (mut answers, mut found) = (vec![Second(0); keys.len()], vec![false; keys.len()]);
        self.find_ts_into(keys, &mut answers, &mut found, opt)?;
        Ok(optional(&answers, &found))
    }

    /// The sequence number of each of these seconds, as [`SequenceTracker::find_seq`] answers it, with one check of the table for all of them.
    pub fn find_seq_each(&self, keys: &[Second], opt: FindOption) -> Result<Vec<Option<Seq>>, Error> {
        let (mut answers, mut found) = (vec![Seq(0); keys.len()], vec![false; keys.len()]);
        self.find_seq_into(keys, &mut answers, &mut found, opt)?;
        Ok(optional(&answers, &found))
    }

    /// As [`SequenceTracker::find_ts_each`], to memory of the caller's, so that nothing is allocated: at the place of each question `found` says whether there is
    /// an answer, and `answers` has it, or the second 0 where there is none. Refused by 18, before all else, where the three are not of one length. Refused, both
    /// are as they were.
    pub fn find_ts_into(&self, keys: &[Seq], answers: &mut [Second], found: &mut [bool], opt: FindOption) -> Result<(), Error> {
        done(calls::find_ts_each(self.state, &self.seqs, &self.secs, keys, (answers, found), opt.number())).map(|_| ())
    }

    /// As [`SequenceTracker::find_seq_each`], to memory of the caller's: as [`SequenceTracker::find_ts_into`], with the sequence number 0 where there is none.
    pub fn find_seq_into(&self, keys: &[Second], answers: &mut [Seq], found: &mut [bool], opt: FindOption) -> Result<(), Error> {
        done(calls::find_seq_each(self.state, &self.seqs, &self.secs, keys, (answers, found), opt.number())).map(|_| ())
    }
}

/// The answers that have a mark.
fn optional<A: Copy>(answers: &[A], found: &[bool]) -> Vec<Option<A>> {
    answers.iter().zip(found).map(|(&answer, &found)| found.then_some(answer)).collect()
}
