//! The library as a voice in the comparison: each method of `Subject` hands its task to an entry point
//! of the face, which has no k-means alone.
//!
//! Answers are mapped both ways. An answer as the header has it becomes the seat's, and is then held
//! to what the header has for that one, field by field, so that no field goes unseen.

use seat::*;

use crate::voices::face::*;

impl Place {
    /// The header's place of a refusal: the centre is that of an 8 and of a 9 alike.
    fn of(stage: Stage, step: Step, epoch: usize, centre: usize) -> Place {
        let (stage, cell, sub) = match stage {
            Stage::Coarse => (0, 0, 0),
            Stage::Sub { cell, sub_space } => (1, cell as u32, sub_space as u32),
        };
        let step = match step {
            Step::Start => 0,
            Step::Averaging => 1,
            Step::Splitting => 2,
        };
        Place { stage, cell, sub, step, epoch: epoch as u32, center: centre as u32 }
    }

    /// The stage that it names.
    fn stage(&self) -> Stage {
        match self.stage {
            0 => Stage::Coarse,
            _ => Stage::Sub { cell: self.cell as usize, sub_space: self.sub as usize },
        }
    }

    /// The step that it names.
    fn step(&self) -> Step {
        match self.step {
            0 => Step::Start,
            1 => Step::Averaging,
            _ => Step::Splitting,
        }
    }
}

impl TrainAnswer {
    /// What the header has for an outcome.
    pub fn of(trained: Trained) -> TrainAnswer {
        let refused = |number, place| TrainAnswer { number, place, used: 0 };
        match trained {
            Ok(used) => TrainAnswer { used: used as usize, ..TrainAnswer::default() },
            Err(Refusal::Input(number)) => refused(number, Place::default()),
            Err(Refusal::NoDraw { stage, epoch, centre }) => {
                refused(8, Place::of(stage, Step::Splitting, epoch, centre))
            }
            Err(Refusal::NotFinite { stage, epoch, centre, step }) => {
                refused(9, Place::of(stage, step, epoch, centre))
            }
        }
    }

    /// Its number, and for an 8 or 9 the k-means and the step that it names.
    pub fn words(&self) -> String {
        let stage = if self.place.stage == 0 { "coarse" } else { "sub" };
        match self.number {
            8 => format!("8 {stage}"),
            9 => format!("9 {stage} {:?}", self.place.step()).to_lowercase(),
            number => number.to_string(),
        }
    }

    /// The outcome that it stands for.
    fn trained(self) -> Trained {
        let TrainAnswer { number, place, used } = self;
        let (stage, epoch, centre) = (place.stage(), place.epoch as usize, place.center as usize);
        let trained = match number {
            0 => Ok(used as u64),
            8 => Err(Refusal::NoDraw { stage, epoch, centre }),
            9 => Err(Refusal::NotFinite { stage, epoch, centre, step: place.step() }),
            _ => Err(Refusal::Input(number)),
        };
        assert_eq!(self, TrainAnswer::of(trained), "an answer that the header does not have");
        trained
    }
}

impl SearchAnswer {
    /// What the header has for an outcome.
    pub fn of(searched: Searched) -> SearchAnswer {
        match searched {
            Ok(Found { found, scored }) => {
                SearchAnswer { number: 0, found: found as usize, scored: scored as usize }
            }
            Err(number) => SearchAnswer { number, found: 0, scored: 0 },
        }
    }

    /// The outcome that it stands for.
    fn searched(self) -> Searched {
        let searched = match self.number {
            0 => Ok(Found { found: self.found as u64, scored: self.scored as u64 }),
            number => Err(number),
        };
        assert_eq!(self, SearchAnswer::of(searched), "an answer that the header does not have");
        searched
    }
}

/// The whole check's number for an outcome.
pub fn check_answer(checked: Checked) -> u32 {
    checked.err().unwrap_or(0)
}

/// The proved library.
pub struct Library;

impl Subject for Library {
    fn name(&self) -> &'static str {
        "library"
    }

    fn ranges(&self, d: usize, n_sub: usize) -> Result<Ranges, u32> {
        let mut list = [[0, 0]; 64];
        for (i, place) in list.iter_mut().enumerate() {
            let range = unsafe { bergrosk_range(d, n_sub, i) };
            if range.number != 0 {
                return Err(range.number);
            }
            *place = [range.begin, range.end];
        }
        Ok(list)
    }

    fn kmeans(&self) -> Option<fn(Kmeans) -> Trained> {
        None
    }

    #[rustfmt::skip]
    fn train_plain(&self, task: PlainTraining) -> Trained {
        let PlainParams { d, n_sub, sub_bits } = task.params;
        let answer = unsafe {
            bergrosk_plain_train(
                d, n_sub, sub_bits, task.epochs, task.n,
                task.rows.as_ptr(), task.rows.len(),
                task.draws.as_ptr(), task.draws.len(),
                task.sub_centres.as_mut_ptr(), task.sub_centres.len(),
                task.codes.as_mut_ptr(), task.codes.len(),
                task.work.as_mut_ptr(), task.work.len(),
            )
        };
        answer.trained()
    }

    #[rustfmt::skip]
    fn search_plain(&self, task: PlainSearch) -> Searched {
        let PlainParams { d, n_sub, sub_bits } = task.params;
        let answer = unsafe {
            bergrosk_plain_search(
                d, n_sub, sub_bits, task.n,
                task.query.as_ptr(), task.query.len(),
                task.mask.as_ptr(), task.mask.len(),
                task.sub_centres.as_ptr(), task.sub_centres.len(),
                task.codes.as_ptr(), task.codes.len(),
                task.rows.as_mut_ptr(), task.rows.len(),
                task.sums.as_mut_ptr(), task.sums.len(),
                task.table.as_mut_ptr(), task.table.len(),
            )
        };
        answer.searched()
    }

    #[rustfmt::skip]
    fn train_celled(&self, task: CelledTraining) -> Trained {
        let CelledParams { plain: PlainParams { d, n_sub, sub_bits }, cells, probes } = task.params;
        let answer = unsafe {
            bergrosk_celled_train(
                d, n_sub, sub_bits, cells, probes, task.epochs, task.n,
                task.rows.as_ptr(), task.rows.len(),
                task.draws.as_ptr(), task.draws.len(),
                task.coarse.as_mut_ptr(), task.coarse.len(),
                task.starts.as_mut_ptr(), task.starts.len(),
                task.members.as_mut_ptr(), task.members.len(),
                task.sub_centres.as_mut_ptr(), task.sub_centres.len(),
                task.codes.as_mut_ptr(), task.codes.len(),
                task.work.as_mut_ptr(), task.work.len(),
            )
        };
        answer.trained()
    }

    #[rustfmt::skip]
    fn search_celled(&self, task: CelledSearch) -> Searched {
        let CelledParams { plain: PlainParams { d, n_sub, sub_bits }, cells, probes } = task.params;
        let index = task.index;
        let answer = unsafe {
            bergrosk_celled_search(
                d, n_sub, sub_bits, cells, probes, task.n,
                task.query.as_ptr(), task.query.len(),
                task.mask.as_ptr(), task.mask.len(),
                index.coarse.as_ptr(), index.coarse.len(),
                index.starts.as_ptr(), index.starts.len(),
                index.members.as_ptr(), index.members.len(),
                index.sub_centres.as_ptr(), index.sub_centres.len(),
                index.codes.as_ptr(), index.codes.len(),
                task.rows.as_mut_ptr(), task.rows.len(),
                task.sums.as_mut_ptr(), task.sums.len(),
                task.table.as_mut_ptr(), task.table.len(),
            )
        };
        answer.searched()
    }

    #[rustfmt::skip]
    fn check_celled(&self, task: CelledCheck) -> Checked {
        let CelledParams { plain: PlainParams { d, n_sub, sub_bits }, cells, probes } = task.params;
        let index = task.index;
        let number = unsafe {
            bergrosk_celled_check(
                d, n_sub, sub_bits, cells, probes, task.n,
                index.coarse.as_ptr(), index.coarse.len(),
                index.starts.as_ptr(), index.starts.len(),
                index.members.as_ptr(), index.members.len(),
                index.sub_centres.as_ptr(), index.sub_centres.len(),
                index.codes.as_ptr(), index.codes.len(),
                task.work.as_mut_ptr(), task.work.len(),
            )
        };
        match number {
            0 => Ok(()),
            number => Err(number),
        }
    }
}
