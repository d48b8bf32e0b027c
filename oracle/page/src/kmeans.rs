//! Document 01, "k-means, on one range, with or without a residual", step by step.

use seat::{Kmeans, Refusal, Stage, Step, Trained};

/// The rows given to one k-means, and how a coordinate's value is read from them.
pub struct Points<'a> {
    pub d: usize,
    pub rows: &'a [f32],
    pub members: &'a [u32],
    pub begin: usize,
    pub end: usize,
    pub residual: Option<&'a [f32]>,
}

impl Points<'_> {
    /// The number of rows given.
    fn n(&self) -> usize {
        self.members.len()
    }

    /// The number of coordinates of the range.
    pub fn width(&self) -> usize {
        self.end - self.begin
    }

    /// The value at coordinate j of the range, of the row at a place of the list: x, or x − residual.
    fn value(&self, place: usize, j: usize) -> f32 {
        let x = self.rows[self.members[place] as usize * self.d + self.begin + j];
        match self.residual {
            Some(residual) => x - residual[self.begin + j],
            None => x,
        }
    }

    /// All values of the row at a place of the list.
    fn values(&self, place: usize) -> Vec<f32> {
        (0..self.width()).map(|j| self.value(place, j)).collect()
    }
}

/// The lent draws, and how many of them are used.
pub struct Draws<'a> {
    lent: &'a [f64],
    pub used: usize,
}

impl<'a> Draws<'a> {
    /// None used yet.
    pub fn new(lent: &'a [f64]) -> Self {
        Draws { lent, used: 0 }
    }

    /// The next draw, if one is left.
    fn next(&mut self) -> Option<f64> {
        let draw = *self.lent.get(self.used)?;
        self.used += 1;
        Some(draw)
    }
}

/// A k-means by itself, over its own lent buffers.
pub fn alone(task: Kmeans) -> Trained {
    let points = Points {
        d: task.d,
        rows: task.rows,
        members: task.members,
        begin: task.begin,
        end: task.end,
        residual: task.residual,
    };
    let mut draws = Draws::new(task.draws);
    match train(&points, Stage::Coarse, task.epochs, &mut draws, task.centres, task.n_center) {
        Ok(assigned) => {
            task.assigned.copy_from_slice(&assigned);
            Ok(draws.used as u64)
        }
        Err(refusal) => {
            task.centres.fill(0.0);
            task.assigned.fill(0);
            Err(refusal)
        }
    }
}

/// The whole k-means: start, the epochs, and the last assignment, which is the answer.
pub fn train(
    points: &Points,
    stage: Stage,
    epochs: usize,
    draws: &mut Draws,
    centres: &mut [f32],
    n_center: usize,
) -> Result<Vec<u32>, Refusal> {
    let mut run = Run { points, stage, epoch: 0, n_center, centres };
    run.start()?;
    for epoch in 1..=epochs {
        run.epoch = epoch;
        let assigned = run.assign();
        let counts = run.average(&assigned)?;
        if epoch < epochs {
            run.split(counts, draws)?;
        }
    }
    Ok(run.assign())
}

/// Step 2: the distance of two lists of coordinates. No root.
pub fn distance(values: &[f32], centre: &[f32]) -> f32 {
    let mut sum = 0.0;
    for (value, c) in values.iter().zip(centre) {
        let d = value - c;
        sum += d * d;
    }
    sum
}

/// Step 3, for one row: the nearest centre, the earlier one if equal.
pub fn nearest(values: &[f32], centres: &[f32]) -> u32 {
    let mut best = 0;
    let mut least = f32::INFINITY;
    for (i, centre) in centres.chunks_exact(values.len()).enumerate() {
        let rival = distance(values, centre);
        if rival < least {
            best = i;
            least = rival;
        }
    }
    best as u32
}

/// A k-means under way; `epoch` is 0 at start and counts from 1.
struct Run<'a> {
    points: &'a Points<'a>,
    stage: Stage,
    epoch: usize,
    n_center: usize,
    centres: &'a mut [f32],
}

impl Run<'_> {
    /// Centre i.
    fn centre(&mut self, i: usize) -> &mut [f32] {
        let width = self.points.width();
        &mut self.centres[i * width..(i + 1) * width]
    }

    /// The test for 9 of one centre, naming the centre `named`.
    fn test_finite(&mut self, i: usize, named: usize, step: Step) -> Result<(), Refusal> {
        if self.centre(i).iter().all(|c| c.is_finite()) {
            return Ok(());
        }
        Err(Refusal::NotFinite { stage: self.stage, epoch: self.epoch, centre: named, step })
    }

    /// Step 1: every centre is the mean, one more or one less at each coordinate.
    fn start(&mut self) -> Result<(), Refusal> {
        let mut mean = vec![0.0; self.points.width()];
        for place in 0..self.points.n() {
            for (j, sum) in mean.iter_mut().enumerate() {
                *sum += self.points.value(place, j);
            }
        }
        for m in mean.iter_mut() {
            *m /= self.points.n() as f32;
        }
        for i in 0..self.n_center {
            for (j, c) in self.centre(i).iter_mut().enumerate() {
                let up = i % 2 == 1 && j % 64 == 0;
                *c = if up { mean[j] + 1.0 } else { mean[j] - 1.0 };
            }
            self.test_finite(i, i, Step::Start)?;
        }
        Ok(())
    }

    /// Step 3: the nearest centre of every row.
    fn assign(&self) -> Vec<u32> {
        let nearest_of = |place| nearest(&self.points.values(place), self.centres);
        (0..self.points.n()).map(nearest_of).collect()
    }

    /// Step 4: every centre becomes the mean of its rows; the answer is the counts.
    fn average(&mut self, assigned: &[u32]) -> Result<Vec<usize>, Refusal> {
        let mut counts = vec![0; self.n_center];
        self.centres.fill(0.0);
        for (place, &i) in assigned.iter().enumerate() {
            counts[i as usize] += 1;
            for j in 0..self.points.width() {
                let value = self.points.value(place, j);
                self.centre(i as usize)[j] += value;
            }
        }
        for (i, &count) in counts.iter().enumerate() {
            if count != 0 {
                for c in self.centre(i) {
                    *c /= count as f32;
                }
            }
            self.test_finite(i, i, Step::Averaging)?;
        }
        Ok(counts)
    }

    /// Step 5: every empty centre, rising, takes half of a donor.
    fn split(&mut self, mut counts: Vec<usize>, draws: &mut Draws) -> Result<(), Refusal> {
        for i in 0..self.n_center {
            if counts[i] != 0 {
                continue;
            }
            let donor = self.donor(i, &counts, draws)?;
            self.part(i, donor);
            counts[i] = counts[donor] / 2;
            counts[donor] -= counts[i];
            self.test_finite(i, i, Step::Splitting)?;
            self.test_finite(donor, i, Step::Splitting)?;
        }
        Ok(())
    }

    /// The donor walk for the empty centre i: one draw for each centre tried.
    fn donor(&self, i: usize, counts: &[usize], draws: &mut Draws) -> Result<usize, Refusal> {
        let mut donor = (i + 1) % self.n_center;
        loop {
            let Some(draw) = draws.next() else {
                return Err(Refusal::NoDraw { stage: self.stage, epoch: self.epoch, centre: i });
            };
            if draw < counts[donor] as f64 / self.points.n() as f64 {
                return Ok(donor);
            }
            donor = (donor + 1) % self.n_center;
        }
    }

    /// The empty centre and its donor step apart, by one part in 1024 either way.
    fn part(&mut self, empty: usize, donor: usize) {
        let less = 1.0 - 1.0 / 1024.0;
        let more = 1.0 + 1.0 / 1024.0;
        for j in 0..self.points.width() {
            let whole = self.centre(donor)[j];
            let (to_empty, to_donor) = if j % 2 == 0 { (less, more) } else { (more, less) };
            self.centre(empty)[j] = whole * to_empty;
            self.centre(donor)[j] = whole * to_donor;
        }
    }
}
