//! Document 01, "Search": what the plain and the celled search share.

use seat::{Found, PlainParams, BLANK_ROW};

use super::kmeans::distance;
use super::ranges::pairs;

/// A candidate: a sum and a row number.
pub struct Candidate {
    pub sum: f32,
    pub row: u32,
}

/// A worked distance that is finite; one that is not refuses the search with 11.
pub fn finite(worked: f32) -> Result<f32, u32> {
    if worked.is_finite() {
        Ok(worked)
    } else {
        Err(11)
    }
}

/// One cell as search sees it; the plain index is one cell of all rows.
pub struct Listed<'a> {
    pub params: PlainParams,
    pub members: &'a [u32],
    pub mask: &'a [u8],
    pub codes: &'a [u8],
    pub sub_centres: &'a [f32],
}

impl Listed<'_> {
    /// Its visible rows, in list order.
    fn visible(&self) -> impl Iterator<Item = u32> + '_ {
        self.members.iter().copied().filter(|&row| self.mask[row as usize] != 0)
    }

    /// The codes of a row, in sub-space order.
    fn code(&self, row: u32) -> &[u8] {
        &self.codes[row as usize * self.params.n_sub..][..self.params.n_sub]
    }

    /// Step 3: members below n and strictly rising, visible rows' codes below K.
    pub fn undamaged(&self, n: usize) -> Result<(), u32> {
        let k = 1 << self.params.sub_bits;
        let rising = self.members.windows(2).all(|pair| pair[0] < pair[1]);
        let below = self.members.iter().all(|&row| (row as usize) < n);
        if !rising || !below {
            return Err(10);
        }
        if self.visible().any(|row| self.code(row).iter().any(|&c| c as usize >= k)) {
            return Err(10);
        }
        Ok(())
    }

    /// Step 4: the distances from the query, less the coarse centre, to every sub-centre.
    fn fill_table(&self, target: &[f32], table: &mut [f32]) -> Result<(), u32> {
        let k = 1 << self.params.sub_bits;
        let ranges = pairs(self.params.d, self.params.n_sub);
        for (sub, [begin, end]) in ranges.into_iter().enumerate() {
            let stretch = &self.sub_centres[k * begin..k * end];
            for (i, centre) in stretch.chunks_exact(end - begin).enumerate() {
                table[sub * k + i] = finite(distance(&target[begin..end], centre))?;
            }
        }
        Ok(())
    }

    /// Step 5, for one row: the sum of its entries, in sub-space order.
    fn row_sum(&self, row: u32, table: &[f32]) -> Result<f32, u32> {
        let mut sum = 0.0;
        for (sub, &c) in self.code(row).iter().enumerate() {
            sum += table[(sub << self.params.sub_bits) + c as usize];
        }
        finite(sum)
    }

    /// Steps 4 and 5: the visible rows become candidates, in list order.
    pub fn score(
        &self,
        target: &[f32],
        table: &mut [f32],
        candidates: &mut Vec<Candidate>,
    ) -> Result<(), u32> {
        if self.visible().next().is_none() {
            return Ok(());
        }
        self.fill_table(target, table)?;
        for row in self.visible() {
            candidates.push(Candidate { sum: self.row_sum(row, table)?, row });
        }
        Ok(())
    }
}

/// What a search that passed tests 1 to 7 leaves: the table zero; the first k of the ordered list in
/// the results and the other places blank; all blank in a refusal.
pub fn conclude(
    outcome: Result<Vec<Candidate>, u32>,
    table: &mut [f32],
    rows: &mut [u32],
    sums: &mut [f32],
) -> Result<Found, u32> {
    table.fill(0.0);
    rows.fill(BLANK_ROW);
    sums.fill(0.0);
    let mut candidates = outcome?;
    candidates.sort_by(|a, b| a.sum.total_cmp(&b.sum).then(a.row.cmp(&b.row)));
    for (place, candidate) in candidates.iter().take(rows.len()).enumerate() {
        rows[place] = candidate.row;
        sums[place] = candidate.sum;
    }
    let found = candidates.len().min(rows.len());
    Ok(Found { found: found as u64, scored: candidates.len() as u64 })
}
