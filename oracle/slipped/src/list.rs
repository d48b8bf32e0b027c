//! The slips: document 01's plausible ones first, then more of the kind that a port makes. Each is
//! one or a few edits of one file of the page.

/// A slip, and how it is planted.
pub struct Slip {
    /// What goes wrong.
    pub says: &'static str,
    /// The page's file that is edited.
    pub file: &'static str,
    /// Text, and what takes its place.
    pub edits: &'static [(&'static str, &'static str)],
    /// Where no input can show it: why.
    pub same_because: Option<&'static str>,
}

/// A slip that must be seen.
const fn slip(
    says: &'static str,
    file: &'static str,
    edits: &'static [(&'static str, &'static str)],
) -> Slip {
    Slip { says, file, edits, same_because: None }
}

/// All slips.
pub const SLIPS: &[Slip] = &[
    slip(
        "an empty centre kept at its old place instead of zero",
        "kmeans.rs",
        &[
            (
                "        self.centres.fill(0.0);\n",
                "        let old = self.centres.to_vec();\n        self.centres.fill(0.0);\n",
            ),
            (
                "            self.test_finite(i, i, Step::Averaging)?;\n",
                "            let width = self.points.width();
            if count == 0 {
                self.centre(i).copy_from_slice(&old[i * width..(i + 1) * width]);
            }
            self.test_finite(i, i, Step::Averaging)?;\n",
            ),
        ],
    ),
    slip(
        "no draw used for a donor of count 0",
        "kmeans.rs",
        &[(
            "            let Some(draw) = draws.next() else {\n",
            "            if counts[donor] == 0 {
                donor = (donor + 1) % self.n_center;
                continue;
            }
            let Some(draw) = draws.next() else {\n",
        )],
    ),
    slip(
        "a split in the last epoch",
        "kmeans.rs",
        &[("if epoch < epochs {", "if epoch <= epochs {")],
    ),
    slip("<= in assignment", "kmeans.rs", &[("if rival < least {", "if rival <= least {")]),
    slip(
        "a row's place in its cell returned as its row number",
        "search.rs",
        &[(
            "candidates.push(Candidate { sum: self.row_sum(row, table)?, row });",
            "let place = self.members.iter().position(|&m| m == row).unwrap() as u32;
            candidates.push(Candidate { sum: self.row_sum(row, table)?, row: place });",
        )],
    ),
    slip(
        "a hidden row's code refuses the search",
        "search.rs",
        &[(
            "if self.visible().any(|row| self.code(row)",
            "if self.members.iter().any(|&row| self.code(row)",
        )],
    ),
    slip(
        "a hidden row's sum refuses the search",
        "search.rs",
        &[(
            "        for row in self.visible() {
            candidates.push(Candidate { sum: self.row_sum(row, table)?, row });",
            "        let k = 1 << self.params.sub_bits;
        let coded = |row: u32| self.code(row).iter().all(|&c| (c as usize) < k);
        for row in self.members.iter().copied().filter(|&row| coded(row)) {
            let sum = self.row_sum(row, table)?;
            if self.mask[row as usize] != 0 {
                candidates.push(Candidate { sum, row });
            }",
        )],
    ),
    slip(
        "the factors of even and odd coordinates changed about",
        "kmeans.rs",
        &[(
            "if j % 2 == 0 { (less, more) } else { (more, less) }",
            "if j % 2 == 0 { (more, less) } else { (less, more) }",
        )],
    ),
    slip(
        "the donor walk begins at the empty centre",
        "kmeans.rs",
        &[("let mut donor = (i + 1) % self.n_center;", "let mut donor = i;")],
    ),
    slip(
        "the count split the other way",
        "kmeans.rs",
        &[("counts[i] = counts[donor] / 2;", "counts[i] = counts[donor] - counts[donor] / 2;")],
    ),
    slip(
        "a sum begun from the first row instead of +0.0",
        "kmeans.rs",
        &[(
            "                self.centre(i as usize)[j] += value;\n",
            "                let first = counts[i as usize] == 1;
                let sum = self.centre(i as usize)[j];
                self.centre(i as usize)[j] = if first { value } else { sum + value };\n",
        )],
    ),
    Slip {
        says: "the division left out for a count of 1",
        file: "kmeans.rs",
        edits: &[("            if count != 0 {\n", "            if count > 1 {\n")],
        same_because: Some("x / 1 is x, bit for bit, for every x"),
    },
    slip(
        "ties by the higher row",
        "search.rs",
        &[("then(a.row.cmp(&b.row))", "then(b.row.cmp(&a.row))")],
    ),
    slip(
        "cells at equal distance by the higher cell",
        "celled.rs",
        &[("then(a.1.cmp(&b.1))", "then(b.1.cmp(&a.1))")],
    ),
    slip(
        "the residual left out in search",
        "celled.rs",
        &[("map(|(q, c)| q - c)", "map(|(q, _)| *q)")],
    ),
    slip(
        "the residual left out in training",
        "celled.rs",
        &[(
            "let residual = Some(&task.coarse[number * plain.d..(number + 1) * plain.d]);",
            "let residual = None;",
        )],
    ),
    slip(
        "the first cell's centre as the residual of all",
        "celled.rs",
        &[(
            "let residual = Some(&task.coarse[number * plain.d..(number + 1) * plain.d]);",
            "let residual = Some(&task.coarse[..plain.d]);",
        )],
    ),
    slip(
        "draws begun anew for every cell",
        "celled.rs",
        &[(
            "        cell.train(draws, sub_centres, task.codes)?;\n",
            "        draws.used = 0;\n        cell.train(draws, sub_centres, task.codes)?;\n",
        )],
    ),
    slip(
        "lists that fall",
        "celled.rs",
        &[(
            "in cell_of_row.iter().enumerate().filter(",
            "in cell_of_row.iter().enumerate().rev().filter(",
        )],
    ),
    slip(
        "a refused celled training leaves its outputs",
        "celled.rs",
        &[("if trained.is_err() {", "if false {")],
    ),
    slip(
        "the first probed cell scored and the others left out",
        "celled.rs",
        &[(
            "    for &cell in &probed {\n        let centre",
            "    for &cell in &probed[..1] {\n        let centre",
        )],
    ),
    slip(
        "the first cell's sub-centres for all in search",
        "celled.rs",
        &[(
            "&index.sub_centres[cell * length..(cell + 1) * length]",
            "&index.sub_centres[..length]",
        )],
    ),
    slip(
        "the remainder of the ranges taken by n_sub",
        "ranges.rs",
        &[("let e = d % s;", "let e = d % n_sub;")],
    ),
    slip(
        "the shift at start not wrapped at 64",
        "kmeans.rs",
        &[("i % 2 == 1 && j % 64 == 0", "i % 2 == 1 && j == 0")],
    ),
    slip(
        "the bits at start read as they were meant",
        "kmeans.rs",
        &[("i % 2 == 1 && j % 64 == 0", "(i >> (j % 64)) & 1 == 1")],
    ),
    slip(
        "a draw equal to count/n taken",
        "kmeans.rs",
        &[("if draw < counts[donor]", "if draw <= counts[donor]")],
    ),
    slip(
        "count/n in f32",
        "kmeans.rs",
        &[(
            "counts[donor] as f64 / self.points.n() as f64",
            "(counts[donor] as f32 / self.points.n() as f32) as f64",
        )],
    ),
    slip(
        "a filled centre's donor keeps its whole count",
        "kmeans.rs",
        &[("            counts[donor] -= counts[i];\n", "")],
    ),
    slip(
        "draws begun anew for every sub-space",
        "plain.rs",
        &[(
            "            let assigned = kmeans::train(",
            "            draws.used = 0;\n            let assigned = kmeans::train(",
        )],
    ),
    slip(
        "codes by place in the cell instead of by row number",
        "plain.rs",
        &[(
            "for (&row, centre) in self.members.iter().zip(assigned) {",
            "for (row, centre) in assigned.into_iter().enumerate() {",
        )],
    ),
    slip(
        "the last epoch's assignment in place of the last assignment",
        "kmeans.rs",
        &[
            ("    run.start()?;\n", "    run.start()?;\n    let mut last = run.assign();\n"),
            (
                "        let assigned = run.assign();\n",
                "        let assigned = run.assign();\n        last = assigned.clone();\n",
            ),
            ("    Ok(run.assign())\n", "    Ok(last)\n"),
        ],
    ),
    slip(
        "the distance summed in f64",
        "kmeans.rs",
        &[(
            "        sum += d * d;\n    }\n    sum\n",
            "        sum += d as f64 * d as f64;\n    }\n    sum as f32\n",
        )],
    ),
    slip(
        "the distance with its root",
        "kmeans.rs",
        &[("    }\n    sum\n}", "    }\n    f32::sqrt(sum)\n}")],
    ),
    slip(
        "product and sum of the distance rounded once",
        "kmeans.rs",
        &[("sum += d * d;", "sum = d.mul_add(d, sum);")],
    ),
    slip(
        "the mean by a reciprocal",
        "kmeans.rs",
        &[("*c /= count as f32;", "*c *= 1.0 / count as f32;")],
    ),
    slip(
        "scored counts only what was returned",
        "search.rs",
        &[("scored: candidates.len() as u64", "scored: found as u64")],
    ),
    slip(
        "coarse distances over the covered coordinates only",
        "celled.rs",
        &[(
            "distance(query, centre)",
            "distance(&query[..covered(params.plain.d, params.plain.n_sub)], centre)",
        )],
    ),
    slip(
        "one cell probed too few",
        "celled.rs",
        &[("take(params.probes)", "take(params.probes.max(2) - 1)")],
    ),
    slip(
        "an empty cell's sub-centres not written",
        "celled.rs",
        &[("            sub_centres.fill(0.0);\n            continue;", "            continue;")],
    ),
    slip(
        "a refused training leaves its outputs",
        "plain.rs",
        &[("if trained.is_err() {", "if false {")],
    ),
    slip("work left as it was lent", "plain.rs", &[("    task.work.fill(0);\n", "")]),
    slip("the table left as it was worked", "search.rs", &[("    table.fill(0.0);\n", "")]),
    slip(
        "a table entry that no row uses not tested",
        "search.rs",
        &[(
            "= finite(distance(&target[begin..end], centre))?;",
            "= distance(&target[begin..end], centre);",
        )],
    ),
    slip(
        "an infinite distance refused in training",
        "kmeans.rs",
        &[(
            "        let assigned = run.assign();\n",
            "        let assigned = run.assign();
        for (place, &i) in assigned.iter().enumerate() {
            let centre = run.centre(i as usize).to_vec();
            if !distance(&points.values(place), &centre).is_finite() {
                let centre = i as usize;
                return Err(Refusal::NotFinite { stage, epoch, centre, step: Step::Averaging });
            }
        }\n",
        )],
    ),
];
