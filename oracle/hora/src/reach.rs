//! A child module of the Rust's `pq_idx`, which may therefore read the private fields of an index.
//! It only reads, and calls the Rust's own distance on a range; but for the number of probes, which
//! it can set, as the Rust does when it makes an index.

use super::{IVFPQIndex, PQIndex};
use crate::core::node::Node;

/// The ranges, begin and end.
pub fn ranges(index: &PQIndex<f32, usize>) -> &[Vec<usize>] {
    &index._dimension_range
}

/// The sub-centres: by sub-space, centre and coordinate.
pub fn sub_centres(index: &PQIndex<f32, usize>) -> &[Vec<Vec<f32>>] {
    &index._centers
}

/// The codes: by sub-space, then by the row's place in the index.
pub fn codes(index: &PQIndex<f32, usize>) -> &[Vec<usize>] {
    &index._assigned_center
}

/// The distances from a query to every sub-centre, in the order of the table.
pub fn table(index: &PQIndex<f32, usize>, query: &Node<f32, usize>) -> Vec<f32> {
    let mut table = Vec::new();
    for (centres, range) in index._centers.iter().zip(&index._dimension_range) {
        for centre in centres {
            table.push(index.get_distance_from_vec_range(query, centre, range[0], range[1]));
        }
    }
    table
}

/// The coarse centres.
pub fn coarse_centres(index: &IVFPQIndex<f32, usize>) -> &[Vec<f32>] {
    &index._centers
}

/// The distances from a query to every coarse centre.
pub fn coarse_distances(index: &IVFPQIndex<f32, usize>, query: &Node<f32, usize>) -> Vec<f32> {
    let distance =
        |centre: &Vec<f32>| index.get_distance_from_vec_range(query, centre, 0, index._dimension);
    index._centers.iter().map(distance).collect()
}

/// The row numbers of each cell.
pub fn lists(index: &IVFPQIndex<f32, usize>) -> &[Vec<usize>] {
    &index._ivflist
}

/// The plain index of each cell.
pub fn cells(index: &IVFPQIndex<f32, usize>) -> &[PQIndex<f32, usize>] {
    &index._pq_list
}

/// Sets the number of cells that a search probes.
pub fn set_probes(index: &mut IVFPQIndex<f32, usize>, probes: usize) {
    index._search_n_center = probes;
}
