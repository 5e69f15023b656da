//! One of all structured mutations, at both sides of every rule.

use super::plan::Plan;
use super::random::Random;
use super::{edf_keys, fields, gaps, origins, shapes};

/// A change of a plan; none where it does not fit.
pub type Mutation = fn(&mut Random, &mut Plan) -> Option<()>;

/// Those around gaps are drawn more often than others.
const MUTATIONS: [Mutation; 46] = [
    gaps::before, gaps::between, gaps::between, gaps::after, gaps::after, gaps::no_block, gaps::before_and_fault, gaps::before_and_fault,
    gaps::window, gaps::window, gaps::ignored, gaps::white_data,
    shapes::stop, shapes::close, shapes::no_statement, shapes::long, shapes::again, shapes::crowd,
    edf_keys::number, edf_keys::identity, edf_keys::version, edf_keys::first_keys, edf_keys::external, edf_keys::length,
    edf_keys::boundary, edf_keys::header_size, edf_keys::extent, edf_keys::same_identity, edf_keys::many, edf_keys::count,
    edf_keys::late, edf_keys::blocks, edf_keys::whole_length, fields::word, fields::dim, fields::four_dims,
    fields::configuration, fields::offset, fields::short_data, fields::long_text, fields::missing,
    origins::handed_over, origins::in_both, origins::written_default, origins::dims_apart, origins::not_inherited,
];

/// Draws until a mutation fits the plan.
pub fn mutate(random: &mut Random, plan: &mut Plan) {
    while !plan.blocks.is_empty() {
        let mutation = random.pick(&MUTATIONS);
        if mutation(random, plan).is_some() {
            return;
        }
    }
}
