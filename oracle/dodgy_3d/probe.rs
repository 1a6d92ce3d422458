//! What the comparison asks of linear_programming.rs's private functions.
use super::*;

impl Plane {
    /// The plane at which the 3D program of `solve_linear_program` fails, from which the answer is then
    /// relaxed; none where it is feasible.
    pub fn failed_index(planes: &[Plane], radius: f32, preferred: Vec3) -> Option<usize> {
        match solve_linear_program_3d(planes, radius, &OptimalValue::Point(preferred)) {
            LinearProgram3DResult::Feasible(_) => None,
            LinearProgram3DResult::Infeasible {
                index_of_failed_line,
                ..
            } => Some(index_of_failed_line),
        }
    }
}
