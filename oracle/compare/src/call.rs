//! What the published files take, made from numbers: an agent, its parameters, and a call, with the time of many. The two
//! copies of them that are timed have each its own types, of the same names: so this is a macro, for a module of each.

/// The agents and calls of one copy of dodgy_3d, given by its name as a crate.
macro_rules! call_of {
    ($dodgy:ident) => {
        pub fn vector(numbers: &[f32]) -> $dodgy::Vec3 {
            $dodgy::Vec3::new(numbers[0], numbers[1], numbers[2])
        }

        pub fn agent(numbers: &[f32]) -> $dodgy::Agent {
            $dodgy::Agent {
                position: vector(&numbers[0..3]),
                velocity: vector(&numbers[3..6]),
                radius: numbers[$crate::case::RADIUS],
                avoidance_responsibility: numbers[$crate::case::RESPONSIBILITY],
            }
        }

        /// What the Simulator is told of a stored agent.
        pub fn parameters(record: &$crate::record::Record) -> $dodgy::AgentParameters {
            use $crate::record::{DISTANCE, GOAL, HORIZON, MARGIN, MAX_SPEED, OBSTACLE_HORIZON};
            $dodgy::AgentParameters {
                goal_point: vector(&record.numbers::<3>(GOAL)),
                max_speed: record.number(MAX_SPEED),
                obstacle_margin: match record.words[MARGIN] {
                    0 => $dodgy::SimulatorMargin::AgentRadius,
                    _ => $dodgy::SimulatorMargin::Distance(record.number(DISTANCE)),
                },
                time_horizon: record.number(HORIZON),
                obstacle_time_horizon: record.number(OBSTACLE_HORIZON),
            }
        }

        /// A call of the published function, made ready.
        pub struct Call {
            agent: $dodgy::Agent,
            neighbours: Vec<$dodgy::Agent>,
            preferred: $dodgy::Vec3,
            max_speed: f32,
            time_step: f32,
            options: $dodgy::AvoidanceOptions,
        }

        impl Call {
            pub fn of(case: &$crate::case::Case) -> Call {
                use $crate::case::{AGENT, HORIZON, MAX_SPEED, PREFERRED, TIME_STEP};
                Call {
                    agent: agent(&case.request),
                    neighbours: case.neighbours.chunks_exact(AGENT).map(agent).collect(),
                    preferred: vector(&case.vector(PREFERRED)),
                    max_speed: case.request[MAX_SPEED],
                    time_step: case.request[TIME_STEP],
                    options: $dodgy::AvoidanceOptions {
                        time_horizon: case.request[HORIZON],
                    },
                }
            }

            /// The neighbours in the form that the published function takes.
            pub fn borrowed(&self) -> Vec<std::borrow::Cow<'_, $dodgy::Agent>> {
                self.neighbours
                    .iter()
                    .map(std::borrow::Cow::Borrowed)
                    .collect()
            }

            pub fn velocity(
                &self,
                neighbours: &[std::borrow::Cow<'_, $dodgy::Agent>],
            ) -> $dodgy::Vec3 {
                self.agent.compute_avoiding_velocity(
                    neighbours,
                    self.preferred,
                    self.max_speed,
                    self.time_step,
                    &self.options,
                )
            }

            /// The bits of the velocity.
            pub fn answer(&self) -> [u32; 3] {
                let velocity = self.velocity(&self.borrowed());
                [velocity.x, velocity.y, velocity.z].map(f32::to_bits)
            }
        }

        /// Nanoseconds for so many passes over the calls.
        pub fn time(calls: &[Call], passes: u32) -> u64 {
            use std::hint::black_box;
            let calls: Vec<_> = calls.iter().map(|call| (call, call.borrowed())).collect();
            let start = std::time::Instant::now();
            for _ in 0..passes {
                for (call, neighbours) in &calls {
                    black_box(black_box(call).velocity(black_box(neighbours)));
                }
            }
            start.elapsed().as_nanos() as u64
        }
    };
}
pub(crate) use call_of;
