//! A start for a program in Rust: the worked examples of document 01 that need one neighbour, and three
//! refusals. A refusal can be displayed too: it then says why, and what to do about it.
//! examples/run builds it and compares what it prints with examples/stdout.
use guineacrumb::{
    root, roots, scratch_length, velocity, version, Agent, Refusal, Request, Velocity,
    MOST_NEIGHBOURS,
};

/// One more than a call takes.
const TOO_MANY: usize = MOST_NEIGHBOURS + 1;

fn show(name: &str, request: &Request, neighbours: &[Agent]) {
    let mut scratch = [0.0; scratch_length(TOO_MANY)];
    let Velocity {
        velocity: [x, y, z],
        relaxed,
        unseen,
    } = match velocity(request, neighbours, &mut scratch) {
        Ok(velocity) => velocity,
        Err(Refusal { number, place }) => {
            println!("{name}: refused, {number} at {place}");
            return;
        }
    };
    print!("{name}: velocity {x} {y} {z}, ");
    match relaxed {
        None => print!("free"),
        Some(plane) => print!("relaxed from plane {plane}"),
    }
    if let Some(neighbour) = unseen {
        print!(", neighbour {neighbour} NOT AVOIDED");
    }
    println!();
}

fn main() {
    let [_, major, minor, patch] = version().to_be_bytes();
    assert_eq!(
        format!("{major}.{minor}.{patch}"),
        env!("CARGO_PKG_VERSION"),
        "the crate is of another version than the library"
    );

    println!("the root of 2: {:08x}", root(2.0).to_bits());
    let numbers = roots([0.0, 1.0, 2.0, 3.0, 4.0, 5.0, 6.0, 7.0]);
    let words = numbers.map(|x| format!("{:08x}", x.to_bits()));
    println!("the roots of 0 to 7: {}", words.join(" "));

    let still = Agent {
        position: [0.0; 3],
        velocity: [0.0; 3],
        radius: 1.0,
        responsibility: 1.0,
    };
    let mut request = Request {
        agent: still,
        preferred: [0.0; 3],
        max_speed: 2.0,
        time_step: 0.5,
        horizon: 2.0,
        fallback: [0.0, 0.0, 1.0],
    };
    let mut neighbour = Agent {
        position: [4.0, 0.0, 0.0],
        ..still
    };
    for preferred in [0.5, 1.0, 1.5, 4.0] {
        request.preferred[0] = preferred;
        show("a neighbour ahead", &request, &[neighbour]);
    }

    request.preferred[0] = 0.0;
    request.max_speed = 1.0;
    neighbour.position[0] = 0.0;
    show("a neighbour at the same place", &request, &[neighbour]);

    request.time_step = 0.0;
    show("a time step of 0", &request, &[neighbour]);

    request.time_step = 1.0;
    show("too many neighbours", &request, &[still; TOO_MANY]);

    // Flying at a neighbour head-on, past where it can be turned from.
    let fast = Request {
        agent: Agent {
            velocity: [10.0, 0.0, 0.0],
            radius: 2.0,
            ..still
        },
        preferred: [10.0, 0.0, 0.0],
        max_speed: 10.0,
        time_step: 0.5,
        horizon: 1.0,
        fallback: [0.0, 0.0, 1.0],
    };
    let ahead = Agent {
        position: [5.0, 0.0, 0.0],
        ..still
    };
    show("a neighbour head-on", &fast, &[ahead]);

    // Two neighbours at the same place, one of them far too fast.
    request.horizon = 1.0;
    request.agent.velocity[1] = 1.0;
    request.fallback = [1.0, 0.0, 0.0];
    let point = Agent {
        radius: 0.0,
        responsibility: 0.0,
        ..still
    };
    let quick = Agent {
        velocity: [0.0, 0.0, 4.7157917e22],
        ..point
    };
    show("a bad pair of bounds", &request, &[point, quick]);
}
