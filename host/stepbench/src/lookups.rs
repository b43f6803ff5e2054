//! The lookup of a node by its number, as far as it can be timed alone. `/g_new` of -1 is refused right
//! before it (14), of a live number right behind one that finds (15), and of a number that is no node's,
//! with a target that is none either, right behind two that do not (17).

use super::State;
use crate::clock::least;
use crate::commands::{definition, done};
use independent::engine::packed;
use independent::{write, Call, Engine};
use std::cell::RefCell;

/// Tells of each size the mean over the synths, whose numbers are in no order along the table; a number
/// that is not there lies right behind a synth's.
pub fn measure() {
    println!();
    print!("{:44} {:>9}", "the lookup alone", "Rust");
    println!(" {:>9} {:>7}", "lookup", "ratio");
    for nodes in [8, 64, 256] {
        let numbers: Vec<i32> = (1..nodes).map(|synth| 2 * (synth * 101 % 256)).collect();
        let calls = |group: fn(i32) -> i32| -> Vec<Call> {
            let call = |&number: &i32| Call::new(4, [group(number), 1, number + 1, 0, 0], b"");
            numbers.iter().map(call).collect()
        };
        let refused = [
            (14, calls(|_| -1)),
            (15, calls(|number| number)),
            (17, calls(|number| number + 1)),
        ];
        let model = engine_of(&numbers);
        let state = RefCell::new(State::of(&model));
        let model = RefCell::new(model);
        let (model, state) = (&model, &state);
        let mut works: Vec<Box<dyn FnMut() + '_>> = Vec::new();
        for (refusal, calls) in &refused {
            works.push(Box::new(move || {
                for call in calls {
                    let command = call.command().expect("it is known");
                    let answer = model.borrow_mut().apply(&command, &mut []);
                    assert_eq!(packed(answer), *refusal);
                }
            }));
            works.push(Box::new(move || {
                for call in calls {
                    assert_eq!(state.borrow_mut().apply(call), *refusal);
                }
            }));
        }
        let times = least(works);
        for (what, at, lookups) in [("found", 2, 1), ("not found", 4, 2)] {
            let all = (lookups * numbers.len()) as f64;
            let [rust, proved] = [0, 1].map(|way| (times[at + way] - times[way]) / all);
            print!("{:44}", format!("{nodes} nodes, {what}"));
            println!(" {rust:>9.1} {proved:>9.1} {:>7.2}", proved / rust);
        }
    }
}

/// An engine with synths of these numbers below the root, in this order.
fn engine_of(numbers: &[i32]) -> Engine {
    let mut engine = Engine::new();
    let file = write(&[definition("small".to_string(), 1)]).bytes;
    done(&mut engine, &Call::new(1, [0; 5], &file));
    for &number in numbers {
        done(&mut engine, &Call::new(3, [number, 1, 0, 0, 0], b"small"));
    }
    engine
}
