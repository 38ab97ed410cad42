//! Calls of the core, the plain loop and the fast version, each on memory of its own, compared with
//! the literal sums after every call.

use fir_tests::answer::{Answer, ACCEPTED};
use fir_tests::running::call::{Call, Memory, Runner};
use fir_tests::running::literal::{self, Stream};
use fir_tests::running::{core, fast, plain};

const RUNNERS: [(&str, Runner); 3] = [
    ("core", core::run),
    ("plain", plain::run),
    ("fast", fast::run),
];

/// What came up, counted by the literal version.
#[derive(Default, Debug)]
pub struct Tally {
    pub accepted: usize,
    pub samples: usize,
    /// Accepted calls with no sample.
    pub idle: usize,
    pub refused: [usize; 12],
    /// Refused calls that lent a part of the registers, and accepted ones that lent more.
    pub part: usize,
    pub more: usize,
}

/// One set of registers for each runner, and the sums that they are compared with.
pub struct Registers {
    stream: Stream,
    wanted: Memory,
    memory: [Memory; RUNNERS.len()],
}

impl Registers {
    pub fn new(content: &[u64]) -> Self {
        let memory = Memory::new(content);
        Registers {
            stream: Stream::new(content),
            wanted: memory.clone(),
            memory: RUNNERS.map(|_| memory.clone()),
        }
    }

    /// What the registers hold becomes the first content; from here on the network may be another.
    pub fn begin_again(&mut self) {
        self.stream = Stream::new(self.wanted.registers());
    }

    /// One call; gives its outputs, none where it is refused.
    pub fn call(&mut self, call: &Call, tally: &mut Tally) -> Result<Vec<i64>, Answer> {
        let result = literal::coefficients(call).map(|h| {
            let outputs = self.stream.outputs(&h, &call.samples);
            self.wanted.set(&self.stream.registers(&h));
            outputs
        });
        let wanted = match &result {
            Ok(outputs) => call.wanted(ACCEPTED, outputs),
            Err(refusal) => call.wanted(*refusal, &[]),
        };
        for ((name, runner), memory) in RUNNERS.into_iter().zip(&mut self.memory) {
            let given = call.clone();
            let outcome = given.run(runner, memory);
            assert!(given == *call, "{name}: input changed, {call:?}");
            assert_eq!(outcome, wanted, "{name}: {call:?}");
            assert_eq!(*memory, self.wanted, "{name}: {call:?}");
        }
        tally.count(call, &result);
        result
    }
}

impl Tally {
    fn count(&mut self, call: &Call, result: &Result<Vec<i64>, Answer>) {
        match result {
            Ok(outputs) => {
                self.accepted += 1;
                self.samples += outputs.len();
                self.idle += outputs.is_empty() as usize;
                self.more += (call.registers > 256) as usize;
            }
            Err(refusal) => {
                self.refused[refusal.refusal as usize] += 1;
                self.part += (0 < call.registers && call.registers < 256) as usize;
            }
        }
    }
}
