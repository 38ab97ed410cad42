//! One call through the core and the fast version, each compared with the literal one; what is built
//! is checked and run.

use fir_tests::answer::{Answer, ACCEPTED};
use fir_tests::building::call::{Builder, Built, Call, Outcome};
use fir_tests::building::literal::{self, Step};
use fir_tests::building::search::Search;
use fir_tests::building::{core, fast};
use fir_tests::network::{self, MINUS, PLUS, REVERSED};
use fir_tests::refusals::Refusals;
use fir_tests::running::call::{Call as Run, Memory};
use fir_tests::running::literal::Stream;
use fir_tests::running::{self, REGISTERS};

const BUILDERS: [(&str, Builder); 2] = [("core", core::build), ("fast", fast::build)];
const SAMPLES: [i16; 11] = [1, 2, -32768, 32767, 0, -1, 12345, -32768, -777, 3, 32767];

/// What came up, counted by the literal version.
#[derive(Default, Debug)]
pub struct Tally {
    pub accepted: usize,
    pub taps: usize,
    pub rows: usize,
    pub most_rows: usize,
    /// Odd parts that had a row, rows found by the search with each sign, and chains.
    pub existing: usize,
    pub searched: [usize; 3],
    pub chains: usize,
    /// Chains that met rows.
    pub met: usize,
    /// Rows with shift 31, and rows whose shifted left row is past 2^31.
    pub farthest: usize,
    pub large: usize,
    pub refusals: Refusals,
}

impl Tally {
    fn accept(&mut self, built: &Built, steps: &[Step]) {
        self.accepted += 1;
        self.taps += built.taps.len();
        self.rows += built.rows.len();
        self.most_rows = self.most_rows.max(built.rows.len());
        let often = |kind: fn(&Step) -> bool| steps.iter().filter(|step| kind(step)).count();
        self.existing += often(|step| *step == Step::Existing);
        self.chains += often(|step| matches!(step, Step::Chain(_)));
        self.met += often(|step| matches!(step, Step::Chain(1..)));
        for step in steps {
            if let Step::Searched(sign) = step {
                let which = [PLUS, MINUS, REVERSED].iter().position(|one| one == sign);
                self.searched[which.unwrap()] += 1;
            }
        }
        for [left, _, shift, ..] in &built.rows {
            let lifted = (built.rows[*left as usize][4] as u64) << shift;
            self.farthest += (*shift == 31) as usize;
            self.large += (lifted > 1 << 31) as usize;
        }
    }
}

/// The literal version's result, which the others share.
pub fn check(call: &Call, search: Search, tally: &mut Tally) -> Result<Built, Answer> {
    let listings = literal::listings(call);
    let result = literal::built(call, &listings, search);
    match &result {
        Ok((built, steps)) => tally.accept(built, steps),
        Err(_) => tally.refusals.count(&literal::refusals(call, &listings)),
    }
    let result = result.map(|(built, _)| built);
    let wanted = call.wanted(&result);
    for (name, builder) in BUILDERS {
        let given = call.clone();
        let outcome = given.run(builder);
        let differs = || outcome.differs(&wanted);
        assert!(given == *call, "{name}: input changed, {call:?}");
        assert!(outcome == wanted, "{name}: {}, {call:?}", differs());
    }
    if result.is_ok() {
        check_network(call, &wanted);
    }
    result
}

/// What was built keeps the rules, has the coefficients, and filters as they do.
fn check_network(call: &Call, outcome: &Outcome) {
    let coefficients = &call.coefficients;
    let network = outcome.network(coefficients.len());
    assert_eq!(network::core::check(&network), ACCEPTED, "{call:?}");
    let given = network::literal::coefficients(&network, false);
    assert_eq!(given.as_ref(), Ok(coefficients), "{call:?}");
    let mut memory = Memory::new(&[0; REGISTERS]);
    let mut stream = Stream::new(&[0; REGISTERS]);
    let run = Run::new(&network, &SAMPLES);
    let outputs = stream.outputs(coefficients, &SAMPLES);
    let wanted = run.wanted(ACCEPTED, &outputs);
    assert_eq!(run.run(running::core::run, &mut memory), wanted, "{call:?}");
    let registers = stream.registers(coefficients);
    assert_eq!(memory.registers(), registers, "{call:?}");
}
