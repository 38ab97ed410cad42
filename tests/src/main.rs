//! Times the core beside the fast versions, in one run and on the same input. A benchmark, no test.

mod bench;

fn main() {
    println!(
        "A benchmark, no test. Nanoseconds, best of {}.",
        bench::REPETITIONS
    );
    println!("All versions run on the same input, in turns. No call is inlined. Tables are not");
    println!("cleared between calls, so each call writes over the results of the last.");
    println!(
        "\nTaps to coefficients at F = {}, a tap",
        bench::taps::FRACTION_BITS
    );
    bench::taps::run();
    println!("\nMinimal forms");
    bench::forms::run();
    println!(
        "\nWeights of {} forms, a call, best of {}",
        bench::weights::FORMS,
        bench::weights::REPETITIONS
    );
    bench::weights::run();
    println!("\nPlanes, a call, best of {}", bench::planes::REPETITIONS);
    bench::planes::run();
    println!("\nNetworks");
    bench::network::run();
    println!("\nBuilding, with the first forms");
    bench::building::run();
    println!(
        "\nBuilding, set by set: a call with the first forms, best of {}",
        bench::sweep::REPETITIONS
    );
    bench::sweep::run();
    println!(
        "\nRunning, each call best of {}; a call checks its network",
        bench::running::REPETITIONS
    );
    bench::running::run();
    println!("\nVerilog, each call into an area for the largest text");
    bench::verilog::run();
}
