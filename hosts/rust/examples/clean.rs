//! From steps to a form to a cleaned scan: `cargo run --example clean`.

use stackfilter::{clean, compile, count, offsets, recipe, write, Refusal, Step};

fn main() -> Result<(), Refusal> {
    let terms = compile(&recipe(&[Step::Signal, Step::Median(offsets(&[-1, 0, 1]))]))?;
    println!("the median of three has the terms {terms:?}");

    let scan = [10, 10, 90, 10, 10];
    println!("{scan:?} cleaned is {:?}", clean(&terms, &scan)?);
    println!("its scan file counts as {:?}", count(&write(&terms, &scan)?)?);

    let refusal = clean(&[24, 16], &scan).unwrap_err();
    println!("refused {} {}: {refusal}", refusal.number(), refusal.place());
    Ok(())
}
