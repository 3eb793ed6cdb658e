//! The example of FORMAT.md is a sheet, and gives what is said there.

mod common;

use common::{gradients, listed, printed, stored, text, told};

/// The text between a fence of that name and the next one.
fn block(name: &str) -> String {
    let page = text("sheet/FORMAT.md");
    let start = format!("\n```{name}\n");
    assert_eq!(page.matches(&start).count(), 1);
    let (_, rest) = page.split_once(&start).unwrap();
    rest.split("```").next().unwrap().to_string()
}

#[test]
fn the_example_prints_what_is_said() {
    let output = printed(&block("sheet"));
    assert!(output.starts_with(&block("printed")), "{output}");
}

/// What is said is what the original Rust gave.
#[test]
fn what_is_said_is_the_stored_step() {
    let outputs = stored("step", "as it stands");
    assert_eq!(listed(&block("printed"), "face flux"), outputs[7]);
    assert_eq!(listed(&block("printed"), "cell outflow"), outputs[8]);
}

/// The example as a gradient: without the fields that it has not.
fn example_of_a_gradient() -> String {
    let fields = [
        "velocity",
        "momentum-diagonal",
        "wall-flux",
        "pressure-correction",
    ];
    let example = block("sheet").replace("form step", "form gradient");
    let parts = example.split("\n\n");
    let kept = parts.filter(|part| !fields.iter().any(|field| part.starts_with(field)));
    kept.collect::<Vec<_>>().join("\n\n") + "\n"
}

/// Both edges along x of either cell have half of both pressures; along y 0.1 follows on -4, and 2 on -0.7.
#[test]
fn the_example_prints_the_gradients_that_are_said() {
    let output = printed(&example_of_a_gradient());
    assert_eq!(output, block("gradients"));
    let by_hand = [-4.0 + 0.1, -0.7 + 2.0].map(|y: f64| [0, y.to_bits(), 0]);
    assert_eq!(gradients(&output), by_hand);
}

#[test]
fn the_refusal_of_the_page_is_the_one_without_that_condition() {
    let sheet = block("sheet").replace("4-5  zero-gradient", "5  zero-gradient");
    let (output, _, status) = told(&["-"], &sheet);
    let page = text("sheet/FORMAT.md");
    for line in output.lines() {
        assert!(page.contains(&format!("\n    {line}\n")), "{line}");
    }
    assert_eq!(status, 3);
}
