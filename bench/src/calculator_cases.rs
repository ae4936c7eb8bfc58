//! The rows of the calculator: a thousand lines over memory.
use crate::calculator;
use crate::calls::p3_speed_calculator;
use crate::table::Case;

/// A thousand lines over a field: values put, computed with, and one in ten shown.
fn lines(field: &str) -> String {
    let mut text = format!("field {field}\n");
    for i in 0..111 {
        let c = |k: u64| (i * 7 + k * 5 + 1) % 16 + 1;
        text += &format!("put 0 {} {} {} {}\n", c(0), c(1), c(2), c(3));
        text += &format!("put 1 {} {} {} {}\n", c(4), c(5), c(6), c(7));
        text += "mul 2 0 1\nadd 3 2 0\nsq 4 3\nmul 5 4 2\ninv 6 1\nmul 7 6 0\nshow 7\n";
    }
    text
}

/// A number that depends on each byte.
fn mixed(sum: u64, bytes: &[u8]) -> u64 {
    bytes.iter().fold(sum, |sum, b| sum.wrapping_mul(31).wrapping_add(*b as u64))
}

/// Runs the proved calculator; how many bytes it wrote.
fn library(input: &[u8], output: &mut [u8]) -> usize {
    unsafe { p3_speed_calculator(input.as_ptr(), input.len(), output.as_mut_ptr(), output.len()) }
}

/// The row of a field.
fn case(field: &str) -> Case {
    let input = lines(field).leak().as_bytes();
    Case::new(
        format!("calculator over {field}, a line"),
        1000,
        move |rounds| {
            let mut output = vec![0; 1 << 13];
            let mut sum = 0;
            for _ in 0..rounds {
                let count = library(input, &mut output);
                sum = mixed(sum, &output[..count]);
            }
            sum
        },
        move |rounds| {
            let mut sum = 0;
            for _ in 0..rounds {
                sum = mixed(sum, &calculator::run(input));
            }
            sum
        },
    )
}

/// All rows of the calculator.
pub fn cases() -> Vec<Case> {
    vec![case("f17x4"), case("bbx4")]
}
