//! Measures the forms' ratio and application: as the static library of `forms_c` has them, beside the same operations in
//! plain Rust. Both sides have one signature and are called by the same code, through a function pointer.
use std::hint::black_box;
use std::process::ExitCode;
use std::time::Instant;

mod operands;
mod plain;

use operands::{Operands, Random};

/// An answer of either form: the lower and the upper end, or the centre and the radius.
#[repr(C)]
#[derive(Clone, Copy, PartialEq, Eq, Debug)]
pub struct Answer {
    pub refused: bool,
    pub first: i64,
    pub second: i64,
}

unsafe extern "C" {
    safe fn ends_ratio(p: i64, q: i64) -> Answer;
    safe fn ends_apply(factor_low: i64, factor_high: i64, low: i64, high: i64) -> Answer;
    safe fn centre_ratio(p: i64, q: i64) -> Answer;
    safe fn centre_apply(
        factor_centre: i64,
        factor_radius: i64,
        centre: i64,
        radius: i64,
    ) -> Answer;
}

type Ratio = unsafe extern "C" fn(i64, i64) -> Answer;
type Apply = unsafe extern "C" fn(i64, i64, i64, i64) -> Answer;

#[derive(Clone, Copy)]
enum Call {
    Ratio(Ratio),
    Apply(Apply),
}

struct Row {
    name: &'static str,
    library: Call,
    plain: Call,
    operands: Vec<Operands>,
}

const OPERANDS: usize = 4096;
const ROUNDS: usize = 1001;

/// The library may take this many times as long as plain Rust.
const LIMIT: f64 = 1.2;

fn rows() -> Vec<Row> {
    let row = |name, [library, plain]: [Call; 2], operands| Row {
        name,
        library,
        plain,
        operands,
    };
    let ends_apply = [Call::Apply(ends_apply), Call::Apply(plain::ends::apply)];
    let ends_ratio = [Call::Ratio(ends_ratio), Call::Ratio(plain::ends::ratio)];
    let centre_apply = [Call::Apply(centre_apply), Call::Apply(plain::centre::apply)];
    let centre_ratio = [Call::Ratio(centre_ratio), Call::Ratio(plain::centre::ratio)];
    vec![
        row(
            "ends apply, usual",
            ends_apply,
            operands::usual_ends(OPERANDS),
        ),
        row("ends apply, any", ends_apply, operands::any_ends(OPERANDS)),
        row(
            "ends ratio, usual",
            ends_ratio,
            operands::usual_ratios(OPERANDS),
        ),
        row(
            "ends ratio, any",
            ends_ratio,
            operands::any_ratios(OPERANDS),
        ),
        row(
            "centre apply, usual",
            centre_apply,
            operands::centre::usual(OPERANDS),
        ),
        row(
            "centre apply, any",
            centre_apply,
            operands::centre::any(OPERANDS),
        ),
        row(
            "centre ratio, usual",
            centre_ratio,
            operands::usual_ratios(OPERANDS),
        ),
        row(
            "centre ratio, any",
            centre_ratio,
            operands::any_ratios(OPERANDS),
        ),
    ]
}

fn answer(call: Call, o: &Operands) -> Answer {
    // SAFETY: the library's functions and the plain ones take any numbers.
    unsafe {
        match call {
            Call::Ratio(f) => f(o[0], o[1]),
            Call::Apply(f) => f(o[0], o[1], o[2], o[3]),
        }
    }
}

fn folded(sum: i64, a: Answer) -> i64 {
    sum.wrapping_add(a.first ^ a.second.rotate_left(32) ^ i64::from(a.refused))
}

#[inline(never)]
fn ratios(f: Ratio, operands: &[Operands]) -> i64 {
    let mut sum = 0;
    for o in operands {
        // SAFETY: as above.
        sum = folded(sum, unsafe { f(o[0], o[1]) });
    }
    sum
}

#[inline(never)]
fn applications(f: Apply, operands: &[Operands]) -> i64 {
    let mut sum = 0;
    for o in operands {
        // SAFETY: as above.
        sum = folded(sum, unsafe { f(o[0], o[1], o[2], o[3]) });
    }
    sum
}

/// Nanoseconds per call, over all the operands once.
fn timed(call: Call, operands: &[Operands]) -> f64 {
    let start = Instant::now();
    black_box(match black_box(call) {
        Call::Ratio(f) => ratios(f, black_box(operands)),
        Call::Apply(f) => applications(f, black_box(operands)),
    });
    start.elapsed().as_nanos() as f64 / operands.len() as f64
}

fn median(mut numbers: Vec<f64>) -> f64 {
    numbers.sort_by(f64::total_cmp);
    numbers[numbers.len() / 2]
}

/// The number of refused answers, or the first operands at which the two sides differ.
fn compared(row: &Row) -> Result<usize, String> {
    let mut refused = 0;
    for o in &row.operands {
        let library = answer(row.library, o);
        let plain = answer(row.plain, o);
        if library != plain {
            return Err(format!(
                "{}: at {o:?} the library has {library:?}, and plain Rust {plain:?}",
                row.name
            ));
        }
        refused += usize::from(library.refused);
    }
    Ok(refused)
}

fn main() -> ExitCode {
    let mut rows = rows();
    let mut refused = Vec::new();
    for row in &rows {
        match compared(row) {
            Ok(n) => refused.push(n),
            Err(difference) => {
                eprintln!("{difference}");
                return ExitCode::FAILURE;
            }
        }
    }
    println!("equal answers on all operands, {OPERANDS} for each line");
    println!(
        "{:<22}{:>9}{:>13}{:>11}{:>8}",
        "", "refused", "library ns", "plain ns", "ratio"
    );
    // Each round has the operands in a new order, so that no branch can be learned by heart. The rounds go over all lines,
    // and the sides take turns at being first: a load on the machine then meets every line and both sides.
    let mut random = Random::new(0);
    let mut times = vec![(Vec::new(), Vec::new(), Vec::new()); rows.len()];
    for round in 0..ROUNDS {
        for (row, (library, plain, ratio)) in rows.iter_mut().zip(&mut times) {
            random.shuffle(&mut row.operands);
            let (l, p) = if round % 2 == 0 {
                let l = timed(row.library, &row.operands);
                (l, timed(row.plain, &row.operands))
            } else {
                let p = timed(row.plain, &row.operands);
                (timed(row.library, &row.operands), p)
            };
            library.push(l);
            plain.push(p);
            ratio.push(l / p);
        }
    }
    let mut slow = Vec::new();
    for ((row, refused), (library, plain, ratio)) in rows.iter().zip(refused).zip(times) {
        let (library, plain, ratio) = (median(library), median(plain), median(ratio));
        println!(
            "{:<22}{refused:>9}{library:>13.2}{plain:>11.2}{ratio:>8.2}",
            row.name
        );
        if ratio > LIMIT {
            slow.push(row.name);
        }
    }
    if !slow.is_empty() {
        println!("above {LIMIT}: {}", slow.join("; "));
        return ExitCode::FAILURE;
    }
    println!("no ratio is above {LIMIT}");
    ExitCode::SUCCESS
}
