//! Calls each function of the library from safe Rust, and prints what it answers.
use nekhvozu::{add, batch, fused, multiply, sum, Arrangement, Figure, Refusal};

const fn figure(s: i32, q: i32) -> Figure {
    Figure { s, q }
}

fn show(call: &str, answer: Result<Figure, Refusal>) {
    match answer {
        Ok(figure) => println!("{call}: {} {}", figure.s, figure.q),
        Err(Refusal(number)) => println!("{call}: refused, {number}"),
    }
}

fn show_batch(call: &str, by: Arrangement, text: &[u8], report_size: usize) {
    let mut report = [b'.'; 256];
    let done = batch(by, text, &mut report[..report_size]);
    let status = done.stopped.map_or(0, |refusal| refusal.0.get());
    let used = done.lines.len();
    println!("{call}: rows {}, bytes {used}, status {status}", done.rows);
    print!("{}", String::from_utf8_lossy(done.lines));
    for (i, byte) in report.iter().enumerate().skip(used) {
        if *byte != b'.' {
            println!("byte {i} of the report was changed");
        }
    }
}

const ZERO: Figure = figure(0, 0);
const ONE: Figure = figure(8388608, -23);
const FIRST: Figure = figure(8388609, -23);
const SECOND: Figure = figure(8388610, -23);
const LARGE: Figure = figure(16777215, 0);
const NEAR: Figure = figure(8388610, -2);
const NEARER: Figure = figure(8388609, -2);

const HEAT: &[u8] = b"sum 8388609p-23 8388609p-23 0p0 0p0\n\
    sum 8388610p-23 8388608p-23 0p0 0p0\n\
    det 8388609p-23 8388608p-23 8388610p-23 8388609p-23\n\
    det 8388610p-23 8388609p-23 8388609p-23 8388608p-23\n";

fn main() {
    use Arrangement::{Binary, Decimal, Symmetric};

    show("multiply, binary", multiply(Binary, figure(12582912, -23), FIRST));
    show("multiply, decimal", multiply(Decimal, figure(1500000, -6), figure(1000001, -6)));
    show("multiply past the range", multiply(Binary, figure(8388608, 1000), figure(8388608, 978)));
    show("multiply what is no figure", multiply(Binary, ONE, figure(1000000, -6)));
    show("add, binary", add(Binary, LARGE, figure(8388608, -24)));
    show("add, decimal", add(Decimal, figure(1000000, 0), figure(-1000000, 0)));
    show("fused, binary", fused(Binary, FIRST, FIRST, figure(-8388610, -23)));
    show("fused, symmetric", fused(Symmetric, SECOND, ONE, figure(-8388610, -23)));
    show("sum, binary", sum(Binary, LARGE, NEAR, LARGE, NEARER));
    show("sum, symmetric", sum(Symmetric, LARGE, NEAR, LARGE, NEARER));
    show("sum of what is no figure", sum(Binary, ZERO, figure(0, 1), figure(8388608, 201), ZERO));
    show("sum past the range", sum(Binary, ZERO, ONE, figure(8388608, 201), figure(0, 1)));

    show_batch("batch, binary", Binary, HEAT, 256);
    show_batch("batch, decimal", Decimal, b"read 0\nsum 0p0 0p0 0p0 0p0", 256);
    show_batch("batch, symmetric", Symmetric, b"sum 16777215p0 8388610p-2 16777215p0 8388609p-2\n", 64);
    show_batch("batch without a row", Binary, b"", 0);
    show_batch("batch with little room", Binary, b"restart 0\nrestart 0\n", 67);
    show_batch("batch of a long text", Binary, &[b'x'; 65537], 256);
}
