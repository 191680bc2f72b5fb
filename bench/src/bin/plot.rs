//! `plot` reads what `measure ROUNDS` printed and writes a bar chart (SVG):
//! time as a part of the second program's, with the lowest and highest tenth.

#![forbid(unsafe_code)]

use std::io::{self, BufRead};

const WIDTH: f64 = 400.0;
const LEFT: f64 = 150.0;

struct Bar {
    label: String,
    median: f64,
    low: f64,
    high: f64,
}

fn bar(line: &str) -> Option<Bar> {
    let words: Vec<&str> = line.split(' ').collect();
    let &[lines, reader, median, low, high] = &words[..] else { return None };
    let number = |word: &str| word.parse().ok();
    let named = match reader {
        "library" => "proved library",
        "peer" => "Rust program",
        "bytes" => "one pass, byte by byte",
        _ => "one pass, wide",
    };
    let label = format!("{named}, {lines}");
    Some(Bar { label, median: number(median)?, low: number(low)?, high: number(high)? })
}

fn draw(bar: &Bar, y: f64) {
    let x = |value: f64| LEFT + value * WIDTH;
    let colour = if bar.label.starts_with("proved") { "#2a6f4e" } else { "#9aa5b1" };
    println!("<text x=\"{}\" y=\"{}\" text-anchor=\"end\">{}</text>", LEFT - 6.0, y + 11.0, bar.label);
    println!(
        "<rect x=\"{LEFT}\" y=\"{y}\" width=\"{}\" height=\"14\" fill=\"{colour}\"/>",
        bar.median * WIDTH
    );
    println!(
        "<line x1=\"{}\" x2=\"{}\" y1=\"{m}\" y2=\"{m}\" stroke=\"#222\"/>",
        x(bar.low),
        x(bar.high),
        m = y + 7.0
    );
    println!("<text x=\"{}\" y=\"{}\">{:.2}</text>", x(bar.high.max(bar.median)) + 5.0, y + 11.0, bar.median);
}

fn main() {
    let bars: Vec<Bar> = io::stdin().lock().lines().map_while(Result::ok).filter_map(|line| bar(&line)).collect();
    let height = 40.0 + 20.0 * bars.len() as f64;
    println!(
        "<svg xmlns=\"http://www.w3.org/2000/svg\" width=\"640\" height=\"{height}\" \
         font-family=\"sans-serif\" font-size=\"11\">"
    );
    println!("<rect width=\"640\" height=\"{height}\" fill=\"#fff\"/>");
    println!("<text x=\"8\" y=\"18\">Time for a month-end file, as a part of the Rust program's (number: lines an item)</text>");
    for (place, bar) in bars.iter().enumerate() {
        draw(bar, 30.0 + 20.0 * place as f64);
    }
    println!("</svg>");
}
