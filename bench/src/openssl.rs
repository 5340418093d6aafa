//! SHA-256 of OpenSSL, where the command `openssl` is there, with the instructions that this processor has and without some of them.

use std::fs::read_to_string;
use std::process::Command;

/// What OpenSSL is told of the processor in OPENSSL_ia32cap(3), a mask of what to do without in each of its two words.
const ALL: &str = "~0:~0";
/// SHA is bit 29 of the second word.
const NO_SHA: &str = "~0:~0x20000000";
/// AVX2 is bit 5 there, and SSSE3 bit 41 of the first word.
const NO_VECTORS: &str = "~0x20000000000:~0x20000020";

/// Prints a table of speeds, in bytes a second: the library's, which is given for messages of two lengths, and OpenSSL's.
pub fn print(lengths: [(&str, usize); 2], library: [f64; 2]) {
    println!("{}", processor());
    println!();
    println!("| SHA-256, MB/s | {} | {} |", lengths[0].0, lengths[1].0);
    println!("|---|---:|---:|");
    line("library", library.map(Some));
    let Some(version) = version() else {
        return println!("\nOpenSSL is not installed.");
    };
    for (what, mask) in [("", ALL), (", SHA off", NO_SHA), (", SHA, AVX2 and SSSE3 off", NO_VECTORS)] {
        line(&format!("{version}{what}"), lengths.map(|(_, length)| speed(length, mask)));
    }
}

/// A line of the table, in millions of bytes a second.
fn line(name: &str, speeds: [Option<f64>; 2]) {
    let [first, second] = speeds.map(|speed| speed.map_or("not timed".into(), |speed| format!("{:.0}", speed / 1e6)));
    println!("| {name} | {first} | {second} |");
}

fn processor() -> &'static str {
    match read_to_string("/proc/cpuinfo") {
        Ok(text) if text.split_whitespace().any(|flag| flag == "sha_ni") => {
            "The processor has SHA instructions (sha_ni)."
        }
        Ok(_) => "The processor has no SHA instructions (sha_ni).",
        Err(_) => "Whether the processor has SHA instructions is not known.",
    }
}

/// The name and the number of OpenSSL's version, or none where it is not installed.
fn version() -> Option<String> {
    let output = Command::new("openssl").arg("version").output().ok()?;
    let output = String::from_utf8(output.stdout).ok()?;
    Some(output.split_whitespace().take(2).collect::<Vec<_>>().join(" "))
}

/// OpenSSL's bytes a second, over one second: the last number of its line `+F:25:sha256:462988670.71`.
fn speed(length: usize, mask: &str) -> Option<f64> {
    let output = Command::new("openssl")
        .args(["speed", "-elapsed", "-mr", "-seconds", "1", "-evp", "sha256", "-bytes", &length.to_string()])
        .env("OPENSSL_ia32cap", mask)
        .output()
        .ok()?;
    let output = String::from_utf8(output.stdout).ok()?;
    output.lines().find(|line| line.starts_with("+F:"))?.rsplit(':').next()?.parse().ok()
}
