//! Holds SHA-256 of the library and of the model to what others publish and compute: the standard's examples, NIST's byte-oriented
//! messages in `tests/sha256`, and the program `sha256sum` on seeded messages; and to each other at every length from 0 to 300.

use ota_tests::ffi;
use ota_tests::rng::Rng;
use ota_tests::sha256;
use std::fmt::Write as _;
use std::path::{Path, PathBuf};
use std::process::Command;
use std::{env, fs};

const SEED: u64 = 20_260_101;

fn main() {
    let examples = standard_examples();
    let messages = short_and_long_messages();
    let chains = monte_carlo();
    let lengths = every_length();
    let (files, bytes) = beside_sha256sum();
    println!(
        "sha256: library and model give the standard's {examples} examples, NIST's {messages} messages and {chains} chains of 1,000, \
         the same on {lengths} messages of 0 to 300 bytes, and what sha256sum gives on {files} of {bytes} bytes in all"
    );
}

/// The digest that both give.
fn digest(message: &[u8]) -> [u8; 32] {
    let mut library = [0xA5; 32];
    assert_eq!(ffi::sha256(message, &mut library), 0, "a message of {} bytes", message.len());
    let model = sha256::digest(message);
    assert!(library == model, "a message of {} bytes: {} and {}", message.len(), hex(&library), hex(&model));
    library
}

/// The examples of FIPS 180-4, one million `a` and the empty message.
fn standard_examples() -> usize {
    let two_blocks = b"abcdbcdecdefdefgefghfghighijhijkijkljklmklmnlmnomnopnopq";
    let million = vec![b'a'; 1_000_000];
    let examples = [
        (&b""[..], "e3b0c44298fc1c149afbf4c8996fb92427ae41e4649b934ca495991b7852b855"),
        (b"abc", "ba7816bf8f01cfea414140de5dae2223b00361a396177a9cb410ff61f20015ad"),
        (two_blocks, "248d6a61d20638b8e5c026930c3e6039a33ce45964ff2167f6ecedd419db06c1"),
        (&million, "cdc76e5c9914fb9281a1c7e284d73e67f1809a48a497200e046d39ccc7112cd0"),
    ];
    for (message, expected) in examples {
        assert_eq!(hex(&digest(message)), expected, "a message of {} bytes", message.len());
    }
    examples.len()
}

/// The values of one field in a file of NIST's, in order.
fn field(text: &str, name: &str) -> Vec<String> {
    let start = format!("{name} = ");
    text.lines().filter_map(|line| line.strip_prefix(&start)).map(String::from).collect()
}

fn published(name: &str) -> String {
    let file = Path::new(env!("CARGO_MANIFEST_DIR")).join("sha256").join(name);
    fs::read_to_string(&file).unwrap_or_else(|error| panic!("{}: {error}", file.display()))
}

/// Every length from 0 to 64 bytes, and 64 lengths up to 6,400.
fn short_and_long_messages() -> usize {
    let mut count = 0;
    for (name, expected) in [("SHA256ShortMsg.rsp", 65), ("SHA256LongMsg.rsp", 64)] {
        let text = published(name);
        let [lengths, messages, digests] = ["Len", "Msg", "MD"].map(|name| field(&text, name));
        assert_eq!([lengths.len(), messages.len(), digests.len()], [expected; 3], "{name}");
        for ((bits, message), expected) in lengths.iter().zip(&messages).zip(&digests) {
            let bits: usize = bits.parse().expect("a number of bits");
            let message = &unhex(message)[..bits / 8];
            assert_eq!(hex(&digest(message)), *expected, "{name}, {bits} bits");
        }
        count += expected;
    }
    count
}

/// NIST's Monte Carlo test: from a seed on, each message is the last three digests, and the thousandth digest is the next seed.
fn monte_carlo() -> usize {
    let text = published("SHA256Monte.rsp");
    let mut seed: [u8; 32] = unhex(&field(&text, "Seed")[0]).try_into().expect("a seed of 32 bytes");
    let digests = field(&text, "MD");
    assert_eq!(digests.len(), 100);
    for expected in &digests {
        let mut last = [seed; 3];
        for _ in 0..1_000 {
            last = [last[1], last[2], digest(last.as_flattened())];
        }
        seed = last[2];
        assert_eq!(hex(&seed), *expected, "Monte Carlo test");
    }
    digests.len()
}

/// Zeros, FF and random bytes, the last from each of eight places on.
fn every_length() -> usize {
    let mut rng = Rng::new(SEED);
    let mut count = 0;
    for length in 0..=300 {
        let mut random = vec![0; length + 7];
        rng.fill(&mut random);
        digest(&vec![0; length]);
        digest(&vec![0xFF; length]);
        for place in 0..8 {
            digest(&random[place..][..length]);
        }
        count += 10;
    }
    count
}

/// The lengths of the messages for `sha256sum`: all up to 130, those about a multiple of a block, and long ones.
fn lengths(rng: &mut Rng) -> Vec<usize> {
    let mut lengths: Vec<usize> = (0..=130).collect();
    for blocks in [3, 4, 15, 16, 63, 64, 1_023, 1_024, 16_384] {
        lengths.extend([-9, -8, -1, 0, 1].map(|more| (64 * blocks + more) as usize));
    }
    lengths.extend((0..40).map(|_| rng.below(100_000)));
    lengths.extend([1 << 21, (3 << 20) + 55, (5 << 20) + 56, (8 << 20) - 1]);
    lengths
}

/// A folder that is gone when it is dropped.
struct Folder(PathBuf);

impl Drop for Folder {
    fn drop(&mut self) {
        let _ = fs::remove_dir_all(&self.0);
    }
}

/// Writes the messages to files, lets one call of `sha256sum` read them, and compares. Gives their number and bytes.
fn beside_sha256sum() -> (usize, usize) {
    let mut rng = Rng::new(SEED);
    let lengths = lengths(&mut rng);
    let folder = Folder(env::temp_dir().join(format!("sha256-{}", std::process::id())));
    fs::create_dir_all(&folder.0).expect("a folder for the messages");
    let mut expected = String::new();
    for (number, length) in lengths.iter().enumerate() {
        let mut message = vec![0; *length];
        rng.fill(&mut message);
        fs::write(folder.0.join(number.to_string()), &message).expect("a message is written");
        let _ = writeln!(expected, "{}  {number}", hex(&digest(&message)));
    }
    let names = (0..lengths.len()).map(|number| number.to_string());
    let output = Command::new("sha256sum").args(names).current_dir(&folder.0).output().expect("sha256sum runs");
    assert!(output.status.success(), "sha256sum: {}", String::from_utf8_lossy(&output.stderr));
    let printed = String::from_utf8(output.stdout).expect("sha256sum prints text");
    for ((ours, theirs), length) in expected.lines().zip(printed.lines()).zip(&lengths) {
        assert_eq!(ours, theirs, "a message of {length} bytes: ours, and sha256sum's");
    }
    assert_eq!(expected, printed, "what sha256sum prints");
    (lengths.len(), lengths.iter().sum())
}

fn hex(bytes: &[u8]) -> String {
    bytes.iter().fold(String::new(), |mut text, byte| {
        let _ = write!(text, "{byte:02x}");
        text
    })
}

fn unhex(text: &str) -> Vec<u8> {
    let digits = text.as_bytes().chunks_exact(2).map(|pair| std::str::from_utf8(pair).expect("two digits"));
    digits.map(|pair| u8::from_str_radix(pair, 16).expect("two digits")).collect()
}
