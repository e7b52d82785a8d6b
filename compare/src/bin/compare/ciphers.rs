//! The model's ciphers against published vectors, the `openssl` command and the program `vectors`.

use std::io::Write;
use std::path::Path;
use std::process::{Command, Output, Stdio};

use model::cipher::{chacha20, words, SipKey};
use model::dock::hex;

use crate::rng::Rng;
use crate::Outcome;

/// How many random inputs each cipher gets.
const TRIALS: usize = 40;

/// RFC 8439, section 2.3.2.
const BLOCK: &str = "10f1e7e4d13b5915500fdd1fa32071c4c7d1f4c733c068030422aa9ac3d46c4e\
                     d2826446079faa0914c2d705d98b02a2b5129cd1de164eb9cbd083e8a2503c4e";

/// The front of the reference list: the hashes of the messages of 0, 1, 2 … rising bytes.
const HASHES: [&str; 9] = [
    "310e0edd47db6f72",
    "fd67dc93c539f874",
    "5a4fa9d909806c0d",
    "2d7efbd796666785",
    "b7877127e09427cf",
    "8da699cd64557618",
    "cee3fe586e46c9cb",
    "37d1018bf50002ab",
    "6224939a79f5f593",
];

struct BlockInput {
    key: Vec<u8>,
    counter: u32,
    nonce: Vec<u8>,
}

impl BlockInput {
    fn random(rng: &mut Rng) -> Self {
        let counter = if rng.percent(20) { rng.pick(&[0, u32::MAX]) } else { rng.word() as u32 };
        BlockInput { key: rng.bytes(32), counter, nonce: rng.bytes(12) }
    }

    fn block(&self) -> String {
        let block = chacha20(&words(&self.key), self.counter, &words(&self.nonce));
        block.iter().map(|word| hex(&word.to_le_bytes())).collect()
    }

    fn block_of_openssl(&self) -> Outcome<String> {
        let start = hex(&self.counter.to_le_bytes()) + &hex(&self.nonce);
        let mut command = Command::new("openssl");
        command.args(["enc", "-chacha20", "-K", &hex(&self.key), "-iv", &start]);
        Ok(hex(&fed(command, &[0; 64])?.stdout))
    }
}

struct HashInput {
    key: [u8; 16],
    message: Vec<u8>,
}

impl HashInput {
    fn random(rng: &mut Rng) -> Self {
        let key = rng.bytes(16).try_into().expect("16 bytes");
        let len = if rng.percent(30) { 60 } else { rng.below(130) };
        HashInput { key, message: rng.bytes(len) }
    }

    /// Hashed in two parts, as a tag is.
    fn hash(&self) -> String {
        let (front, rest) = self.message.split_at(self.message.len().min(4));
        hex(&SipKey::new(&self.key).hash(front, rest).to_le_bytes())
    }

    fn hash_of_openssl(&self) -> Outcome<String> {
        let mut command = Command::new("openssl");
        let key = format!("hexkey:{}", hex(&self.key));
        command.args(["mac", "-macopt", &key, "-macopt", "size:8", "SIPHASH"]);
        let output = fed(command, &self.message)?;
        Ok(String::from_utf8_lossy(&output.stdout).trim().to_lowercase())
    }
}

/// Runs a command on this input; fails where it fails.
fn fed(mut command: Command, input: &[u8]) -> Outcome<Output> {
    let output = fed_any(&mut command, input)?;
    if !output.status.success() {
        let said = String::from_utf8_lossy(&output.stderr).into_owned();
        return Err(format!("{command:?} ended with {}: {said}", output.status).into());
    }
    Ok(output)
}

fn fed_any(command: &mut Command, input: &[u8]) -> Outcome<Output> {
    let piped = command.stdin(Stdio::piped()).stdout(Stdio::piped()).stderr(Stdio::piped());
    let mut child = piped.spawn()?;
    child.stdin.take().expect("a pipe").write_all(input)?;
    Ok(child.wait_with_output()?)
}

fn same(what: &str, ours: &str, theirs: &str) -> Outcome<()> {
    if ours == theirs {
        return Ok(());
    }
    Err(format!("{what} differs\n  model:  {ours}\n  theirs: {theirs}").into())
}

/// Checks both ciphers; `vectors` is the program of that name.
pub fn check(rng: &mut Rng, vectors: Option<&Path>) -> Outcome<()> {
    check_published()?;
    let blocks: Vec<_> = (0..TRIALS).map(|_| BlockInput::random(rng)).collect();
    let hashes: Vec<_> = (0..TRIALS).map(|_| HashInput::random(rng)).collect();
    if Command::new("openssl").arg("version").output().is_ok_and(|output| output.status.success()) {
        for input in &blocks {
            same("a ChaCha20 block of openssl", &input.block(), &input.block_of_openssl()?)?;
        }
        for input in &hashes {
            same("a SipHash-2-4 of openssl", &input.hash(), &input.hash_of_openssl()?)?;
        }
        println!("ciphers: {TRIALS} random blocks and {TRIALS} random hashes agree with openssl");
    } else {
        println!("ciphers: no openssl here; the published vectors agree");
    }
    match vectors {
        Some(program) => check_program(program, &blocks, &hashes),
        None => Ok(()),
    }
}

fn check_published() -> Outcome<()> {
    let rising: Vec<u8> = (0..32).collect();
    let nonce = vec![0, 0, 0, 9, 0, 0, 0, 0x4a, 0, 0, 0, 0];
    let input = BlockInput { key: rising.clone(), counter: 1, nonce };
    same("the block of RFC 8439", &input.block(), BLOCK)?;
    let key = *rising.first_chunk().expect("16 bytes");
    for (len, hash) in HASHES.iter().enumerate() {
        let input = HashInput { key, message: rising[..len].to_vec() };
        same("a SipHash-2-4 of the reference list", &input.hash(), hash)?;
    }
    Ok(())
}

/// The program agrees with the model's answers, and does not with a wrong one.
fn check_program(program: &Path, blocks: &[BlockInput], hashes: &[HashInput]) -> Outcome<()> {
    let mut lines = String::new();
    for input in blocks {
        let (key, nonce) = (hex(&input.key), hex(&input.nonce));
        lines += &format!("chacha20 {key} {} {nonce} {}\n", input.counter, input.block());
    }
    for input in hashes {
        let message = if input.message.is_empty() { "-".into() } else { hex(&input.message) };
        lines += &format!("siphash {} {message} {}\n", hex(&input.key), input.hash());
    }
    fed(Command::new(program), lines.as_bytes())?;
    let wrong = format!("siphash {} - 0000000000000000\n", "00".repeat(16));
    if fed_any(&mut Command::new(program), wrong.as_bytes())?.status.success() {
        return Err("the program vectors agrees with a wrong hash".into());
    }
    println!("ciphers: the program vectors agrees on the same inputs");
    Ok(())
}
