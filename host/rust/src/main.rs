//! Holds the entry of the archive against that of the second program: every answer
//! and every byte of the output, on random calls of all kinds from a fixed seed.

mod boundary;
mod call;
mod tally;

use call::Call;
use second::random::Random;
use std::process::ExitCode;
use tally::Tally;

const CALLS: usize = 400_000;
const SEED: u64 = 1;

/// Bytes before and behind the output that must stand.
const MARGIN: usize = 32;

fn main() -> ExitCode {
    match compare() {
        Ok(tally) => {
            println!(
                "host: {CALLS} calls, {} done and {} refused, all as the second program answers",
                tally.done(),
                tally.refused()
            );
            ExitCode::SUCCESS
        }
        Err(difference) => {
            eprintln!("host: {difference}");
            ExitCode::FAILURE
        }
    }
}

fn compare() -> Result<Tally, String> {
    let mut random = Random::seeded(SEED);
    let mut tally = Tally::default();
    for number in 0..CALLS {
        let call = Call::random(&mut random);
        let margin = random.bytes(MARGIN);
        let wanted = second_program(&call, &margin);
        let given = archive(&call, &margin);
        if given != wanted {
            return Err(difference(number, &call, &given, &wanted));
        }
        tally.count(&call, given.answer);
    }
    tally.check()?;
    Ok(tally)
}

/// The answer, and the output with its margins as they are afterwards.
#[derive(PartialEq, Eq)]
struct Outcome {
    answer: u64,
    memory: Vec<u8>,
}

fn second_program(call: &Call, margin: &[u8]) -> Outcome {
    let worked = second::entry::entry(
        call.cipher,
        call.direction,
        &call.key,
        &call.block,
        &call.out,
    );
    Outcome {
        answer: worked.answer.number().into(),
        memory: [margin, &worked.out, margin].concat(),
    }
}

fn archive(call: &Call, margin: &[u8]) -> Outcome {
    let mut memory = [margin, &call.out, margin].concat();
    let out = &mut memory[MARGIN..MARGIN + call.out.len()];
    let answer = boundary::entry(call.cipher, call.direction, &call.key, &call.block, out);
    Outcome { answer, memory }
}

fn difference(number: usize, call: &Call, given: &Outcome, wanted: &Outcome) -> String {
    let Call {
        cipher, direction, ..
    } = call;
    [
        format!("call {number} differs from the second program"),
        format!("  cipher {cipher:#x}, direction {direction:#x}"),
        format!("  key    {}", hex(&call.key)),
        format!("  block  {}", hex(&call.block)),
        format!("  out    {}", hex(&call.out)),
        format!("  given  {} {}", given.answer, hex(&given.memory)),
        format!("  wanted {} {}", wanted.answer, hex(&wanted.memory)),
        format!("  (the answer, then out with the {MARGIN} bytes on either side)"),
    ]
    .join("\n")
}

fn hex(bytes: &[u8]) -> String {
    bytes.iter().map(|byte| format!("{byte:02x}")).collect()
}
