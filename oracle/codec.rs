//! `codec`: what decode says of each record, and the bytes that encode writes of it.

use crate::input::Input;
use qvm::isa::{decode, Instr};
use qvm::numbers::of_decode;

fn hex(bytes: &[u8]) -> String {
    bytes.iter().map(|b| format!("{b:02x}")).collect()
}

/// The numbers in the derived Debug text, so that no field's name or order is typed again here.
fn fields(instr: &Instr) -> Vec<String> {
    let text = format!("{instr:?}");
    let after_names = text.split(": ").skip(1);
    after_names
        .map(|t| t.chars().take_while(char::is_ascii_digit).collect())
        .collect()
}

fn answer(code: &[u8], place: u64) -> String {
    let (instr, length) = match decode(code, place as usize) {
        Ok(decoded) => decoded,
        Err(error) => {
            let (number, argument) = of_decode(error);
            return format!("no {number} {argument}");
        }
    };
    let mut words = vec!["ok".to_string(), length.to_string(), (instr.opcode() as u8).to_string()];
    words.extend(fields(&instr));
    let mut written = Vec::new();
    instr.encode(&mut written);
    // An output that is a byte short is our own refusal.
    format!("{} = {} short 48 0", words.join(" "), hex(&written))
}

/// A record: place (8), n (1), n bytes of code.
pub fn line(input: &mut Input) -> Option<String> {
    let place = input.u64()?;
    let n = input.u8()?;
    let code = input.bytes(n.into())?;
    let shown = if code.is_empty() { "-".to_string() } else { hex(code) };
    Some(format!("{shown} @ {place}: {}", answer(code, place)))
}
