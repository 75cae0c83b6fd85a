// The text of an instruction in Intel's notation. [8080 manual 1975, chapter 4]

// Registers by their codes; M is the cell at HL.
const REGISTERS: [&str; 8] = ["B", "C", "D", "E", "H", "L", "M", "A"];
const PAIRS: [&str; 4] = ["B", "D", "H", "SP"];
const STACKED_PAIRS: [&str; 4] = ["B", "D", "H", "PSW"];
const CONDITIONS: [&str; 8] = ["NZ", "Z", "NC", "C", "PO", "PE", "P", "M"];
const ON_A: [&str; 8] = ["ADD", "ADC", "SUB", "SBB", "ANA", "XRA", "ORA", "CMP"];
const ON_A_AND_NUMBER: [&str; 8] = ["ADI", "ACI", "SUI", "SBI", "ANI", "XRI", "ORI", "CPI"];
const ON_A_ALONE: [&str; 8] = ["RLC", "RRC", "RAL", "RAR", "DAA", "CMA", "STC", "CMC"];

// A hexadecimal number: it begins with a digit and ends with H.
fn number(digits: String) -> String {
    let zero = if digits.starts_with(|digit: char| digit.is_ascii_digit()) { "" } else { "0" };
    format!("{zero}{digits}H")
}

// Returns the instruction that begins with this byte, if these two come after it.
pub fn instruction_text(opcode: u8, operands: [u8; 2]) -> String {
    let byte = number(format!("{:02X}", operands[0]));
    let word = number(format!("{:04X}", u16::from_le_bytes(operands)));
    let (middle, low) = (opcode as usize / 8 % 8, opcode as usize % 8);
    let (pair, stacked_pair) = (PAIRS[middle / 2], STACKED_PAIRS[middle / 2]);
    match opcode {
        0x00 => "NOP".to_string(),
        0x02 | 0x12 => format!("STAX {pair}"),
        0x0a | 0x1a => format!("LDAX {pair}"),
        0x22 => format!("SHLD {word}"),
        0x2a => format!("LHLD {word}"),
        0x32 => format!("STA {word}"),
        0x3a => format!("LDA {word}"),
        0x76 => "HLT".to_string(),
        0xc3 => format!("JMP {word}"),
        0xc9 => "RET".to_string(),
        0xcd => format!("CALL {word}"),
        0xd3 => format!("OUT {byte}"),
        0xdb => format!("IN {byte}"),
        0xe3 => "XTHL".to_string(),
        0xe9 => "PCHL".to_string(),
        0xeb => "XCHG".to_string(),
        0xf3 => "DI".to_string(),
        0xf9 => "SPHL".to_string(),
        0xfb => "EI".to_string(),
        0x08 | 0x10 | 0x18 | 0x20 | 0x28 | 0x30 | 0x38 | 0xcb | 0xd9 | 0xdd | 0xed | 0xfd => {
            format!("DB {}", number(format!("{opcode:02X}")))
        }
        0x40..=0x7f => format!("MOV {},{}", REGISTERS[middle], REGISTERS[low]),
        0x80..=0xbf => format!("{} {}", ON_A[middle], REGISTERS[low]),
        0x00..=0x3f => match (low, middle % 2) {
            (1, 0) => format!("LXI {pair},{word}"),
            (1, _) => format!("DAD {pair}"),
            (3, 0) => format!("INX {pair}"),
            (3, _) => format!("DCX {pair}"),
            (4, _) => format!("INR {}", REGISTERS[middle]),
            (5, _) => format!("DCR {}", REGISTERS[middle]),
            (6, _) => format!("MVI {},{byte}", REGISTERS[middle]),
            _ => ON_A_ALONE[middle].to_string(),
        },
        0xc0..=0xff => match low {
            0 => format!("R{}", CONDITIONS[middle]),
            1 => format!("POP {stacked_pair}"),
            2 => format!("J{} {word}", CONDITIONS[middle]),
            4 => format!("C{} {word}", CONDITIONS[middle]),
            5 => format!("PUSH {stacked_pair}"),
            6 => format!("{} {byte}", ON_A_AND_NUMBER[middle]),
            _ => format!("RST {middle}"),
        },
    }
}
