// Programs made at random whose cells, stack, buffers and control blocks are around the ends of memory and of the program area, and whose
// names and strings have any bytes. The programs of the generator rarely do this.

use crate::generator::random::Random;
use crate::model::{Session, PROGRAM_START};

const EDGES: [u16; 12] = [0xffff, 0xffff, 0xfffe, 0x0000, 0x0001, 0x0001, 0x0002, 0xfdfe, 0xfdff, 0xfe00, 0xffe8, 0xff80];
const STACK: u16 = 0xf000;
const CALLS: [u8; 28] =
    [1, 2, 6, 7, 8, 9, 10, 11, 12, 13, 14, 15, 16, 17, 18, 19, 20, 21, 22, 23, 24, 25, 26, 33, 34, 35, 36, 40];
// Instructions that write the cells at HL, BC or DE, and at SP.
const ON_CELLS: [u8; 9] = [0x34, 0x35, 0x36, 0x70, 0x77, 0x02, 0x12, 0x7e, 0x86];
const ON_THE_STACK: [u8; 8] = [0xc5, 0xd5, 0xe5, 0xf5, 0xe3, 0xc1, 0xe1, 0xf1];
const CONTROL_BLOCK: usize = 36;
const MOST_STRING_BYTES: usize = 150;
const LIMIT: u64 = 1500;

// Returns the session with another program.
pub fn at_the_edges(random: &mut Random, session: &Session) -> Session {
    let mut code = vec![0x31, STACK as u8, (STACK >> 8) as u8];
    for _ in 0..random.between(5, 25) {
        statement(random, &mut code);
    }
    if random.chance(60) {
        run_into_the_system(random, &mut code);
    } else {
        code.push(0xc9);
    }
    Session { program: code, limit: LIMIT, ..session.clone() }
}

fn edge(random: &mut Random) -> u16 {
    random.pick(&EDGES).wrapping_add(if random.chance(20) { random.below(8) as u16 } else { 0 })
}

fn with_word(code: &mut Vec<u8>, opcode: u8, word: u16) {
    code.extend([opcode, word as u8, (word >> 8) as u8]);
}

fn statement(random: &mut Random, code: &mut Vec<u8>) {
    match random.below(10) {
        0..2 => {
            let (pair, cell) = (*random.pick(&[0x01, 0x11, 0x21]), edge(random));
            with_word(code, pair, cell);
            let opcode = *random.pick(&ON_CELLS);
            code.push(opcode);
            code.extend((opcode == 0x36).then(|| random.byte()));
        }
        2 => {
            let (opcode, cell) = (*random.pick(&[0x22, 0x22, 0x2a, 0x32, 0x3a]), edge(random));
            with_word(code, opcode, cell);
        }
        3..5 => {
            let top = edge(random);
            with_word(code, 0x31, top);
            for _ in 0..random.between(1, 3) {
                code.push(*random.pick(&ON_THE_STACK));
            }
            // a call there, at times
            if random.chance(60) {
                with_word(code, 0x31, STACK);
            }
        }
        5 => call_with_data(random, code, 9, |random, data| {
            let count = random.below(MOST_STRING_BYTES);
            data.extend((0..count).map(|_| any_letter(random)));
            data.push(b'$');
        }),
        6..8 => {
            let number = *random.pick(&CALLS[11..]);
            call_with_data(random, code, number, control_block);
        }
        8 => {
            let (number, word) = (if random.chance(30) { 26 } else { *random.pick(&CALLS) }, edge(random));
            call(code, number, word);
        }
        _ => {
            let (number, byte) = (*random.pick(&[2, 6, 8, 2, 6, 8, 14, 3, 37]), random.byte());
            let is_rare = !matches!(number, 2 | 6 | 8);
            if !is_rare || random.chance(10) {
                call(code, number, byte as u16);
            }
        }
    }
}

fn call(code: &mut Vec<u8>, number: u8, word: u16) {
    code.extend([0x0e, number]);
    with_word(code, 0x11, word);
    with_word(code, 0xcd, 5);
}

// A call with the address of data that the program jumps over.
fn call_with_data(random: &mut Random, code: &mut Vec<u8>, number: u8, fill: fn(&mut Random, &mut Vec<u8>)) {
    let mut data = Vec::new();
    fill(random, &mut data);
    let start = (PROGRAM_START + code.len() + 3) as u16;
    with_word(code, 0xc3, start + data.len() as u16);
    code.extend(data);
    call(code, number, start);
    if random.chance(30) {
        call(code, number, start);
    }
}

fn control_block(random: &mut Random, block: &mut Vec<u8>) {
    let drive = if random.chance(85) { random.below(5) as u8 } else { random.byte() };
    block.push(drive);
    for _ in 0..2 {
        let name: Vec<u8> = match random.below(4) {
            0 => b"A          ".to_vec(),
            1 => b"???????????".to_vec(),
            _ => (0..11).map(|_| if random.chance(25) { b' ' } else { any_letter(random) }).collect(),
        };
        block.extend(name);
        block.extend([0; 5]);
    }
    block.truncate(32);
    block.resize_with(CONTROL_BLOCK, || if random.chance(70) { 0 } else { random.place() });
}

// Any byte but `$`, often one with an escape.
fn any_letter(random: &mut Random) -> u8 {
    let byte = match random.below(10) {
        0 => *random.pick(b"\"\\\r\n\t\x1b\x7f\x80\xff"),
        1 => random.byte(),
        _ => random.printable(),
    };
    match byte {
        b'$' => b'%',
        _ => byte,
    }
}

// An instruction in the last cells below the system area, or over its end.
fn run_into_the_system(random: &mut Random, code: &mut Vec<u8>) {
    let (first, second) = (random.byte(), random.byte());
    let start = *random.pick(&[0xfdfd, 0xfdfe, 0xfdff]);
    with_word(code, 0x21, u16::from_le_bytes([first, second]));
    with_word(code, 0x22, start);
    with_word(code, 0xc3, start);
}
