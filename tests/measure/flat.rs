// A plain interpreter of the 8080: a match on the opcode over a flat array of 65,536 bytes, with nothing recorded of what
// was read or written. Called with a program and a count of steps, it carries out so many and prints the registers.

#[derive(Clone, Copy, Default)]
struct Flags {
    s: bool,
    z: bool,
    ac: bool,
    p: bool,
    cy: bool,
}

#[derive(Clone, Copy, Default)]
struct Registers {
    a: u8,
    b: u8,
    c: u8,
    d: u8,
    e: u8,
    h: u8,
    l: u8,
    sp: u16,
    pc: u16,
    flags: Flags,
}

type Memory = [u8; 65536];

impl Flags {
    fn after(value: u8, ac: bool, cy: bool) -> Flags {
        Flags { s: value >= 128, z: value == 0, ac, p: value.count_ones() % 2 == 0, cy }
    }

    fn byte(self) -> u8 {
        (self.s as u8) << 7 | (self.z as u8) << 6 | (self.ac as u8) << 4 | (self.p as u8) << 2 | 2 | self.cy as u8
    }

    fn from_byte(byte: u8) -> Flags {
        Flags { s: byte & 128 != 0, z: byte & 64 != 0, ac: byte & 16 != 0, p: byte & 4 != 0, cy: byte & 1 != 0 }
    }

    fn meet(self, condition: u8) -> bool {
        match condition {
            0 => !self.z,
            1 => self.z,
            2 => !self.cy,
            3 => self.cy,
            4 => !self.p,
            5 => self.p,
            6 => !self.s,
            _ => self.s,
        }
    }
}

impl Registers {
    fn bc(&self) -> u16 {
        u16::from_le_bytes([self.c, self.b])
    }

    fn de(&self) -> u16 {
        u16::from_le_bytes([self.e, self.d])
    }

    fn hl(&self) -> u16 {
        u16::from_le_bytes([self.l, self.h])
    }

    fn set_bc(&mut self, word: u16) {
        [self.c, self.b] = word.to_le_bytes();
    }

    fn set_de(&mut self, word: u16) {
        [self.e, self.d] = word.to_le_bytes();
    }

    fn set_hl(&mut self, word: u16) {
        [self.l, self.h] = word.to_le_bytes();
    }

    fn pair(&self, index: u8) -> u16 {
        match index {
            0 => self.bc(),
            1 => self.de(),
            2 => self.hl(),
            _ => self.sp,
        }
    }

    fn set_pair(&mut self, index: u8, word: u16) {
        match index {
            0 => self.set_bc(word),
            1 => self.set_de(word),
            2 => self.set_hl(word),
            _ => self.sp = word,
        }
    }

    fn get(&self, memory: &Memory, index: u8) -> u8 {
        match index {
            0 => self.b,
            1 => self.c,
            2 => self.d,
            3 => self.e,
            4 => self.h,
            5 => self.l,
            6 => memory[self.hl() as usize],
            _ => self.a,
        }
    }

    fn set(&mut self, memory: &mut Memory, index: u8, value: u8) {
        match index {
            0 => self.b = value,
            1 => self.c = value,
            2 => self.d = value,
            3 => self.e = value,
            4 => self.h = value,
            5 => self.l = value,
            6 => memory[self.hl() as usize] = value,
            _ => self.a = value,
        }
    }

    fn push(&mut self, memory: &mut Memory, word: u16) {
        let [low, high] = word.to_le_bytes();
        self.sp = self.sp.wrapping_sub(2);
        memory[self.sp as usize] = low;
        memory[self.sp.wrapping_add(1) as usize] = high;
    }

    fn pop(&mut self, memory: &Memory) -> u16 {
        let word = word_at(memory, self.sp);
        self.sp = self.sp.wrapping_add(2);
        word
    }

    fn calculate(&mut self, which: u8, operand: u8) {
        let a = self.a;
        let carry = self.flags.cy as u8;
        match which {
            0 | 1 => {
                let extra = if which == 1 { carry } else { 0 };
                let sum = a as u16 + operand as u16 + extra as u16;
                self.a = sum as u8;
                self.flags = Flags::after(sum as u8, (a & 15) + (operand & 15) + extra >= 16, sum >= 256);
            }
            2 | 3 | 7 => {
                let extra = if which == 3 { carry } else { 0 };
                let sum = a as u16 + (255 - operand) as u16 + (1 - extra) as u16;
                if which != 7 {
                    self.a = sum as u8;
                }
                self.flags = Flags::after(sum as u8, (a & 15) + (15 - (operand & 15)) + (1 - extra) >= 16, sum < 256);
            }
            4 => {
                self.a = a & operand;
                self.flags = Flags::after(self.a, (a | operand) & 8 != 0, false);
            }
            5 => {
                self.a = a ^ operand;
                self.flags = Flags::after(self.a, false, false);
            }
            _ => {
                self.a = a | operand;
                self.flags = Flags::after(self.a, false, false);
            }
        }
    }

    fn adjust(&mut self) {
        let six = if self.a & 15 > 9 || self.flags.ac { 6 } else { 0 };
        let sum = self.a as u16 + six as u16;
        let cy = self.flags.cy || sum >= 160;
        let ac = (self.a & 15) + six >= 16;
        self.a = (sum + if cy { 96 } else { 0 }) as u8;
        self.flags = Flags::after(self.a, ac, cy);
    }
}

fn word_at(memory: &Memory, address: u16) -> u16 {
    u16::from_le_bytes([memory[address as usize], memory[address.wrapping_add(1) as usize]])
}

// One instruction; false at HLT and at a byte that is no opcode.
fn step(r: &mut Registers, memory: &mut Memory) -> bool {
    let at = r.pc;
    let opcode = memory[at as usize];
    let byte = |memory: &Memory| memory[at.wrapping_add(1) as usize];
    let word = |memory: &Memory| word_at(memory, at.wrapping_add(1));
    let mut next = at.wrapping_add(1);
    match opcode {
        0x00 | 0xf3 | 0xfb => {}
        0x01 | 0x11 | 0x21 | 0x31 => {
            r.set_pair(opcode >> 4 & 3, word(memory));
            next = at.wrapping_add(3);
        }
        0x02 => memory[r.bc() as usize] = r.a,
        0x12 => memory[r.de() as usize] = r.a,
        0x0a => r.a = memory[r.bc() as usize],
        0x1a => r.a = memory[r.de() as usize],
        0x03 | 0x13 | 0x23 | 0x33 => r.set_pair(opcode >> 4 & 3, r.pair(opcode >> 4 & 3).wrapping_add(1)),
        0x0b | 0x1b | 0x2b | 0x3b => r.set_pair(opcode >> 4 & 3, r.pair(opcode >> 4 & 3).wrapping_sub(1)),
        0x04 | 0x0c | 0x14 | 0x1c | 0x24 | 0x2c | 0x34 | 0x3c => {
            let value = r.get(memory, opcode >> 3 & 7).wrapping_add(1);
            r.set(memory, opcode >> 3 & 7, value);
            r.flags = Flags::after(value, value & 15 == 0, r.flags.cy);
        }
        0x05 | 0x0d | 0x15 | 0x1d | 0x25 | 0x2d | 0x35 | 0x3d => {
            let value = r.get(memory, opcode >> 3 & 7).wrapping_sub(1);
            r.set(memory, opcode >> 3 & 7, value);
            r.flags = Flags::after(value, value & 15 != 15, r.flags.cy);
        }
        0x06 | 0x0e | 0x16 | 0x1e | 0x26 | 0x2e | 0x36 | 0x3e => {
            let value = byte(memory);
            r.set(memory, opcode >> 3 & 7, value);
            next = at.wrapping_add(2);
        }
        0x07 => {
            r.flags.cy = r.a >= 128;
            r.a = r.a.rotate_left(1);
        }
        0x0f => {
            r.flags.cy = r.a & 1 != 0;
            r.a = r.a.rotate_right(1);
        }
        0x17 => {
            let carry = r.flags.cy as u8;
            r.flags.cy = r.a >= 128;
            r.a = r.a << 1 | carry;
        }
        0x1f => {
            let carry = r.flags.cy as u8;
            r.flags.cy = r.a & 1 != 0;
            r.a = r.a >> 1 | carry << 7;
        }
        0x09 | 0x19 | 0x29 | 0x39 => {
            let sum = r.hl() as u32 + r.pair(opcode >> 4 & 3) as u32;
            r.flags.cy = sum >= 65536;
            r.set_hl(sum as u16);
        }
        0x22 => {
            let address = word(memory);
            memory[address as usize] = r.l;
            memory[address.wrapping_add(1) as usize] = r.h;
            next = at.wrapping_add(3);
        }
        0x2a => {
            r.set_hl(word_at(memory, word(memory)));
            next = at.wrapping_add(3);
        }
        0x32 => {
            memory[word(memory) as usize] = r.a;
            next = at.wrapping_add(3);
        }
        0x3a => {
            r.a = memory[word(memory) as usize];
            next = at.wrapping_add(3);
        }
        0x27 => r.adjust(),
        0x2f => r.a = !r.a,
        0x37 => r.flags.cy = true,
        0x3f => r.flags.cy = !r.flags.cy,
        0x76 => return false,
        0x40..=0x7f => {
            let value = r.get(memory, opcode & 7);
            r.set(memory, opcode >> 3 & 7, value);
        }
        0x80..=0xbf => {
            let operand = r.get(memory, opcode & 7);
            r.calculate(opcode >> 3 & 7, operand);
        }
        0xc6 | 0xce | 0xd6 | 0xde | 0xe6 | 0xee | 0xf6 | 0xfe => {
            r.calculate(opcode >> 3 & 7, byte(memory));
            next = at.wrapping_add(2);
        }
        0xc1 | 0xd1 | 0xe1 => {
            let word = r.pop(memory);
            r.set_pair(opcode >> 4 & 3, word);
        }
        0xf1 => {
            let [low, high] = r.pop(memory).to_le_bytes();
            r.a = high;
            r.flags = Flags::from_byte(low);
        }
        0xc5 | 0xd5 | 0xe5 => r.push(memory, r.pair(opcode >> 4 & 3)),
        0xf5 => r.push(memory, u16::from_le_bytes([r.flags.byte(), r.a])),
        0xc3 => next = word(memory),
        0xc2 | 0xca | 0xd2 | 0xda | 0xe2 | 0xea | 0xf2 | 0xfa => {
            next = if r.flags.meet(opcode >> 3 & 7) { word(memory) } else { at.wrapping_add(3) };
        }
        0xcd => {
            next = word(memory);
            r.push(memory, at.wrapping_add(3));
        }
        0xc4 | 0xcc | 0xd4 | 0xdc | 0xe4 | 0xec | 0xf4 | 0xfc => {
            next = at.wrapping_add(3);
            if r.flags.meet(opcode >> 3 & 7) {
                let target = word(memory);
                r.push(memory, next);
                next = target;
            }
        }
        0xc9 => next = r.pop(memory),
        0xc0 | 0xc8 | 0xd0 | 0xd8 | 0xe0 | 0xe8 | 0xf0 | 0xf8 => {
            if r.flags.meet(opcode >> 3 & 7) {
                next = r.pop(memory);
            }
        }
        0xc7 | 0xcf | 0xd7 | 0xdf | 0xe7 | 0xef | 0xf7 | 0xff => {
            r.push(memory, next);
            next = (opcode & 0x38) as u16;
        }
        0xd3 => next = at.wrapping_add(2),
        0xdb => {
            r.a = 0xff;
            next = at.wrapping_add(2);
        }
        0xe3 => {
            let word = word_at(memory, r.sp);
            memory[r.sp as usize] = r.l;
            memory[r.sp.wrapping_add(1) as usize] = r.h;
            r.set_hl(word);
        }
        0xe9 => next = r.hl(),
        0xeb => {
            let word = r.de();
            r.set_de(r.hl());
            r.set_hl(word);
        }
        0xf9 => r.sp = r.hl(),
        _ => return false,
    }
    r.pc = next;
    true
}

fn main() {
    let words: Vec<String> = std::env::args().collect();
    let program = std::fs::read(&words[1]).unwrap();
    let limit: u64 = words[2].parse().unwrap();
    let mut memory = Box::new([0u8; 65536]);
    memory[256..256 + program.len()].copy_from_slice(&program);
    let mut r = Registers { pc: 0x100, sp: 0xfdfe, ..Default::default() };
    let mut steps = 0;
    while steps < limit && step(&mut r, &mut memory) {
        steps += 1;
    }
    println!("steps {steps}");
    println!(
        "regs A={:02X} F={:02X} B={:02X} C={:02X} D={:02X} E={:02X} H={:02X} L={:02X} SP={:04X} PC={:04X}",
        r.a, r.flags.byte(), r.b, r.c, r.d, r.e, r.h, r.l, r.sp, r.pc
    );
}
