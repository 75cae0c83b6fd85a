// An 8080 with its memory as one array. Registers stand by their codes: B, C, D, E, H, L, an unused place for the cell at HL, and A.

pub const B: usize = 0;
pub const C: usize = 1;
pub const D: usize = 2;
pub const E: usize = 3;
pub const H: usize = 4;
pub const L: usize = 5;
pub const CELL: usize = 6;
pub const A: usize = 7;

const HALT: u8 = 0x76;
// The pair code that is SP in most instructions, and A with the flags in PUSH and POP.
const LAST_PAIR: u8 = 3;

pub enum Did {
    Went,
    Halted,
    Undefined,
}

#[derive(Clone, Copy, Default, PartialEq)]
pub struct Flags {
    pub sign: bool,
    pub zero: bool,
    pub half_carry: bool,
    pub parity: bool,
    pub carry: bool,
}

impl Flags {
    pub fn byte(self) -> u8 {
        let bits = [(self.sign, 0x80), (self.zero, 0x40), (self.half_carry, 0x10), (self.parity, 0x04), (self.carry, 0x01)];
        bits.iter().filter(|(set, _)| *set).fold(0x02, |byte, (_, bit)| byte | bit)
    }

    fn from_byte(byte: u8) -> Flags {
        let has = |bit| byte & bit != 0;
        Flags { sign: has(0x80), zero: has(0x40), half_carry: has(0x10), parity: has(0x04), carry: has(0x01) }
    }

    fn of_result(result: u8, half_carry: bool, carry: bool) -> Flags {
        Flags { sign: result >= 0x80, zero: result == 0, half_carry, parity: result.count_ones() % 2 == 0, carry }
    }
}

pub struct Processor {
    pub registers: [u8; 8],
    pub stack: u16,
    pub next: u16,
    pub flags: Flags,
    pub memory: Box<[u8; 65536]>,
}

impl Processor {
    pub fn byte(&self, address: u16) -> u8 {
        self.memory[address as usize]
    }

    pub fn set_byte(&mut self, address: u16, byte: u8) {
        self.memory[address as usize] = byte;
    }

    pub fn word(&self, address: u16) -> u16 {
        self.byte(address) as u16 + 256 * self.byte(address.wrapping_add(1)) as u16
    }

    fn set_word(&mut self, address: u16, word: u16) {
        self.set_byte(address, word as u8);
        self.set_byte(address.wrapping_add(1), (word >> 8) as u8);
    }

    // A pair of registers, by the code of the first.
    pub fn pair(&self, high: usize) -> u16 {
        self.registers[high] as u16 * 256 + self.registers[high + 1] as u16
    }

    pub fn set_pair(&mut self, high: usize, word: u16) {
        self.registers[high] = (word >> 8) as u8;
        self.registers[high + 1] = word as u8;
    }

    fn coded_pair(&self, code: u8) -> u16 {
        if code == LAST_PAIR {
            self.stack
        } else {
            self.pair(code as usize * 2)
        }
    }

    fn set_coded_pair(&mut self, code: u8, word: u16) {
        if code == LAST_PAIR {
            self.stack = word;
        } else {
            self.set_pair(code as usize * 2, word);
        }
    }

    fn operand(&self, code: usize) -> u8 {
        if code == CELL {
            self.byte(self.pair(H))
        } else {
            self.registers[code]
        }
    }

    fn set_operand(&mut self, code: usize, byte: u8) {
        if code == CELL {
            self.set_byte(self.pair(H), byte);
        } else {
            self.registers[code] = byte;
        }
    }

    fn push(&mut self, word: u16) {
        self.stack = self.stack.wrapping_sub(2);
        self.set_word(self.stack, word);
    }

    fn pop(&mut self) -> u16 {
        let word = self.word(self.stack);
        self.stack = self.stack.wrapping_add(2);
        word
    }

    pub fn holds(&self, condition: u8) -> bool {
        let flag = [self.flags.zero, self.flags.carry, self.flags.parity, self.flags.sign][condition as usize / 2];
        flag == (condition % 2 == 1)
    }

    // The instruction at the place that is next; HLT and an undefined byte change nothing.
    pub fn step(&mut self) -> Did {
        let at = self.next;
        let opcode = self.byte(at);
        let word = self.word(at.wrapping_add(1));
        if opcode == HALT {
            return Did::Halted;
        }
        let went = match opcode >> 6 {
            0 => self.first_quarter(opcode, word),
            1 => {
                let byte = self.operand(opcode as usize % 8);
                self.set_operand(opcode as usize / 8 % 8, byte);
                self.go_on(1)
            }
            2 => {
                self.arithmetic(opcode / 8 % 8, self.operand(opcode as usize % 8));
                self.go_on(1)
            }
            _ => self.last_quarter(opcode, word),
        };
        if went {
            Did::Went
        } else {
            Did::Undefined
        }
    }

    // Goes past an instruction of so many bytes.
    fn go_on(&mut self, length: u16) -> bool {
        self.next = self.next.wrapping_add(length);
        true
    }

    fn first_quarter(&mut self, opcode: u8, word: u16) -> bool {
        let middle = opcode / 8 % 8;
        let pair = middle / 2;
        match (opcode % 8, middle % 2) {
            (0, _) if opcode != 0 => return false,
            (0, _) => {}
            (1, 0) => {
                self.set_coded_pair(pair, word);
                return self.go_on(3);
            }
            (1, _) => {
                let sum = self.pair(H) as u32 + self.coded_pair(pair) as u32;
                self.flags.carry = sum > 0xffff;
                self.set_pair(H, sum as u16);
            }
            (2, _) => return self.load_or_store(middle, word),
            (3, 0) => self.set_coded_pair(pair, self.coded_pair(pair).wrapping_add(1)),
            (3, _) => self.set_coded_pair(pair, self.coded_pair(pair).wrapping_sub(1)),
            (4, _) => {
                let old = self.operand(middle as usize);
                self.set_operand(middle as usize, old.wrapping_add(1));
                self.flags = Flags::of_result(old.wrapping_add(1), old % 16 == 15, self.flags.carry);
            }
            (5, _) => {
                let old = self.operand(middle as usize);
                self.set_operand(middle as usize, old.wrapping_sub(1));
                self.flags = Flags::of_result(old.wrapping_sub(1), old % 16 != 0, self.flags.carry);
            }
            (6, _) => {
                self.set_operand(middle as usize, word as u8);
                return self.go_on(2);
            }
            _ => self.accumulator(middle),
        }
        self.go_on(1)
    }

    fn load_or_store(&mut self, which: u8, word: u16) -> bool {
        match which {
            0 => self.set_byte(self.pair(B), self.registers[A]),
            1 => self.registers[A] = self.byte(self.pair(B)),
            2 => self.set_byte(self.pair(D), self.registers[A]),
            3 => self.registers[A] = self.byte(self.pair(D)),
            4 => self.set_word(word, self.pair(H)),
            5 => self.set_pair(H, self.word(word)),
            6 => self.set_byte(word, self.registers[A]),
            _ => self.registers[A] = self.byte(word),
        }
        self.go_on(if which < 4 { 1 } else { 3 })
    }

    fn accumulator(&mut self, which: u8) {
        let old = self.registers[A];
        let carry = self.flags.carry;
        match which {
            0 | 2 => {
                let low = if which == 0 { old >= 0x80 } else { carry };
                self.registers[A] = old << 1 | low as u8;
                self.flags.carry = old >= 0x80;
            }
            1 | 3 => {
                let high = if which == 1 { old % 2 == 1 } else { carry };
                self.registers[A] = old >> 1 | (high as u8) << 7;
                self.flags.carry = old % 2 == 1;
            }
            4 => self.decimal_adjust(),
            5 => self.registers[A] = 255 - old,
            6 => self.flags.carry = true,
            _ => self.flags.carry = !carry,
        }
    }

    fn decimal_adjust(&mut self) {
        let old = self.registers[A] as u32;
        let low = if old % 16 > 9 || self.flags.half_carry { 6 } else { 0 };
        let carry = self.flags.carry || old + low >= 160;
        let sum = old + low + if carry { 0x60 } else { 0 };
        self.registers[A] = sum as u8;
        self.flags = Flags::of_result(sum as u8, old % 16 + low > 15, carry);
    }

    fn arithmetic(&mut self, which: u8, operand: u8) {
        let old = self.registers[A];
        let carried = (which == 1 || which == 3) && self.flags.carry;
        match which {
            0 | 1 => {
                let sum = old as u32 + operand as u32 + carried as u32;
                self.registers[A] = sum as u8;
                self.flags = Flags::of_result(sum as u8, old % 16 + operand % 16 + carried as u8 > 15, sum > 255);
            }
            2 | 3 | 7 => {
                let taken = operand as i32 + carried as i32;
                let result = (old as i32 - taken) as u8;
                let half_carry = old % 16 >= operand % 16 + carried as u8;
                self.flags = Flags::of_result(result, half_carry, (old as i32) < taken);
                if which != 7 {
                    self.registers[A] = result;
                }
            }
            4 => {
                self.registers[A] = old & operand;
                self.flags = Flags::of_result(old & operand, (old | operand) & 8 != 0, false);
            }
            5 => {
                self.registers[A] = old ^ operand;
                self.flags = Flags::of_result(old ^ operand, false, false);
            }
            _ => {
                self.registers[A] = old | operand;
                self.flags = Flags::of_result(old | operand, false, false);
            }
        }
    }

    fn last_quarter(&mut self, opcode: u8, word: u16) -> bool {
        let middle = opcode / 8 % 8;
        match opcode % 8 {
            0 => return self.go_where(self.holds(middle), 1, Processor::pop),
            2 => return self.go_where(self.holds(middle), 3, |_| word),
            4 => return self.call_where(self.holds(middle), word),
            6 => {
                self.arithmetic(middle, word as u8);
                return self.go_on(2);
            }
            7 => {
                self.go_on(1);
                self.push(self.next);
                self.next = middle as u16 * 8;
                return true;
            }
            1 if middle % 2 == 0 => self.pop_pair(middle / 2),
            5 if middle % 2 == 0 => self.push_pair(middle / 2),
            _ => return self.single(opcode, word),
        }
        self.go_on(1)
    }

    fn go_where(&mut self, taken: bool, length: u16, target: impl Fn(&mut Processor) -> u16) -> bool {
        if !taken {
            return self.go_on(length);
        }
        self.next = target(self);
        true
    }

    fn call_where(&mut self, taken: bool, target: u16) -> bool {
        self.go_on(3);
        if taken {
            self.push(self.next);
            self.next = target;
        }
        true
    }

    fn pop_pair(&mut self, code: u8) {
        let word = self.pop();
        if code == LAST_PAIR {
            self.registers[A] = (word >> 8) as u8;
            self.flags = Flags::from_byte(word as u8);
        } else {
            self.set_coded_pair(code, word);
        }
    }

    fn push_pair(&mut self, code: u8) {
        let accumulator_and_flags = self.registers[A] as u16 * 256 + self.flags.byte() as u16;
        self.push(if code == LAST_PAIR { accumulator_and_flags } else { self.coded_pair(code) });
    }

    // The instructions of the last quarter that are alone of their kind.
    fn single(&mut self, opcode: u8, word: u16) -> bool {
        match opcode {
            0xc3 => return self.go_where(true, 3, |_| word),
            0xc9 => return self.go_where(true, 1, Processor::pop),
            0xcd => return self.call_where(true, word),
            0xe9 => return self.go_where(true, 1, |processor| processor.pair(H)),
            0xd3 => return self.go_on(2),
            0xdb => {
                self.registers[A] = 0xff;
                return self.go_on(2);
            }
            0xe3 => {
                let top = self.word(self.stack);
                self.set_word(self.stack, self.pair(H));
                self.set_pair(H, top);
            }
            0xeb => {
                let old = self.pair(D);
                self.set_pair(D, self.pair(H));
                self.set_pair(H, old);
            }
            0xf9 => self.stack = self.pair(H),
            0xf3 | 0xfb => {}
            _ => return false,
        }
        self.go_on(1)
    }
}
