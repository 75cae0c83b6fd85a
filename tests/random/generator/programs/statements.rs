// The statements of the grammar.

use super::*;

// Instructions of one byte that change registers and flags alone; some read a cell.
const OF_REGISTERS: [u8; 30] = [
    0x04, 0x0c, 0x14, 0x1c, 0x3c, 0x05, 0x0d, 0x15, 0x1d, 0x3d, 0x03, 0x13, 0x23, 0x0b, 0x1b, 0x2b, 0x09, 0x19, 0x29, 0x39, 0x07,
    0x0f, 0x17, 0x1f, 0x27, 0x2f, 0x37, 0x3f, 0xeb, 0x00,
];
const WITH_NUMBER: [u8; 18] =
    [0xc6, 0xce, 0xd6, 0xde, 0xe6, 0xee, 0xf6, 0xfe, 0x06, 0x0e, 0x16, 0x1e, 0x26, 0x2e, 0x3e, 0xdb, 0xd3, 0xfe];
const ON_A_CELL: [u8; 14] = [0x34, 0x35, 0x70, 0x71, 0x72, 0x73, 0x74, 0x75, 0x77, 0x7e, 0x46, 0x86, 0x9e, 0x36];
const CALLS: [u8; 29] =
    [1, 2, 6, 7, 8, 9, 10, 11, 12, 13, 14, 15, 16, 17, 18, 19, 20, 21, 22, 23, 24, 25, 26, 33, 34, 35, 36, 40, 0];
const FILE_CALLS: [u8; 14] = [15, 16, 17, 18, 19, 20, 21, 22, 23, 33, 34, 35, 36, 40];
const CONTROL_BLOCK: usize = 36;

// The number of a call, mostly of one that is there.
pub fn any_call_number(random: &mut Random) -> u8 {
    if random.chance(80) {
        *random.pick(&CALLS)
    } else {
        random.below(48) as u8
    }
}

// An opcode, mostly of an instruction of one byte that changes registers alone.
pub fn any_instruction(random: &mut Random) -> u8 {
    if random.chance(85) {
        *random.pick(&OF_REGISTERS)
    } else {
        random.byte()
    }
}

type Statement = fn(&mut Builder);
const STATEMENTS: [(usize, Statement); 36] = [
    (10, Builder::print_byte),
    (10, Builder::print_string),
    (6, Builder::print_cell),
    (9, Builder::console_input),
    (6, Builder::direct_input),
    (2, Builder::direct_output),
    (9, Builder::line_input),
    (5, Builder::console_status),
    (5, Builder::plain_call),
    (3, Builder::select_drive),
    (5, Builder::set_buffer),
    (10, Builder::read_file),
    (18, Builder::write_file),
    (11, Builder::random_access),
    (9, Builder::list_directory),
    (7, Builder::rename_file),
    (4, Builder::delete_file),
    (3, Builder::file_size),
    (5, Builder::any_file_call),
    (13, Builder::arithmetic),
    (5, Builder::on_the_stack),
    (6, Builder::change_code),
    (7, Builder::change_again),
    (4, Builder::change_copy),
    (3, Builder::read_code),
    (3, Builder::restore_code),
    (3, Builder::type_code),
    (6, Builder::on_a_cell),
    (5, Builder::copy),
    (10, Builder::repeat),
    (8, Builder::choose),
    (8, Builder::call_subroutine),
    (4, Builder::sum_cells),
    (2, Builder::run_area),
    (1, Builder::any_bytes),
    (1, Builder::any_call),
];

impl Builder {
    pub(super) fn statement(&mut self) {
        let (_, statement) = *self.random.pick_by_weight(&STATEMENTS, |(weight, _)| *weight);
        self.depth += 1;
        statement(self);
        self.depth -= 1;
    }

    // Does something with what a call gave, or with the cells that it may have changed.
    fn show(&mut self, cells: At) {
        match self.random.below(10) {
            0..4 => self.print_a(),
            4..6 => {
                let cell = self.cell();
                self.with_address(STORE_A, cell);
            }
            6..8 => {
                let count = self.random.between(1, 4);
                self.print_cells(cells, count);
            }
            8 => {
                self.put(&[0xb7]);
                let jump = *self.random.pick(&[0xc2, 0xca, 0xf2, 0xfa]);
                self.jump_over(jump, Self::print_string);
            }
            _ => {}
        }
    }

    fn print_cells(&mut self, start: At, count: usize) {
        self.with_address(LOAD_H, start);
        self.with_number(NUMBER_B, Kind::Count, count as u8);
        let top = self.here();
        self.put(&[0xe5, 0xc5, MOVE_E_CELL]);
        self.system_call(2);
        self.put(&[0xc1, 0xe1, 0x23, 0x05]);
        self.with_target(JUMP_UNLESS_ZERO, top);
    }
}

// Statements of the console and of the processor.
impl Builder {
    pub(super) fn print_byte(&mut self) {
        let byte = self.random.printable();
        self.call_with_byte(2, byte);
    }

    fn print_string(&mut self) {
        let string = *self.random.pick(&self.strings);
        self.call_with_address(9, At::Data(string));
    }

    fn print_cell(&mut self) {
        let cell = match self.random.below(10) {
            0..6 => self.cell(),
            6..8 => At::Fixed(BUFFER + self.random.below(8) as u16),
            8 => At::Fixed((PROGRAM_START + self.random.below(200)) as u16),
            _ => At::Fixed(self.random.below(65536) as u16),
        };
        self.with_address(LOAD_A, cell);
        self.print_a();
    }

    fn console_input(&mut self) {
        self.system_call(1);
        let cell = self.cell();
        self.show(cell);
    }

    fn direct_input(&mut self) {
        self.call_with_byte(6, 0xff);
        let cell = self.cell();
        self.show(cell);
    }

    fn direct_output(&mut self) {
        let byte = self.random.byte();
        self.call_with_byte(6, byte);
    }

    fn line_input(&mut self) {
        let line = At::Data(self.line);
        self.call_with_address(10, line);
        let count = self.random.between(1, 5);
        self.print_cells(line.past(1), count);
    }

    fn console_status(&mut self) {
        self.system_call(11);
        let cell = self.cell();
        self.show(cell);
    }

    fn plain_call(&mut self) {
        let number = *self.random.pick(&[7, 8, 12, 13, 24, 25]);
        self.system_call(number);
        let cell = self.cell();
        self.show(cell);
    }

    fn select_drive(&mut self) {
        let drive = if self.random.chance(98) { self.random.below(4) as u8 } else { self.random.byte() };
        self.call_with_byte(14, drive);
        if self.random.chance(25) {
            self.system_call(13);
        }
        self.system_call(25);
        let cell = self.cell();
        self.show(cell);
    }

    fn set_buffer(&mut self) {
        let buffer = match self.random.below(10) {
            0..5 => self.area(),
            5..7 => At::Fixed(BUFFER),
            7 => At::Fixed(0x9000),
            8 if self.random.chance(50) => At::Data(*self.random.pick(&self.strings)),
            8 => At::Fixed(*self.random.pick(&[0xffc0, 0xfd80, 0x0000, 0x0100])),
            _ => At::Fixed(0xff80),
        };
        self.call_with_address(26, buffer);
    }

    fn arithmetic(&mut self) {
        for _ in 0..self.random.between(2, 8) {
            match self.random.below(10) {
                0..3 => {
                    let opcode = *self.random.pick(&OF_REGISTERS);
                    self.put(&[opcode]);
                }
                3..6 => {
                    let (opcode, number) = (*self.random.pick(&WITH_NUMBER), self.random.byte());
                    self.with_number(opcode, Kind::Number, number);
                }
                6 => {
                    let (opcode, cell) = (*self.random.pick(&[LOAD_A, 0x2a, LOAD_H, LOAD_B]), self.cell());
                    self.with_address(opcode, cell);
                }
                7 => {
                    let opcode = 0x80 + self.random.below(64) as u8;
                    self.put(&[opcode]);
                }
                _ => {
                    let (to, from) = (*self.random.pick(&[0, 1, 2, 3, 7]), self.random.below(8) as u8);
                    self.put(&[0x40 + 8 * to + from]);
                }
            }
        }
        match self.random.below(10) {
            0..3 => self.print_a(),
            3..6 => {
                // The flags by way of the stack into E.
                self.put(&[0xf5, 0xd1]);
                self.system_call(2);
            }
            _ => {}
        }
    }

    fn on_the_stack(&mut self) {
        let push = *self.random.pick(&[0xc5, 0xd5, 0xe5, 0xf5]);
        let pop = *self.random.pick(&[0xc1, 0xd1, 0xe1, 0xf1]);
        match self.random.below(8) {
            0 => self.put(&[push, 0xe3, pop]),
            1 => self.put(&[0x21, 0, 0, 0x39, 0xf9]),
            2 => self.put(&[push, 0x33, 0x3b, pop]),
            _ => self.put(&[push, pop]),
        }
        if self.random.chance(50) {
            self.print_a();
        }
    }

    // Writes over the number or the opcode of an instruction that is still to come.
    fn change_code(&mut self) {
        let number = self.random.printable();
        if self.random.chance(30) {
            let cell = self.cell();
            self.with_address(LOAD_A, cell);
        } else {
            self.with_number(NUMBER_A, Kind::Number, number);
        }
        let next = self.here() + 3;
        let changed = if self.random.chance(85) { next + 1 } else { next + self.random.below(8) };
        self.with_target(STORE_A, changed);
        self.print_byte();
    }

    fn on_a_cell(&mut self) {
        let cell = self.cell();
        self.with_address(LOAD_H, cell);
        for _ in 0..self.random.between(1, 3) {
            let opcode = *self.random.pick(&ON_A_CELL);
            self.put(&[opcode]);
            if opcode == 0x36 {
                let number = self.random.byte();
                self.put(&[number]);
            }
        }
        if self.random.chance(15) {
            let opcode = *self.random.pick(&[0x22, 0x2a]);
            self.with_address(opcode, cell);
        }
        self.print_cell();
    }

    fn copy(&mut self) {
        let from = match self.random.below(4) {
            0 => At::Fixed(BUFFER),
            1 => At::Fixed(PROGRAM_START as u16),
            2 => At::Data(*self.random.pick(&self.strings)),
            _ => self.block().past(1),
        };
        let to = if self.random.chance(60) { At::Fixed(BUFFER) } else { self.block().past(1) };
        let count = self.random.between(1, 8);
        self.copy_cells(from, to, count);
    }

    pub(super) fn copy_cells(&mut self, from: At, to: At, count: usize) {
        self.with_address(LOAD_H, from);
        self.with_address(LOAD_D, to);
        self.with_number(NUMBER_B, Kind::Count, count as u8);
        let top = self.here();
        self.put(&[0x7e, 0x12, 0x23, 0x13, 0x05]);
        self.with_target(JUMP_UNLESS_ZERO, top);
    }

    // A loop that counts on the stack, or in a cell behind the one that holds its count.
    fn repeat(&mut self) {
        if self.depth > 2 {
            return self.print_string();
        }
        let count = self.random.between(1, 5) as u8;
        let counter = At::Data(self.data.len());
        let on_stack = self.random.chance(40);
        if on_stack {
            self.with_number(NUMBER_B, Kind::Count, count);
        } else {
            self.datum(Kind::Count, count);
            self.data.push(0);
            self.with_address(LOAD_A, counter);
            self.with_address(STORE_A, counter.past(1));
        }
        let top = self.here();
        if on_stack {
            self.put(&[0xc5]);
        }
        for _ in 0..self.random.between(1, 2) {
            self.statement();
        }
        if on_stack {
            self.put(&[0xc1, 0x05]);
        } else {
            self.with_address(LOAD_H, counter.past(1));
            self.put(&[DECREMENT_CELL]);
        }
        self.with_target(JUMP_UNLESS_ZERO, top);
    }

    fn choose(&mut self) {
        if self.depth > 3 {
            return self.print_byte();
        }
        let cell = self.cell();
        let number = self.random.byte();
        self.with_address(LOAD_A, cell);
        self.with_number(COMPARE_NUMBER, Kind::Number, number);
        let jump = 0xc2 + 8 * self.random.below(8) as u8;
        self.jump_over(jump, Self::statement);
    }

    fn call_subroutine(&mut self) {
        let opcode = if self.random.chance(60) { CALL } else { 0xc4 + 8 * self.random.below(8) as u8 };
        self.with_address(opcode, At::Fixed(0));
        self.subroutine_words.push(self.code.len() - 2);
    }

    // Sums up cells in A, which is printed.
    pub(super) fn sum_cells(&mut self) {
        let start = match self.random.below(4) {
            0 => At::Fixed(BUFFER),
            1 => self.area(),
            2 => self.block(),
            _ => At::Fixed(PROGRAM_START as u16),
        };
        let count = *self.random.pick(&[8, 8, CONTROL_BLOCK, CONTROL_BLOCK, RECORD]);
        self.with_address(LOAD_H, start);
        self.with_number(NUMBER_B, Kind::Count, count as u8);
        self.put(&[0xaf]);
        let top = self.here();
        self.put(&[0x86, 0x07, 0x23, 0x05]);
        self.with_target(JUMP_UNLESS_ZERO, top);
        self.print_a();
    }

    // Calls the area that a record may have been read into.
    fn run_area(&mut self) {
        let area = self.area();
        self.with_address(CALL, area);
    }

    fn any_bytes(&mut self) {
        for _ in 0..self.random.between(1, 6) {
            let byte = self.random.byte();
            self.put(&[byte]);
        }
    }

    fn any_call(&mut self) {
        let number = any_call_number(&mut self.random);
        let cell = self.cell();
        self.call_with_address(number, cell);
        self.show(cell);
    }
}

// Statements of files.
impl Builder {
    // A call of files, of which the value is used or bytes of its control block are printed.
    fn file_call(&mut self, number: u8, block: At) {
        self.call_with_address(number, block);
        if self.random.chance(40) {
            let (offset, count) = *self.random.pick(&[(12, 4), (32, 4), (33, 3), (15, 2), (0, 2)]);
            return self.print_cells(block.past(offset), count);
        }
        self.show(block.past(15));
    }

    // Does something so often, with a counter on the stack.
    pub(super) fn times(&mut self, count: usize, body: impl FnOnce(&mut Self)) {
        if count == 1 {
            return body(self);
        }
        self.with_number(NUMBER_B, Kind::Count, count as u8);
        let top = self.here();
        self.put(&[0xc5]);
        body(self);
        self.put(&[0xc1, 0x05]);
        self.with_target(JUMP_UNLESS_ZERO, top);
    }

    fn print_buffer(&mut self) {
        let start = if self.random.chance(75) { At::Fixed(BUFFER) } else { self.area() };
        let count = self.random.between(1, 5);
        self.print_cells(start, count);
    }

    fn read_file(&mut self) {
        let block = self.block();
        if self.random.chance(80) {
            self.file_call(15, block);
        }
        self.read_on(block);
    }

    fn read_on(&mut self, block: At) {
        let count = self.random.between(1, 3);
        self.times(count, |builder| {
            builder.file_call(20, block);
            builder.print_buffer();
        });
    }

    fn write_file(&mut self) {
        let block = self.block();
        if self.random.chance(75) {
            let number = *self.random.pick(&[22, 22, 22, 15]);
            self.file_call(number, block);
        }
        if self.random.chance(50) {
            self.copy();
        }
        let count = self.random.between(1, 3);
        self.times(count, |builder| builder.file_call(21, block));
        if self.random.chance(30) {
            self.file_call(16, block);
        }
    }

    fn random_access(&mut self) {
        let block = self.block();
        if self.random.chance(40) {
            self.file_call(22, block);
        }
        for _ in 0..self.random.between(1, 4) {
            if self.random.chance(80) {
                let place = self.random.place();
                self.with_number(NUMBER_A, Kind::Place, place);
                self.with_address(STORE_A, block.past(33));
            }
            let number = *self.random.pick(&[33, 33, 33, 34, 34, 40, 20, 35]);
            self.file_call(number, block);
            if self.random.chance(30) {
                self.print_buffer();
            }
        }
    }

    fn list_directory(&mut self) {
        let block = if self.random.chance(70) { At::Data(self.pattern) } else { self.block() };
        self.file_call(17, block);
        self.print_buffer();
        let count = self.random.between(0, 3);
        if count > 0 {
            self.times(count, |builder| {
                if builder.random.chance(25) {
                    builder.any_file_call();
                }
                builder.system_call(18);
                builder.print_buffer();
            });
        }
    }

    // Renames a file, and at times goes on to read it or to write into it by its new name.
    fn rename_file(&mut self) {
        let block = self.block();
        self.file_call(23, block);
        if self.random.chance(60) {
            self.copy_cells(block.past(17), block.past(1), 11);
            if self.random.chance(40) {
                self.file_call(21, block);
            }
            self.read_on(block);
        }
    }

    fn delete_file(&mut self) {
        let block = if self.random.chance(25) { At::Data(self.pattern) } else { self.block() };
        self.file_call(19, block);
    }

    fn file_size(&mut self) {
        let block = self.block();
        let number = *self.random.pick(&[35, 36]);
        self.call_with_address(number, block);
        self.print_cells(block.past(33), 3);
    }

    fn any_file_call(&mut self) {
        let (number, block) = (*self.random.pick(&FILE_CALLS), self.block());
        self.file_call(number, block);
    }
}
