// Statements that execute code, change it, and execute it again: their own code, or a copy elsewhere.

use super::*;

// Where a piece of code is on two pages: its number is the last byte of a page, or the first of one, or its call is on both.
const FAR: [u16; 4] = [0x7ffc, 0x8ffd, 0xb0fd, 0x20fb];
// Where the number of a piece of code is, and the opcode after it.
const NUMBER: usize = 3;
const PIECE: usize = 8;
const INSTRUCTIONS_ON_A: [u8; 10] = [0x3c, 0x3d, 0x07, 0x0f, 0x17, 0x1f, 0x2f, 0x27, 0xaf, 0x87];

impl Builder {
    // Changes a cell by an instruction. The cell after it keeps this byte, which some instructions write too.
    fn change(&mut self, cell: At, byte: u8, next: u8) {
        match self.random.below(9) {
            0 => {
                self.with_number(NUMBER_A, Kind::Number, byte);
                self.with_address(STORE_A, cell);
            }
            1 => {
                self.with_address(LOAD_H, cell);
                self.put(&[0x36, byte]);
            }
            2 => {
                let step = *self.random.pick(&[0x34, 0x35]);
                self.with_address(LOAD_H, cell);
                self.put(&[step]);
            }
            3 => {
                self.with_number(NUMBER_A, Kind::Number, byte);
                self.with_address(LOAD_D, cell);
                self.put(&[0x12]);
            }
            4 => {
                self.with_number(NUMBER_A, Kind::Number, byte);
                self.with_address(LOAD_B, cell);
                self.put(&[0x02]);
            }
            5 => {
                self.with_number(NUMBER_E, Kind::Number, byte);
                self.with_address(LOAD_H, cell);
                self.put(&[0x73]);
            }
            6 => {
                self.put(&[LOAD_H, byte, next]);
                self.with_address(0x22, cell);
            }
            way => {
                // SP is kept in DE while PUSH or XTHL writes the word.
                let (top, write) = if way == 7 { (cell.past(2), 0xe5) } else { (cell, 0xe3) };
                self.put(&[LOAD_H, 0, 0, 0x39, 0xeb, LOAD_H, byte, next]);
                self.with_address(0x31, top);
                self.put(&[write, 0xeb, 0xf9]);
            }
        }
    }

    // Jumps over as many bytes as it takes for a cell, this far from the jump's target, to be the last of a page.
    fn pad_to_page_end(&mut self, offset: usize) {
        let at = self.here() + 3 + offset;
        let count = 255 - at % 256;
        self.jump_over(JUMP, |builder| builder.code.resize(builder.code.len() + count, 0));
    }

    // Executes an instruction several times, and changes its number or its opcode each time.
    pub(super) fn change_again(&mut self) {
        let of_opcode = self.random.chance(40);
        let on_two_pages = self.random.chance(25);
        let count = self.random.between(2, 4);
        self.times(count, |builder| {
            let offset = if of_opcode { 0 } else { 1 };
            if on_two_pages {
                let last = builder.random.below(2);
                builder.pad_to_page_end(last);
            }
            let cell = At::Fixed((builder.here() + offset) as u16);
            if of_opcode {
                let (old, new) = (*builder.random.pick(&INSTRUCTIONS_ON_A), *builder.random.pick(&INSTRUCTIONS_ON_A));
                builder.put(&[old]);
                builder.print_a();
                builder.change(cell, new, MOVE_E_A);
            } else {
                builder.print_byte();
                let byte = builder.random.printable();
                builder.change(cell, byte, NUMBER_C);
            }
        });
    }

    fn far(&mut self) -> At {
        At::Fixed(*self.random.pick(&FAR))
    }

    fn change_piece(&mut self, piece: At) {
        let byte = self.random.printable();
        self.change(piece.past(NUMBER), byte, CALL);
    }

    // Copies a piece of code to an address at which it is on two pages, and changes it there.
    pub(super) fn change_copy(&mut self) {
        let (area, far) = (self.area(), self.far());
        self.copy_cells(area, far, PIECE);
        self.with_address(CALL, far);
        self.change_piece(far);
        self.with_address(CALL, far);
    }

    // Writes the record at an address to a new file.
    fn save_record(&mut self, block: At, record: At) {
        self.call_with_address(26, record);
        self.call_with_address(22, block);
        self.put(&[0xaf]);
        self.with_address(STORE_A, block.past(33));
        self.call_with_address(34, block);
    }

    // Reads a record over a copy of a piece of code, across a page end.
    pub(super) fn read_code(&mut self) {
        let (block, area, far) = (At::Data(*self.random.pick(&self.blocks)), self.area(), self.far());
        self.copy_cells(area, far, PIECE);
        self.change_piece(far);
        self.with_address(CALL, far);
        self.save_record(block, area);
        self.call_with_address(26, far);
        self.call_with_address(33, block);
        self.with_address(CALL, far);
        self.call_with_address(26, At::Fixed(BUFFER));
    }

    // Writes a record of its own code to a file, changes the code, and reads the record back over it.
    pub(super) fn restore_code(&mut self) {
        let block = At::Data(*self.random.pick(&self.blocks));
        let piece = self.own_piece();
        self.save_record(block, piece);
        self.with_address(CALL, piece);
        self.change_piece(piece);
        self.with_address(CALL, piece);
        self.call_with_address(33, block);
        self.with_address(CALL, piece);
        self.call_with_address(26, At::Fixed(BUFFER));
    }

    // A piece of code that is only executed when it is called.
    fn own_piece(&mut self) -> At {
        let piece = small_code(&mut self.random);
        let start = self.here() + 3;
        self.jump_over(JUMP, |builder| {
            builder.code_spots.push((builder.code.len() + NUMBER, Kind::Number));
            builder.put(&piece);
        });
        At::Fixed(start as u16)
    }

    // Executes a byte of the script, which call 10 writes over an instruction.
    pub(super) fn type_code(&mut self) {
        let line = At::Fixed((self.here() + 3) as u16);
        self.jump_over(JUMP, |builder| builder.put(&[1, 0, 0, 0, 0, RETURN]));
        for _ in 0..self.random.between(1, 2) {
            self.with_address(CALL, line.past(2));
            self.call_with_address(10, line);
        }
        self.with_address(CALL, line.past(2));
        self.print_a();
    }
}
