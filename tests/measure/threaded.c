// A fast interpreter of the 8080 in gcc's C: each instruction ends with a jump through a table of 256 labels, registers and flags are
// local variables, flags come from tables, and nothing is recorded of what was read or written. Called with a program and a limit of
// steps, as tests/measure/flat.rs is, it executes at most that many and prints the same two lines. Compiled with -DCALLS, it makes calls
// of CP/M too, and its words and what it writes are those of tests/measure/threaded_calls.h.
#define _GNU_SOURCE
#include <stdint.h>
#include <stdio.h>
#include <stdlib.h>
#include <sys/mman.h>
#include <unistd.h>

enum { CY = 1, BIT_1 = 2, P = 4, AC = 16, Z = 64, S = 128, ALL = S | Z | AC | P | CY };
enum { SIZE = 65536, START = 0x100 };

#ifdef CALLS
#include "threaded_calls.h"
#else
#define USAGE "threaded takes a program and a limit of steps\n"
enum { WORDS = 3, LIMIT = 2 };
#endif

// By a result: its flags S, Z and P; these and the AC of an INR or of a DCR.
static uint8_t signs[256], incremented[256], decremented[256];
// What DAA makes of A, by A, AC in bit 9 and CY in bit 8: the new A and the flags.
static uint8_t adjusted[1024], adjusted_flags[1024];

static void fill_tables(void) {
    for (unsigned v = 0; v < 256; v++) {
        signs[v] = (v & S) | (v == 0 ? Z : 0) | (__builtin_parity(v) ? 0 : P);
        incremented[v] = signs[v] | ((v & 15) == 0 ? AC : 0);
        decremented[v] = signs[v] | ((v & 15) != 15 ? AC : 0);
    }
    for (unsigned index = 0; index < 1024; index++) {
        unsigned a = index & 255, six = (a & 15) > 9 || index & 512 ? 6 : 0;
        unsigned cy = index & 256 || a + six >= 160 ? CY : 0;
        adjusted[index] = a + six + 96 * cy;
        adjusted_flags[index] = signs[adjusted[index]] | ((a & 15) + six >= 16 ? AC : 0) | cy;
    }
}

static void fail(const char *what) {
    perror(what);
    exit(1);
}

// The memory, mapped twice in a row: a word whose first byte is in the last cell has its second in cell 0.
static uint8_t *map_memory(void) {
    int file = memfd_create("memory", 0);
    if (file < 0 || ftruncate(file, SIZE) != 0) {
        fail("memory");
    }
    uint8_t *cells = mmap(NULL, 2 * SIZE, PROT_READ | PROT_WRITE, MAP_SHARED, file, 0);
    if (cells == MAP_FAILED || mmap(cells + SIZE, SIZE, PROT_READ | PROT_WRITE, MAP_SHARED | MAP_FIXED, file, 0) == MAP_FAILED) {
        fail("memory");
    }
    close(file);
    return cells;
}

static void load(uint8_t *cells, const char *path) {
    FILE *program = fopen(path, "rb");
    if (!program) {
        fail(path);
    }
    size_t length = fread(cells + START, 1, SIZE - START, program);
    if (length == 0 && ferror(program)) {
        fail(path);
    }
    fclose(program);
}

// The operands: the registers b to a, and m, the cell at HL. A word in memory has its low byte first.
#define m cells[PAIR(h, l)]
#define PAIR(high, low) ((uint16_t)(high << 8 | low))
#define SET(high, low, value) unsigned word = value; high = word >> 8, low = word
#define BYTE cells[pc++]
#define WORD(at) (cells[at] | cells[(at) + 1] << 8)
#define STORE(at, high, low) cells[at] = low, cells[(at) + 1] = high
#define PUSH_BYTES(high, low) sp -= 2, STORE(sp, high, low)
#define PUSH_PC PUSH_BYTES(pc >> 8, pc)
#define POP_PC pc = WORD(sp), sp += 2
#define GO pc = WORD(pc)

#define SUM(value, carry) unsigned x = value, sum = a + x + (carry); f = signs[sum & 255] | sum >> 8 | ((a ^ x ^ sum) & AC)
#define DIFFERENCE(value, borrow) unsigned x = value, rest = a - x - (borrow); \
    f = signs[rest & 255] | (rest >> 8 & CY) | (~(a ^ x ^ rest) & AC)
#define WITH_CARRY(bit) ((f & ~CY) | (bit))

// An instruction: its label, what it does, and the jump to the next one, if a step is left.
#define NEXT if (--left == 0) goto end; goto *labels[cells[pc++]]
#define I(label, ...) label: { __VA_ARGS__; NEXT; }

// Instructions of one kind, by their label and operands.
#define MOV(label, from, to) I(label, to = from)
#define MVI(label, to, _) I(label, to = BYTE)
#define INR(label, at, _) I(label, uint8_t v = at + 1; f = (f & CY) | incremented[v]; at = v)
#define DCR(label, at, _) I(label, uint8_t v = at - 1; f = (f & CY) | decremented[v]; at = v)
#define ADD(label, value, _) I(label, SUM(value, 0); a = sum)
#define ADC(label, value, _) I(label, SUM(value, f & CY); a = sum)
#define SUB(label, value, _) I(label, DIFFERENCE(value, 0); a = rest)
#define SBB(label, value, _) I(label, DIFFERENCE(value, f & CY); a = rest)
#define ANA(label, value, _) I(label, unsigned x = value, ac = ((a | x) & 8) << 1; a &= x; f = signs[a] | ac)
#define XRA(label, value, _) I(label, a ^= value; f = signs[a])
#define ORA(label, value, _) I(label, a |= value; f = signs[a])
#define CMP(label, value, _) I(label, DIFFERENCE(value, 0))
#define LXI(label, high, low) I(label, low = BYTE; high = BYTE)
#define INX(label, high, low) I(label, SET(high, low, PAIR(high, low) + 1))
#define DCX(label, high, low) I(label, SET(high, low, PAIR(high, low) - 1))
#define DAD(label, value) I(label, unsigned sum = PAIR(h, l) + value; f = WITH_CARRY(sum >> 16); SET(h, l, sum))
#define DAD_PAIR(label, high, low) DAD(label, PAIR(high, low))
#define POP(label, high, low) I(label, low = cells[sp]; high = cells[sp + 1]; sp += 2)
#define PUSH(label, high, low) I(label, PUSH_BYTES(high, low))
#define LDAX(label, address) I(label, a = cells[address])
#define STAX(label, address) I(label, cells[address] = a)
#define JUMP_IF(label, condition) I(label, if (condition) { GO; NEXT; } pc += 2)
#define CALL_IF(label, condition) I(label, unsigned to = WORD(pc); pc += 2; if (condition) { PUSH_PC; pc = to; })
#define RETURN_IF(label, condition) I(label, if (condition) { POP_PC; })
#define RST(label, to) I(label, PUSH_PC; pc = to)

// Instructions of one kind with each operand, each pair of registers and each condition, and the labels of the first.
#define PLACES(X, name, to) X(name##_b, b, to) X(name##_c, c, to) X(name##_d, d, to) X(name##_e, e, to) \
    X(name##_h, h, to) X(name##_l, l, to) X(name##_m, m, to) X(name##_a, a, to)
#define PAIRS(X, name) X(name##_b, b, c) X(name##_d, d, e) X(name##_h, h, l)
#define CONDITIONS(X, name) X(name##nz, !(f & Z)) X(name##z, f & Z) X(name##nc, !(f & CY)) X(name##c, f & CY) \
    X(name##po, !(f & P)) X(name##pe, f & P) X(name##p, !(f & S)) X(name##m, f & S)
#define LABELS(name) &&name##_b, &&name##_c, &&name##_d, &&name##_e, &&name##_h, &&name##_l, &&name##_m, &&name##_a

int main(int count, char **words) {
    static const void *const labels[256] = {
        &&nop, &&lxi_b, &&stax_b, &&inx_b, &&inr_b, &&dcr_b, &&mvi_b, &&rlc,
        &&stop, &&dad_b, &&ldax_b, &&dcx_b, &&inr_c, &&dcr_c, &&mvi_c, &&rrc,
        &&stop, &&lxi_d, &&stax_d, &&inx_d, &&inr_d, &&dcr_d, &&mvi_d, &&ral,
        &&stop, &&dad_d, &&ldax_d, &&dcx_d, &&inr_e, &&dcr_e, &&mvi_e, &&rar,
        &&stop, &&lxi_h, &&shld, &&inx_h, &&inr_h, &&dcr_h, &&mvi_h, &&daa,
        &&stop, &&dad_h, &&lhld, &&dcx_h, &&inr_l, &&dcr_l, &&mvi_l, &&cma,
        &&stop, &&lxi_sp, &&sta, &&inx_sp, &&inr_m, &&dcr_m, &&mvi_m, &&stc,
        &&stop, &&dad_sp, &&lda, &&dcx_sp, &&inr_a, &&dcr_a, &&mvi_a, &&cmc,
        LABELS(mov_b), LABELS(mov_c), LABELS(mov_d), LABELS(mov_e), LABELS(mov_h), LABELS(mov_l),
        &&mov_m_b, &&mov_m_c, &&mov_m_d, &&mov_m_e, &&mov_m_h, &&mov_m_l, &&stop, &&mov_m_a, LABELS(mov_a),
        LABELS(add), LABELS(adc), LABELS(sub), LABELS(sbb), LABELS(ana), LABELS(xra), LABELS(ora), LABELS(cmp),
        &&rnz, &&pop_b, &&jnz, &&jmp, &&cnz, &&push_b, &&adi, &&rst_0,
        &&rz, &&ret, &&jz, &&stop, &&cz, &&call, &&aci, &&rst_1,
        &&rnc, &&pop_d, &&jnc, &&out, &&cnc, &&push_d, &&sui, &&rst_2,
        &&rc, &&stop, &&jc, &&in, &&cc, &&stop, &&sbi, &&rst_3,
        &&rpo, &&pop_h, &&jpo, &&xthl, &&cpo, &&push_h, &&ani, &&rst_4,
        &&rpe, &&pchl, &&jpe, &&xchg, &&cpe, &&stop, &&xri, &&rst_5,
        &&rp, &&pop_psw, &&jp, &&nop, &&cp, &&push_psw, &&ori, &&rst_6,
        &&rm, &&sphl, &&jm, &&nop, &&cm, &&stop, &&cpi, &&rst_7,
    };
    if (count != WORDS) {
        fputs(USAGE, stderr);
        return 1;
    }
    uint8_t *const cells = map_memory();
    load(cells, words[1]);
#ifdef CALLS
    prepare(cells, words);
#endif
    fill_tables();
    uint8_t a = 0, b = 0, c = 0, d = 0, e = 0, h = 0, l = 0, f = 0;
    uint16_t sp = 0xfdfe, pc = START;
    // One more than the steps that are left.
    const uint64_t limit = strtoull(words[LIMIT], NULL, 10);
    uint64_t left = limit + 1;
    NEXT;

    PLACES(MOV, mov_b, b) PLACES(MOV, mov_c, c) PLACES(MOV, mov_d, d) PLACES(MOV, mov_e, e)
    PLACES(MOV, mov_h, h) PLACES(MOV, mov_l, l) PLACES(MOV, mov_a, a)
    MOV(mov_m_b, b, m) MOV(mov_m_c, c, m) MOV(mov_m_d, d, m) MOV(mov_m_e, e, m) MOV(mov_m_h, h, m) MOV(mov_m_l, l, m) MOV(mov_m_a, a, m)
    PLACES(MVI, mvi,) PLACES(INR, inr,) PLACES(DCR, dcr,)
    PLACES(ADD, add,) PLACES(ADC, adc,) PLACES(SUB, sub,) PLACES(SBB, sbb,)
    PLACES(ANA, ana,) PLACES(XRA, xra,) PLACES(ORA, ora,) PLACES(CMP, cmp,)
    ADD(adi, BYTE,) ADC(aci, BYTE,) SUB(sui, BYTE,) SBB(sbi, BYTE,) ANA(ani, BYTE,) XRA(xri, BYTE,) ORA(ori, BYTE,) CMP(cpi, BYTE,)

    PAIRS(LXI, lxi) PAIRS(INX, inx) PAIRS(DCX, dcx) PAIRS(DAD_PAIR, dad) PAIRS(POP, pop) PAIRS(PUSH, push)
    I(lxi_sp, sp = WORD(pc); pc += 2) I(inx_sp, sp++) I(dcx_sp, sp--) DAD(dad_sp, sp)
    I(pop_psw, f = cells[sp] & ALL; a = cells[sp + 1]; sp += 2) PUSH(push_psw, a, f | BIT_1)
    LDAX(ldax_b, PAIR(b, c)) LDAX(ldax_d, PAIR(d, e)) STAX(stax_b, PAIR(b, c)) STAX(stax_d, PAIR(d, e))
    I(lda, a = cells[WORD(pc)]; pc += 2) I(sta, cells[WORD(pc)] = a; pc += 2)
    I(lhld, unsigned at = WORD(pc); l = cells[at]; h = cells[at + 1]; pc += 2)
    I(shld, unsigned at = WORD(pc); STORE(at, h, l); pc += 2)
    I(xchg, uint8_t high = d, low = e; d = h; e = l; h = high; l = low)
    I(xthl, unsigned top = WORD(sp); STORE(sp, h, l); SET(h, l, top))
    I(sphl, sp = PAIR(h, l)) I(pchl, pc = PAIR(h, l))

    I(rlc, f = WITH_CARRY(a >> 7); a = a << 1 | a >> 7) I(rrc, f = WITH_CARRY(a & 1); a = a >> 1 | a << 7)
    I(ral, unsigned low = f & CY; f = WITH_CARRY(a >> 7); a = a << 1 | low)
    I(rar, unsigned high = f & CY; f = WITH_CARRY(a & 1); a = a >> 1 | high << 7)
    I(daa, unsigned index = (f & AC) << 5 | (f & CY) << 8 | a; a = adjusted[index]; f = adjusted_flags[index])
    I(cma, a = ~a) I(stc, f |= CY) I(cmc, f ^= CY) I(nop) I(in, a = 0xff; pc++) I(out, pc++)

    I(jmp, GO) I(call, unsigned to = WORD(pc); pc += 2; PUSH_PC; pc = to) I(ret, POP_PC)
    CONDITIONS(JUMP_IF, j) CONDITIONS(CALL_IF, c) CONDITIONS(RETURN_IF, r)
    RST(rst_0, 0x00) RST(rst_1, 0x08) RST(rst_2, 0x10) RST(rst_3, 0x18)
    RST(rst_4, 0x20) RST(rst_5, 0x28) RST(rst_6, 0x30) RST(rst_7, 0x38)

    // HLT, and a byte that is no opcode.
stop:
    pc--;
#ifdef CALLS
    if (pc == ENTRY) {
        int value = call_number(cells, c, PAIR(d, e));
        if (value >= 0) {
            b = h = value >> 8, a = l = value;
            POP_PC;
            NEXT;
        }
        cause = value;
    }
end:
    finish(words[4], pc, limit - left);
#else
end:
    printf("steps %llu\n", (unsigned long long)(limit - left));
    printf("regs A=%02X F=%02X B=%02X C=%02X D=%02X E=%02X H=%02X L=%02X SP=%04X PC=%04X\n", a, f | BIT_1, b, c, d, e, h, l, sp, pc);
#endif
}
