"""An assembler for the programs of cases, in the mnemonics of the 8080. The opcodes are those of [8080 manual 1975, chapter 4]."""
import re

PLAIN = {"NOP": 0x00, "RLC": 0x07, "RRC": 0x0F, "RAL": 0x17, "RAR": 0x1F, "DAA": 0x27, "CMA": 0x2F, "STC": 0x37, "CMC": 0x3F, "HLT": 0x76,
         "RET": 0xC9, "XTHL": 0xE3, "PCHL": 0xE9, "XCHG": 0xEB, "DI": 0xF3, "SPHL": 0xF9, "EI": 0xFB}
FROM_REGISTER = {name: 0x80 + 8 * number for number, name in enumerate(("ADD", "ADC", "SUB", "SBB", "ANA", "XRA", "ORA", "CMP"))}
ON_REGISTER = {"INR": 0x04, "DCR": 0x05}
ON_PAIR = {"STAX": 0x02, "INX": 0x03, "DAD": 0x09, "LDAX": 0x0A, "DCX": 0x0B, "POP": 0xC1, "PUSH": 0xC5}
WITH_BYTE = {"ADI": 0xC6, "ACI": 0xCE, "OUT": 0xD3, "SUI": 0xD6, "IN": 0xDB, "SBI": 0xDE, "ANI": 0xE6, "XRI": 0xEE, "ORI": 0xF6, "CPI": 0xFE}
WITH_WORD = {"SHLD": 0x22, "LHLD": 0x2A, "STA": 0x32, "LDA": 0x3A, "JMP": 0xC3, "CALL": 0xCD}
for number, condition in enumerate(("NZ", "Z", "NC", "C", "PO", "PE", "P", "M")):
    PLAIN["R" + condition] = 0xC0 + 8 * number
    WITH_WORD["J" + condition] = 0xC2 + 8 * number
    WITH_WORD["C" + condition] = 0xC4 + 8 * number
REGISTERS = {name: number for number, name in enumerate("BCDEHLMA")}
PAIRS = {"B": 0, "D": 1, "H": 2, "SP": 3, "PSW": 3}

LABEL = re.compile(r"([a-z_]+):\s*")
TERM = re.compile(r"([+-]?)\s*('[^']'|[0-9][0-9A-F]*H?|[a-z_]+)\s*")


def value_of(text: str, labels: dict[str, int]) -> int:
    """Returns the value of a sum: decimal numbers, hexadecimal ones with an H, letters in quotes, and labels."""
    if not re.fullmatch(f"(?:{TERM.pattern})+", text):
        raise ValueError(f"no value: {text}")
    total = 0
    for sign, term in TERM.findall(text):
        if term[0] == "'":
            value = ord(term[1])
        elif term[0].isdigit():
            value = int(term[:-1], 16) if term.endswith("H") else int(term)
        else:
            value = labels.get(term, 0)
        total += -value if sign == "-" else value
    return total % 65536


def bytes_of(item: str, labels: dict[str, int]) -> bytes:
    """Returns the bytes of an item of `DB`: a text in double quotes or one byte."""
    return item[1:-1].encode("latin-1") if item[0] == '"' else bytes([value_of(item, labels) % 256])


def word(text: str, labels: dict[str, int]) -> bytes:
    """Returns the two bytes of a value."""
    return value_of(text, labels).to_bytes(2, "little")


def code_of(instruction: str, labels: dict[str, int]) -> bytes:
    """Returns the bytes of one instruction."""
    name, _, rest = instruction.partition(" ")
    items = [item.strip() for item in re.findall(r'(?:"[^"]*"|\'.\'|[^,])+', rest)]
    first = items[0] if items else ""
    if name in PLAIN:
        return bytes([PLAIN[name]])
    if name in FROM_REGISTER:
        return bytes([FROM_REGISTER[name] + REGISTERS[first]])
    if name in ON_REGISTER:
        return bytes([ON_REGISTER[name] + 8 * REGISTERS[first]])
    if name in ON_PAIR:
        return bytes([ON_PAIR[name] + 16 * PAIRS[first]])
    if name in WITH_BYTE:
        return bytes([WITH_BYTE[name], value_of(first, labels) % 256])
    if name in WITH_WORD:
        return bytes([WITH_WORD[name]]) + word(first, labels)
    if name == "RST":
        return bytes([0xC7 + 8 * int(first)])
    if name == "MVI":
        return bytes([0x06 + 8 * REGISTERS[first], value_of(items[1], labels) % 256])
    if name == "MOV":
        return bytes([0x40 + 8 * REGISTERS[first] + REGISTERS[items[1]]])
    if name == "LXI":
        return bytes([0x01 + 16 * PAIRS[first]]) + word(items[1], labels)
    if name == "DB":
        return b"".join(bytes_of(item, labels) for item in items)
    if name == "DS":
        return bytes(value_of(first, labels))
    raise ValueError(f"no instruction: {instruction}")


def assemble(lines: list[str], start: int = 0x100) -> bytes:
    """Returns the bytes of a program that begins at an address. A line has instructions with `;` between them, each after a label if it
    has one: `again: DCR B; JNZ again`. The text after `#` is a comment."""
    instructions = []
    for line in lines:
        line = re.sub(r"(?:^|\s)#.*", "", line)
        instructions += [part.strip() for part in re.findall(r'(?:"[^"]*"|\'.\'|[^;])+', line) if part.strip()]
    labels: dict[str, int] = {}
    for _ in range(2):
        code = b""
        for instruction in instructions:
            label = LABEL.match(instruction)
            if label:
                labels[label[1]] = start + len(code)
            rest = instruction[label.end():] if label else instruction
            code += code_of(rest, labels) if rest else b""
    return code
