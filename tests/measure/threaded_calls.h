// The calls that the real programs of tests/measure/benchmark make, for the interpreter in threaded.c, which includes this file when it is
// compiled with -DCALLS: 2 and 9 to 12 of the console, and 15, 16, 19 to 22, 26, 33 to 36 and 40 of files. It has what these programs need
// and no more: drive A, names without `?`, lines of printable bytes, and files without holes. Files and script are whole, as bytes, and
// nothing is recorded of what was read. The words are those of plain_calls.rs.
#include <ctype.h>
#include <dirent.h>
#include <stdbool.h>
#include <string.h>

#define USAGE "threaded takes a program, a folder of files, a script, a folder for changed files, a limit of steps and a command tail\n"
enum { WORDS = 7, LIMIT = 5 };
enum { HLT = 0x76, ENTRY = 0xfe06, WARM_START = 0xff03, RECORD = 128, NAME = 11, MOST_FILES = 512, MOST_RECORDS = 65536 };
// What a call returns if it ends the run.
enum { CONSOLE_EXHAUSTED = -1, UNSUPPORTED = -2 };
// Values of calls of files, and places in a control block.
enum { NO_RECORD = 1, PLACE_TOO_LARGE = 2, NO_EXTENT = 4, RANDOM_TOO_LARGE = 6, ABSENT = 0xff };
enum { EXTENT = 12, UPPER_EXTENT = 14, COUNT = 15, PLACE = 32, RANDOM = 33 };

typedef struct {
    uint8_t *at;
    size_t length, room;
} Bytes;

typedef struct {
    char name[NAME];
    bool is_changed;
    Bytes bytes;
} File;

static File files[MOST_FILES];
static int file_count;
static Bytes text, script;
static size_t cursor, column;
static uint16_t buffer = 0x80;
static int cause;

static void fail(const char *what);

static void make_room(Bytes *bytes, size_t room) {
    if (room > bytes->room) {
        bytes->room = 2 * room;
        bytes->at = realloc(bytes->at, bytes->room);
        if (!bytes->at) {
            fail("memory");
        }
    }
}

// Makes it so long, with zeros at its end.
static void lengthen(Bytes *bytes, size_t length) {
    if (length > bytes->length) {
        make_room(bytes, length);
        memset(bytes->at + bytes->length, 0, length - bytes->length);
        bytes->length = length;
    }
}

static void send(uint8_t byte) {
    make_room(&text, text.length + 1);
    text.at[text.length++] = byte;
    column = byte == '\r' ? 0 : byte == '\b' ? column - (column > 0) : column + (byte >= 0x20 && byte != 0x7f);
}

static void print(uint8_t byte) {
    if (byte != '\t') {
        send(byte);
        return;
    }
    do {
        send(' ');
    } while (column % 8 != 0);
}

// Call 10: a line of the script into the buffer at an address.
static int read_line(uint8_t *line) {
    uint8_t capacity = line[0], count = 0;
    while (count < capacity) {
        if (cursor == script.length) {
            return CONSOLE_EXHAUSTED;
        }
        uint8_t byte = script.at[cursor++];
        if (byte == '\r' || byte == '\n') {
            send('\r');
            break;
        }
        if (byte < 0x20 || byte == 0x7f) {
            return UNSUPPORTED;
        }
        send(byte);
        line[2 + count++] = byte;
    }
    line[1] = count;
    return 0;
}

static File *find(const uint8_t *name) {
    for (int i = 0; i < file_count; i++) {
        if (memcmp(files[i].name, name, NAME) == 0) {
            return files + i;
        }
    }
    return NULL;
}

static File *add(const void *name) {
    if (file_count == MOST_FILES) {
        fputs("too many files\n", stderr);
        exit(1);
    }
    files[file_count] = (File){0};
    memcpy(files[file_count].name, name, NAME);
    return files + file_count++;
}

static void set_place(uint8_t *block, size_t place) {
    block[PLACE] = place % 128;
    block[EXTENT] = place / 128 % 32;
    block[UPPER_EXTENT] = place / 4096;
}

static void set_random(uint8_t *block, size_t place) {
    block[RANDOM] = place;
    block[RANDOM + 1] = place >> 8;
    block[RANDOM + 2] = place >> 16;
}

// How many records an extent has.
static size_t count_of(const File *file, size_t extent) {
    size_t records = file->bytes.length / RECORD, first = extent * 128;
    return records < first ? 0 : records - first < 128 ? records - first : 128;
}

static bool read_record(uint8_t *cells, uint8_t *block, const File *file, size_t place, size_t after) {
    if (place >= file->bytes.length / RECORD) {
        return false;
    }
    memcpy(cells + buffer, file->bytes.at + place * RECORD, RECORD);
    set_place(block, after);
    return true;
}

static int write_record(uint8_t *cells, uint8_t *block, File *file, size_t place, size_t after) {
    if (place >= MOST_RECORDS) {
        return PLACE_TOO_LARGE;
    }
    lengthen(&file->bytes, (place + 1) * RECORD);
    memcpy(file->bytes.at + place * RECORD, cells + buffer, RECORD);
    file->is_changed = true;
    set_place(block, after);
    return 0;
}

// A call of files, whose control block is at DE.
static int call_file(uint8_t *cells, uint8_t number, uint8_t *block) {
    File *file = find(block + 1);
    size_t next = 4096 * block[UPPER_EXTENT] + 128 * block[EXTENT] + block[PLACE], random = block[RANDOM] + 256 * block[RANDOM + 1];
    if (number == 22) {
        if (file) {
            return ABSENT;
        }
        add(block + 1)->is_changed = true;
        memset(block + 13, 0, 19);
        return 0;
    }
    if (number == 35 || number == 36) {
        set_random(block, number == 36 ? next : file ? file->bytes.length / RECORD : 0);
        return number == 36 || file ? 0 : ABSENT;
    }
    if (!file) {
        return ABSENT;
    }
    if ((number == 33 || number == 34 || number == 40) && block[RANDOM + 2] != 0) {
        return RANDOM_TOO_LARGE;
    }
    switch (number) {
    case 15:
        block[COUNT] = count_of(file, block[EXTENT]);
        block[13] = block[14] = 0;
        memset(block + 16, 0, 16);
        return 0;
    case 19:
        free(file->bytes.at);
        *file = files[--file_count];
        return 0;
    case 20:
        return read_record(cells, block, file, next, next + 1) ? 0 : NO_RECORD;
    case 21:
        return write_record(cells, block, file, next, next + 1);
    case 33:
        return read_record(cells, block, file, random, random) ? 0 : count_of(file, random / 128) > 0 ? NO_RECORD : NO_EXTENT;
    case 34:
    case 40:
        return write_record(cells, block, file, random, random);
    }
    return 0;
}

// Makes the call of a number and returns its value.
static int call_number(uint8_t *cells, uint8_t number, uint16_t de) {
    switch (number) {
    case 2:
        print(de);
        return 0;
    case 9:
        for (; cells[de] != '$'; de++) {
            print(cells[de]);
        }
        return 0;
    case 10:
        return read_line(cells + de);
    case 11:
        return cursor < script.length ? 0xff : 0;
    case 12:
        return 0x22;
    case 26:
        buffer = de;
        return 0;
    case 15 ... 16:
    case 19 ... 22:
    case 33 ... 36:
    case 40:
        return call_file(cells, number, cells + de);
    }
    return UNSUPPORTED;
}

// A name in capitals, its two parts filled up with blanks.
static void spread(char *name, const char *from, size_t length) {
    size_t place = 0;
    memset(name, ' ', NAME);
    for (size_t i = 0; i < length; i++) {
        if (from[i] == '.') {
            place = 8;
        } else if (place < NAME) {
            name[place++] = toupper((unsigned char)from[i]);
        }
    }
}

static void read_whole(Bytes *bytes, const char *path) {
    FILE *file = fopen(path, "rb");
    if (!file) {
        fail(path);
    }
    for (size_t count = 1; count != 0; bytes->length += count) {
        make_room(bytes, bytes->length + SIZE);
        count = fread(bytes->at + bytes->length, 1, SIZE, file);
    }
    fclose(file);
}

// Reads the files and the script, and fills page zero.
static void prepare(uint8_t *cells, char **words) {
    char path[4096];
    DIR *folder = opendir(words[2]);
    if (!folder) {
        fail(words[2]);
    }
    for (struct dirent *entry; (entry = readdir(folder));) {
        if (entry->d_name[0] != '.') {
            char name[NAME];
            spread(name, entry->d_name, strlen(entry->d_name));
            File *file = add(name);
            snprintf(path, sizeof path, "%s/%s", words[2], entry->d_name);
            read_whole(&file->bytes, path);
            size_t rest = -file->bytes.length % RECORD;
            make_room(&file->bytes, file->bytes.length + rest);
            memset(file->bytes.at + file->bytes.length, 0x1a, rest);
            file->bytes.length += rest;
        }
    }
    closedir(folder);
    read_whole(&script, words[3]);
    memcpy(cells, "\xc3\x03\xff\0\0\xc3\x06\xfe", 8);
    cells[ENTRY] = cells[WARM_START] = HLT;
    const char *word = words[6];
    for (int at = 0x5c; at <= 0x6c; at += 16) {
        word += strspn(word, " ");
        spread((char *)cells + at + 1, word, strcspn(word, " "));
        word += strcspn(word, " ");
    }
    size_t length = strlen(words[6]);
    if (length > 0) {
        cells[0x80] = length + 1;
        cells[0x81] = ' ';
        for (size_t i = 0; i < length; i++) {
            cells[0x82 + i] = toupper((unsigned char)words[6][i]);
        }
    }
}

// Writes the text, the changed files, and why and after how many steps the run ended.
static void finish(const char *out, uint16_t pc, unsigned long long steps) {
    fwrite(text.at, 1, text.length, stdout);
    for (File *file = files; file < files + file_count; file++) {
        if (file->is_changed) {
            char path[4096], stem[9] = {0}, kind[4] = {0};
            memcpy(stem, file->name, 8);
            memcpy(kind, file->name + 8, 3);
            stem[strcspn(stem, " ")] = kind[strcspn(kind, " ")] = 0;
            snprintf(path, sizeof path, "%s/%s%s%s", out, stem, *kind ? "." : "", kind);
            FILE *to = fopen(path, "wb");
            if (!to || fwrite(file->bytes.at, 1, file->bytes.length, to) != file->bytes.length || fclose(to) != 0) {
                fail(path);
            }
        }
    }
    const char *stop = pc == WARM_START ? "WarmBoot" : cause == CONSOLE_EXHAUSTED ? "ConsoleExhausted" : "another";
    fprintf(stderr, "stop %s\nsteps %llu\n", stop, steps);
}
