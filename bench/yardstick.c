/* A plain interpreter of game modules' images, written for speed alone: the yardstick beside which the
   proved machine is measured. It has the same instructions, the same mask on each access and the same
   tests. Of the traps it has 0 (print) and 101 (memcpy); every other one stops it.

   usage: yardstick N IMAGE [WORD]

   It makes at most N steps of vmMain(WORD, 0, ..) and tells the end on standard error. */

#include <stdint.h>
#include <stdio.h>
#include <stdlib.h>
#include <string.h>
#include <unistd.h>

enum {
    UNDEF, IGNORE, BREAK, ENTER, LEAVE, CALL, PUSH, POP, CONST, LOCAL, JUMP,
    EQ, NE, LTI, LEI, GTI, GEI, LTU, LEU, GTU, GEU, EQF, NEF, LTF, LEF, GTF, GEF,
    LOAD1, LOAD2, LOAD4, STORE1, STORE2, STORE4, ARG, BLOCK_COPY, SEX8, SEX16, NEGI,
    ADD, SUB, DIVI, DIVU, MODI, MODU, MULI, MULU, BAND, BOR, BXOR, BCOM, LSH, RSHI, RSHU
};

enum {
    HEADER_LEN = 32,
    MAGIC = 0x12721444,
    MAX_CODE_LEN = 1 << 27,
    MAX_BLOCK_LEN = 1 << 26,
    OPERANDS = 256,        /* words on the operand stack */
    STACK_LEN = 1 << 16,   /* bytes of the program stack, at the block's end */
    ENTRY_FRAME_LEN = 64   /* bytes above the place where the program stack starts */
};

struct instr {
    uint32_t op, operand;
};

struct module {
    struct instr *code;
    uint32_t count;
    uint8_t *block;
    uint32_t size; /* bytes of the block, a power of two */
};

struct end {
    const char *line; /* a format for the word */
    int32_t word;
};

static uint32_t load4(const uint8_t *at)
{
    uint32_t word;
    memcpy(&word, at, 4);
    return word;
}

static uint32_t load2(const uint8_t *at)
{
    uint16_t half;
    memcpy(&half, at, 2);
    return half;
}

static void store4(uint8_t *at, uint32_t word)
{
    memcpy(at, &word, 4);
}

static void store2(uint8_t *at, uint32_t word)
{
    uint16_t half = (uint16_t)word;
    memcpy(at, &half, 2);
}

/* The bytes at a masked address, cut down to a multiple of their count. */
#define AT(address, width) (block + ((address) & mask & ~((width) - 1u)))

#define END(line, word) return (struct end){line, (int32_t)(word)}

#define WANT(words) if (depth < (words)) END("stopped: operand stack under", 0)

#define GIVE(word) \
    { \
        if (depth == OPERANDS) END("stopped: operand stack over", 0); \
        operands[depth++] = (word); \
    } \
    break

/* The top word t gives a word. */
#define ON_ONE(word) \
    WANT(1); \
    t = operands[depth - 1]; \
    operands[depth - 1] = (word); \
    break

/* Takes the top word t. */
#define TAKE_ONE \
    WANT(1); \
    t = operands[--depth]

/* Takes the top word t and the word s below it. */
#define TAKE_TWO \
    WANT(2); \
    t = operands[--depth]; \
    s = operands[--depth]

/* The top word t and the word s below it give a word. */
#define ON_TWO(word) \
    TAKE_TWO; \
    operands[depth++] = (word); \
    break

#define BRANCH(test) \
    TAKE_TWO; \
    if (test) next = v; \
    break

#define GO(to) \
    if ((to) >= count) END("stopped: jump out %u", to); \
    next = (to); \
    break

/* Serves trap k, which is called where the program stack stands at p: gives the end of the run, or no line and what
   the trap replies. Not inlined: the loop of plain instructions stays small. */
__attribute__((noinline)) static struct end serve(const struct module *module, uint32_t p, uint32_t k)
{
    uint8_t *const block = module->block;
    const uint32_t size = module->size, mask = size - 1;
    const uint32_t to = load4(AT(p + 8, 4)), from = load4(AT(p + 12, 4)), len = load4(AT(p + 16, 4));
    const uint8_t *nul;

    switch (k) {
    case 0:
        nul = to < size ? memchr(block + to, 0, size - to) : NULL;
        if (nul == NULL) END("stopped: trap 0 argument 0 outside", 0);
        if (write(1, block + to, (size_t)(nul - (block + to))) != nul - (block + to)) END("write fault: out", 0);
        END(NULL, 0);
    case 101:
        if ((uint64_t)to + len > size) END("stopped: trap 101 argument 0 outside", 0);
        if ((uint64_t)from + len > size) END("stopped: trap 101 argument 1 outside", 0);
        memmove(block + to, block + from, len);
        END(NULL, to);
    default: END("stopped: unknown trap %u", k);
    }
}

static struct end run(const struct module *module, uint64_t steps)
{
    const struct instr *const code = module->code;
    const uint32_t count = module->count, mask = module->size - 1, start = module->size - ENTRY_FRAME_LEN;
    const uint32_t bottom = module->size < STACK_LEN ? 0 : module->size - STACK_LEN;
    uint8_t *const block = module->block;
    uint32_t operands[OPERANDS], depth = 0, next = 0, p = start, s, t;

    for (; steps > 0; steps--) {
        if (next == count) END("stopped: fell off", 0);
        const uint32_t v = code[next].operand;
        switch (code[next++].op) {
        case IGNORE: case BREAK: break;
        case ENTER:
            if ((uint64_t)p < (uint64_t)bottom + v) END("stopped: program stack over", 0);
            p -= v;
            break;
        case LEAVE:
            if ((uint64_t)p + v > start) END("stopped: program stack under", 0);
            p += v;
            t = load4(AT(p, 4));
            if (t == UINT32_MAX) {
                WANT(1);
                END("returned %d", operands[depth - 1]);
            }
            GO(t);
        case CALL:
            TAKE_ONE;
            store4(AT(p, 4), next);
            if ((int32_t)t < 0) {
                store4(AT(p + 4, 4), ~t);
                const struct end end = serve(module, p, ~t);
                if (end.line != NULL) return end;
                GIVE((uint32_t)end.word);
            }
            GO(t);
        case PUSH: GIVE(0);
        case POP: WANT(1); depth--; break;
        case CONST: GIVE(v);
        case LOCAL: GIVE(p + v);
        case JUMP: TAKE_ONE; GO(t);
        case EQ: BRANCH(s == t);
        case NE: BRANCH(s != t);
        case LTI: BRANCH((int32_t)s < (int32_t)t);
        case LEI: BRANCH((int32_t)s <= (int32_t)t);
        case GTI: BRANCH((int32_t)s > (int32_t)t);
        case GEI: BRANCH((int32_t)s >= (int32_t)t);
        case LTU: BRANCH(s < t);
        case LEU: BRANCH(s <= t);
        case GTU: BRANCH(s > t);
        case GEU: BRANCH(s >= t);
        case LOAD1: ON_ONE(*AT(t, 1));
        case LOAD2: ON_ONE(load2(AT(t, 2)));
        case LOAD4: ON_ONE(load4(AT(t, 4)));
        case STORE1: TAKE_TWO; *AT(s, 1) = (uint8_t)t; break;
        case STORE2: TAKE_TWO; store2(AT(s, 2), t); break;
        case STORE4: TAKE_TWO; store4(AT(s, 4), t); break;
        case ARG: TAKE_ONE; store4(AT(p + v, 4), t); break;
        case BLOCK_COPY:
            TAKE_TWO;
            if (((s | t | v) & 3) != 0 || (uint64_t)s + v > module->size || (uint64_t)t + v > module->size)
                END("stopped: copy range", 0);
            memmove(block + s, block + t, v);
            break;
        case SEX8: ON_ONE((uint32_t)(int8_t)t);
        case SEX16: ON_ONE((uint32_t)(int16_t)t);
        case NEGI: ON_ONE(-t);
        case BCOM: ON_ONE(~t);
        case ADD: ON_TWO(s + t);
        case SUB: ON_TWO(s - t);
        case MULI: case MULU: ON_TWO(s * t);
        case DIVI: case MODI:
            TAKE_TWO;
            if (t == 0) END("stopped: divide zero", 0);
            if (s == 0x80000000 && t == UINT32_MAX) END("stopped: divide over", 0);
            operands[depth++] =
                (uint32_t)(code[next - 1].op == DIVI ? (int32_t)s / (int32_t)t : (int32_t)s % (int32_t)t);
            break;
        case DIVU: case MODU:
            TAKE_TWO;
            if (t == 0) END("stopped: divide zero", 0);
            operands[depth++] = code[next - 1].op == DIVU ? s / t : s % t;
            break;
        case BAND: ON_TWO(s & t);
        case BOR: ON_TWO(s | t);
        case BXOR: ON_TWO(s ^ t);
        case LSH: ON_TWO(s << (t & 31));
        case RSHI: ON_TWO((uint32_t)((int32_t)s >> (t & 31)));
        case RSHU: ON_TWO(s >> (t & 31));
        }
    }
    END("budget used", 0);
}

static void fail(const char *why)
{
    fprintf(stderr, "yardstick: %s\n", why);
    exit(70);
}

static void *room_for(uint64_t count, size_t size)
{
    void *room = calloc(count == 0 ? 1 : count, size);
    if (room == NULL) fail("no memory");
    return room;
}

static uint8_t *read_file(const char *name, uint64_t *len)
{
    FILE *file = fopen(name, "rb");
    if (file == NULL || fseek(file, 0, SEEK_END) != 0) fail("the image can't be read");
    *len = (uint64_t)ftell(file);
    uint8_t *bytes = room_for(*len, 1);
    rewind(file);
    if (fread(bytes, 1, *len, file) != *len) fail("the image can't be read");
    fclose(file);
    return bytes;
}

static uint32_t width_of(uint32_t op)
{
    switch (op) {
    case ENTER: case LEAVE: case CONST: case LOCAL: case BLOCK_COPY: return 4;
    case ARG: return 1;
    default: return op >= EQ && op <= GEU ? 4 : 0;
    }
}

static int is_integer_op(uint32_t op)
{
    return op > UNDEF && op <= RSHU && (op < EQF || op > GEF);
}

static struct instr *decode(const uint8_t *bytes, uint64_t len, uint32_t count)
{
    struct instr *code = room_for(count, sizeof *code);
    for (uint32_t n = 0; n < count; n++) {
        if (len == 0 || !is_integer_op(*bytes)) fail("no code");
        uint32_t op = *bytes, width = width_of(op);
        if (len < 1 + width) fail("code short");
        uint32_t operand = width == 4 ? load4(bytes + 1) : width == 1 ? bytes[1] : 0;
        if (op >= EQ && op <= GEU && operand >= count) fail("branch out");
        code[n] = (struct instr){op, operand};
        bytes += 1 + width;
        len -= 1 + width;
    }
    return code;
}

static struct module load(const char *name, uint32_t word)
{
    uint64_t len;
    uint8_t *file = read_file(name, &len);
    uint32_t header[HEADER_LEN / 4];
    if (len < HEADER_LEN) fail("header short");
    for (size_t k = 0; k < HEADER_LEN / 4; k++) header[k] = load4(file + 4 * k);
    uint64_t count = header[1], code_at = header[2], code_len = header[3], data_at = header[4];
    uint64_t filled = (uint64_t)header[5] + header[6], block_len = filled + header[7];
    if (header[0] != MAGIC || count == 0 || code_len > MAX_CODE_LEN || block_len > MAX_BLOCK_LEN ||
        code_at + code_len > len || data_at + filled > len)
        fail("no image");
    struct module module = {decode(file + code_at, code_len, header[1]), header[1], NULL, ENTRY_FRAME_LEN};
    while (module.size < block_len) module.size *= 2;
    module.block = room_for(module.size, 1);
    memcpy(module.block, file + data_at, filled);
    uint8_t *frame = module.block + module.size - ENTRY_FRAME_LEN;
    memset(frame, 0, ENTRY_FRAME_LEN);
    store4(frame, UINT32_MAX);
    store4(frame + 8, word);
    free(file);
    return module;
}

int main(int argc, char **argv)
{
    if (argc < 3 || argc > 4) fail("usage: yardstick N IMAGE [WORD]");
    struct module module = load(argv[2], argc == 4 ? (uint32_t)strtoll(argv[3], NULL, 10) : 0);
    struct end end = run(&module, strtoull(argv[1], NULL, 10));
    fprintf(stderr, end.line, end.word);
    fputc('\n', stderr);
    return 0;
}
