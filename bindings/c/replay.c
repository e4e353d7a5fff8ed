/*
 * Answers recorded inputs through the C functions: reads records from standard input, a line each, and writes a line each.
 * docs/DECISIONS.md, "Recorded inputs", says what a record is and what it is answered with. All that a call is lent stands
 * between guards: where a call changed anything that it may not, standard error says what, and the exit status is 1.
 */
#include <inttypes.h>
#include <stdio.h>
#include <stdlib.h>
#include <string.h>

#include "simmerpath.h"

/* A longer line is no record. */
#define LONGEST_LINE 160000
#define DIGITS_A_BYTE 2
#define DECIMAL_BASE 10
#define HEX_BASE 16
#define MOST_BYTES (LONGEST_LINE / DIGITS_A_BYTE)

/* So many lists are lent for lexemes: kinds, starts, lengths, depths. */
#define LISTS 4

/* What a record is answered in where it names no room, or more: no text needs more. */
#define MOST_TEXT SIMMERPATH_MOST_ESCAPED

/* So many bytes stand on each side of what is lent: enough for any alignment, and for the widest write. */
#define GUARD 64

/* What lent bytes hold before a call: from UNWRITTEN on, and again after so many. No ASCII text is so, and no lexeme. */
#define UNWRITTEN 0x80
#define UNWRITTEN_STEPS 0x80

/* A record: what is asked, of which bytes, in how much room. */
struct record {
    unsigned long line;
    const char *op;
    const uint8_t *bytes;
    size_t size;
    uint64_t room;
};

/* What a call is lent: entries between guards, and how all of that was made. */
struct lent {
    const struct record *record;
    const char *what;
    size_t count;
    size_t entry;
    uint8_t *all;
    uint8_t *made;
};

/* An op: answers a record, or says that it is none. */
struct op {
    const char *name;
    bool (*answer)(const struct record *);
};

/* Says what a call did wrong, and ends the program. */
static _Noreturn void fail(const struct lent *lent, const char *did)
{
    fflush(stdout);
    fprintf(stderr, "replay: line %lu: %s: `%s` %s\n", lent->record->line, lent->record->op, lent->what, did);
    exit(EXIT_FAILURE);
}

/* Memory, or the end of the program. */
static uint8_t *allocate(size_t size)
{
    uint8_t *memory = malloc(size);
    if (!memory) {
        fputs("replay: there is no memory\n", stderr);
        exit(EXIT_FAILURE);
    }
    return memory;
}

/* Lends a call so many entries of a size to write to. */
static struct lent lend(const struct record *record, const char *what, size_t count, size_t entry)
{
    size_t whole = GUARD + count * entry + GUARD;
    struct lent lent = {record, what, count, entry, allocate(whole), allocate(whole)};
    for (size_t i = 0; i < whole; i++)
        lent.made[i] = (uint8_t)(UNWRITTEN + i % UNWRITTEN_STEPS);
    memcpy(lent.all, lent.made, whole);
    return lent;
}

/* Lends a call the bytes of a record to read. */
static struct lent lend_input(const struct record *record)
{
    struct lent lent = lend(record, "input", record->size, sizeof(uint8_t));
    memcpy(lent.made + GUARD, record->bytes, record->size);
    memcpy(lent.all + GUARD, record->bytes, record->size);
    return lent;
}

/* The room that a record names, so far as any answer needs it. */
static size_t room_of(const struct record *record, size_t most)
{
    return record->room < most ? (size_t)record->room : most;
}

/* Lends a call a buffer for a text, in the room that the record names. */
static struct lent lend_buffer(const struct record *record)
{
    return lend(record, "buffer", room_of(record, MOST_TEXT), sizeof(uint8_t));
}

/* Where the lent entries start. */
static void *start(const struct lent *lent)
{
    return lent->all + GUARD;
}

/* Sees that a call left all as it was, but for the first entries, so many as it wrote. */
static void check_left(const struct lent *lent, uint64_t written)
{
    if (written > lent->count)
        fail(lent, "has less room than was said to be written");
    size_t end = GUARD + lent->count * lent->entry, left = GUARD + (size_t)written * lent->entry;
    if (memcmp(lent->all, lent->made, GUARD) != 0)
        fail(lent, "was written before its start");
    if (memcmp(lent->all + end, lent->made + end, GUARD) != 0)
        fail(lent, "was written past its end");
    if (memcmp(lent->all + left, lent->made + left, end - left) != 0)
        fail(lent, written ? "was written behind what was said" : "was written");
}

/* Takes back what was lent. */
static void take_back(struct lent *lent)
{
    free(lent->all);
    free(lent->made);
}

/* Sees that what was lent is all as it was, and takes it back. */
static void take_back_unwritten(struct lent *lent)
{
    check_left(lent, 0);
    take_back(lent);
}

/* How many entries an answer wrote: none where it is a refusal. */
static uint64_t unless_refused(uint64_t answer, uint64_t written)
{
    return simmerpath_is_refusal(answer) ? 0 : written;
}

/* `refused NUMBER BYTE CHARACTER`. */
static void say_refused(uint64_t refusal)
{
    printf("refused %u %u %u\n", simmerpath_refusal_number(refusal), simmerpath_refusal_byte(refusal),
           simmerpath_refusal_character(refusal));
}

/* `ok NUMBER`, or the refusal. */
static void say_number(uint64_t answer)
{
    if (simmerpath_is_refusal(answer))
        say_refused(answer);
    else
        printf("ok %" PRIu64 "\n", answer);
}

/* `ok HEX`, with `-` for no bytes. */
static void say_hex(const uint8_t *bytes, size_t size)
{
    fputs(size ? "ok " : "ok -", stdout);
    for (size_t i = 0; i < size; i++)
        printf("%02x", (unsigned)bytes[i]);
}

/* Sees what a call left of the buffer that it wrote its text to, and answers with that text, or with the refusal. */
static void say_text(const struct lent *out, uint64_t answer, const char *after)
{
    check_left(out, unless_refused(answer, answer));
    if (simmerpath_is_refusal(answer)) {
        say_refused(answer);
        return;
    }
    say_hex(start(out), (size_t)answer);
    puts(after);
}

/* What a digit stands for; HEX_BASE for what is none. */
static unsigned digit_of(uint8_t c)
{
    if (c >= '0' && c <= '9')
        return c - (unsigned)'0';
    if (c >= 'a' && c <= 'f')
        return c - (unsigned)'a' + DECIMAL_BASE;
    if (c >= 'A' && c <= 'F')
        return c - (unsigned)'A' + DECIMAL_BASE;
    return HEX_BASE;
}

/* How many bytes at the front of a text are digits of a base. */
static size_t digits_in(const uint8_t *text, size_t size, unsigned base)
{
    size_t count = 0;
    while (count < size && digit_of(text[count]) < base)
        count++;
    return count;
}

/* Reads decimal digits, one or more, of a number of 64 bits. */
static bool read_decimal(const uint8_t *text, size_t size, uint64_t *value)
{
    if (size == 0 || digits_in(text, size, DECIMAL_BASE) != size)
        return false;
    *value = 0;
    for (size_t i = 0; i < size; i++) {
        uint64_t digit = digit_of(text[i]);
        if (*value > (UINT64_MAX - digit) / DECIMAL_BASE)
            return false;
        *value = *value * DECIMAL_BASE + digit;
    }
    return true;
}

/* `utf8`: how many characters a text has. */
static bool answer_utf8(const struct record *record)
{
    struct lent text = lend_input(record);
    uint64_t answer = simmerpath_utf8_validate(start(&text), text.count);
    take_back_unwritten(&text);
    say_number(answer);
    return true;
}

/* `keyword`: the kind of a word, or `none`. */
static bool answer_keyword(const struct record *record)
{
    struct lent word = lend_input(record);
    uint64_t answer = simmerpath_get_keyword_token(start(&word), word.count);
    take_back_unwritten(&word);
    if (answer == SIMMERPATH_NO_KIND)
        puts("none");
    else
        say_number(answer);
    return true;
}

/* `label`: whether a text is a label's name. */
static bool answer_label(const struct record *record)
{
    struct lent text = lend_input(record);
    uint64_t answer = simmerpath_is_label(start(&text), text.count);
    take_back_unwritten(&text);
    say_number(answer);
    return true;
}

/* `display`: the text that a kind is shown as, and a digit for each class. */
static bool answer_display(const struct record *record)
{
    uint64_t kind;
    if (!read_decimal(record->bytes, record->size, &kind) || kind > UINT16_MAX)
        return false;
    struct lent out = lend_buffer(record);
    uint64_t answer = simmerpath_token_display((uint16_t)kind, start(&out), out.count);
    uint64_t classes = simmerpath_token_classes((uint16_t)kind);
    const uint64_t each[] = {SIMMERPATH_CLASS_OPERATOR, SIMMERPATH_CLASS_COMPARISON_OPERATOR, SIMMERPATH_CLASS_SET_OPERATOR,
                             SIMMERPATH_CLASS_AGGREGATOR, SIMMERPATH_CLASS_AGGREGATOR_WITH_PARAM};
    char flags[] = " 00000";
    for (size_t i = 0; i < sizeof each / sizeof *each; i++)
        if (classes & each[i])
            flags[1 + i] = '1';
    say_text(&out, answer, flags);
    take_back(&out);
    return true;
}

/* `escape`: a text escaped. */
static bool answer_escape(const struct record *record)
{
    struct lent text = lend_input(record);
    struct lent out = lend_buffer(record);
    uint64_t answer = simmerpath_escape_string(start(&text), text.count, start(&out), out.count);
    take_back_unwritten(&text);
    say_text(&out, answer, "");
    take_back(&out);
    return true;
}

/* Answers with the text of a literal, in a reading. */
static bool unquote(const struct record *record, enum simmerpath_reading reading)
{
    struct lent literal = lend_input(record);
    struct lent out = lend_buffer(record);
    uint64_t answer = simmerpath_unquote_string(start(&literal), literal.count, reading, start(&out), out.count);
    check_left(&literal, 0);
    if (simmerpath_is_inner(answer)) {
        size_t length = simmerpath_unquoted_length(answer);
        check_left(&out, 0);
        if (length >= literal.count)
            fail(&literal, "is shorter than the part of it that was handed back");
        say_hex((const uint8_t *)start(&literal) + 1, length);
        puts("");
    } else {
        say_text(&out, answer, "");
    }
    take_back(&literal);
    take_back(&out);
    return true;
}

/* `unquote`: the text of a literal, in the crate reading. */
static bool answer_unquote(const struct record *record)
{
    return unquote(record, SIMMERPATH_READING_CRATE);
}

/* `unquotedoc`: the text of a literal, in the documented reading. */
static bool answer_unquotedoc(const struct record *record)
{
    return unquote(record, SIMMERPATH_READING_DOCUMENTED);
}

/* Answers with the bits of a number's value, and its notation, in a reading. */
static bool number(const struct record *record, enum simmerpath_reading reading)
{
    static const char *const notations[] = {
        [SIMMERPATH_NOTATION_DECIMAL] = "decimal", [SIMMERPATH_NOTATION_HEX] = "hex", [SIMMERPATH_NOTATION_OCTAL] = "octal"};
    struct lent text = lend_input(record);
    struct lent bits = lend(record, "bits", 1, sizeof(uint64_t));
    uint64_t answer = simmerpath_parse_str_radix(start(&text), text.count, reading, start(&bits));
    take_back_unwritten(&text);
    check_left(&bits, unless_refused(answer, 1));
    if (simmerpath_is_refusal(answer))
        say_refused(answer);
    else if (answer < sizeof notations / sizeof *notations)
        printf("ok %016" PRIx64 " %s\n", *(uint64_t *)start(&bits), notations[answer]);
    else
        fail(&bits, "was written in an unknown notation");
    take_back(&bits);
    return true;
}

/* `number`: what a number is, in the crate reading. */
static bool answer_number(const struct record *record)
{
    return number(record, SIMMERPATH_READING_CRATE);
}

/* `numberdoc`: what a number is, in the documented reading. */
static bool answer_numberdoc(const struct record *record)
{
    return number(record, SIMMERPATH_READING_DOCUMENTED);
}

/* A function that reads a duration. */
typedef uint64_t duration_reading(const uint8_t *, size_t, uint64_t *, uint32_t *);

/* Answers with the seconds and the nanoseconds that a text lasts, in a reading. */
static bool time_text(const struct record *record, duration_reading *read)
{
    struct lent text = lend_input(record);
    struct lent secs = lend(record, "secs", 1, sizeof(uint64_t));
    struct lent nanos = lend(record, "nanos", 1, sizeof(uint32_t));
    uint64_t answer = read(start(&text), text.count, start(&secs), start(&nanos));
    take_back_unwritten(&text);
    check_left(&secs, unless_refused(answer, 1));
    check_left(&nanos, unless_refused(answer, 1));
    if (simmerpath_is_refusal(answer))
        say_refused(answer);
    else
        printf("ok %" PRIu64 " %" PRIu32 "\n", *(uint64_t *)start(&secs), *(uint32_t *)start(&nanos));
    take_back(&secs);
    take_back(&nanos);
    return true;
}

/* `duration`: how long a text lasts. */
static bool answer_duration(const struct record *record)
{
    return time_text(record, simmerpath_parse_duration);
}

/* `durexact`: how long a text lasts, without loss. */
static bool answer_durexact(const struct record *record)
{
    return time_text(record, simmerpath_parse_duration_exact);
}

/* `durwrite`: the text of the duration of so many seconds and nanoseconds, two numbers with a space between. */
static bool answer_durwrite(const struct record *record)
{
    size_t end = digits_in(record->bytes, record->size, DECIMAL_BASE);
    uint64_t secs, nanos;
    if (end == record->size || record->bytes[end] != ' ')
        return false;
    if (!read_decimal(record->bytes, end, &secs))
        return false;
    if (!read_decimal(record->bytes + end + 1, record->size - end - 1, &nanos) || nanos > UINT32_MAX)
        return false;
    struct lent out = lend_buffer(record);
    uint64_t answer = simmerpath_display_duration(secs, (uint32_t)nanos, start(&out), out.count);
    say_text(&out, answer, "");
    take_back(&out);
    return true;
}

/* `ok`, and the kind, the start, the length and the depth of each lexeme. */
static void say_lexemes(const uint16_t *kinds, const uint32_t *starts, const uint32_t *lengths, const uint32_t *depths,
                        uint64_t count)
{
    fputs("ok", stdout);
    for (uint64_t i = 0; i < count; i++)
        printf(" %u,%" PRIu32 ",%" PRIu32 ",%" PRIu32, (unsigned)kinds[i], starts[i], lengths[i], depths[i]);
    puts("");
}

/* Answers with the lexemes of a query, in a reading, in lists of these rooms. */
static bool lex_in(const struct record *record, enum simmerpath_reading reading, const size_t rooms[LISTS])
{
    struct lent query = lend_input(record);
    struct lent kinds = lend(record, "kinds", rooms[0], sizeof(uint16_t));
    struct lent starts = lend(record, "starts", rooms[1], sizeof(uint32_t));
    struct lent lengths = lend(record, "lengths", rooms[2], sizeof(uint32_t));
    struct lent depths = lend(record, "depths", rooms[3], sizeof(uint32_t));
    uint64_t answer = simmerpath_lexer(start(&query), query.count, reading, start(&kinds), kinds.count, start(&starts),
                                       starts.count, start(&lengths), lengths.count, start(&depths), depths.count);
    take_back_unwritten(&query);
    check_left(&kinds, unless_refused(answer, answer));
    check_left(&starts, unless_refused(answer, answer));
    check_left(&lengths, unless_refused(answer, answer));
    check_left(&depths, unless_refused(answer, answer));
    if (simmerpath_is_refusal(answer))
        say_refused(answer);
    else
        say_lexemes(start(&kinds), start(&starts), start(&lengths), start(&depths), answer);
    take_back(&kinds);
    take_back(&starts);
    take_back(&lengths);
    take_back(&depths);
    return true;
}

/* Answers with the lexemes of a query, in a reading, in lists of the room that the record names. */
static bool lex(const struct record *record, enum simmerpath_reading reading)
{
    size_t room = room_of(record, SIMMERPATH_MOST_LEXEMES);
    const size_t rooms[LISTS] = {room, room, room, room};
    return lex_in(record, reading, rooms);
}

/* `lex`: the lexemes of a query, in the crate reading. */
static bool answer_lex(const struct record *record)
{
    return lex(record, SIMMERPATH_READING_CRATE);
}

/* `lexdoc`: the lexemes of a query, in the documented reading. */
static bool answer_lexdoc(const struct record *record)
{
    return lex(record, SIMMERPATH_READING_DOCUMENTED);
}

/* `lexrooms`: those of the crate reading, in lists of a room each: four numbers with a space behind each, then the query. */
static bool answer_lexrooms(const struct record *record)
{
    struct record query = *record;
    size_t rooms[LISTS];
    for (size_t i = 0; i < LISTS; i++) {
        size_t end = digits_in(query.bytes, query.size, DECIMAL_BASE);
        if (end == query.size || query.bytes[end] != ' ' || !read_decimal(query.bytes, end, &query.room))
            return false;
        rooms[i] = room_of(&query, SIMMERPATH_MOST_LEXEMES);
        query.bytes += end + 1;
        query.size -= end + 1;
    }
    return lex_in(&query, SIMMERPATH_READING_CRATE, rooms);
}

/* Answers with the reason of a word of a query, in a reading: the number of its lexeme, a space, and the query. */
static bool reason_of(const struct record *record, enum simmerpath_reading reading)
{
    size_t end = digits_in(record->bytes, record->size, DECIMAL_BASE);
    uint64_t number;
    if (end == record->size || record->bytes[end] != ' ' || !read_decimal(record->bytes, end, &number))
        return false;
    struct record asked = *record;
    asked.bytes += end + 1;
    asked.size -= end + 1;
    struct lent query = lend_input(&asked);
    uint64_t answer = simmerpath_word_reason(start(&query), query.count, reading, (size_t)number);
    take_back_unwritten(&query);
    say_number(answer);
    return true;
}

/* `reason`: why a word has its kind, in the documented reading. */
static bool answer_reason(const struct record *record)
{
    return reason_of(record, SIMMERPATH_READING_DOCUMENTED);
}

/* `reasoncrate`: the same in the crate reading. */
static bool answer_reasoncrate(const struct record *record)
{
    return reason_of(record, SIMMERPATH_READING_CRATE);
}

static const struct op ops[] = {
    {"utf8", answer_utf8},
    {"display", answer_display},
    {"keyword", answer_keyword},
    {"label", answer_label},
    {"unquote", answer_unquote},
    {"unquotedoc", answer_unquotedoc},
    {"escape", answer_escape},
    {"number", answer_number},
    {"numberdoc", answer_numberdoc},
    {"duration", answer_duration},
    {"durexact", answer_durexact},
    {"durwrite", answer_durwrite},
    {"lex", answer_lex},
    {"lexdoc", answer_lexdoc},
    {"lexrooms", answer_lexrooms},
    {"reason", answer_reason},
    {"reasoncrate", answer_reasoncrate},
};

/* The op of a name, or NULL. */
static const struct op *op_of(const uint8_t *name, size_t size)
{
    for (size_t i = 0; i < sizeof ops / sizeof *ops; i++)
        if (strlen(ops[i].name) == size && memcmp(ops[i].name, name, size) == 0)
            return &ops[i];
    return NULL;
}

/* Where the HEX at the front of a text ends: behind `-`, or behind an even number of digits; 0 where there is none. */
static size_t hex_end(const uint8_t *text, size_t size)
{
    if (size > 0 && text[0] == '-')
        return 1;
    size_t digits = digits_in(text, size, HEX_BASE);
    return digits % DIGITS_A_BYTE == 0 ? digits : 0;
}

/* Writes the bytes that a HEX stands for, and says how many there are. */
static size_t decode(const uint8_t *hex, size_t size, uint8_t *bytes)
{
    size_t count = size / DIGITS_A_BYTE;
    for (size_t i = 0; i < count; i++)
        bytes[i] = (uint8_t)(digit_of(hex[i * DIGITS_A_BYTE]) * HEX_BASE + digit_of(hex[i * DIGITS_A_BYTE + 1]));
    return count;
}

/* Reads the room at the end of a line: a space and decimal digits, or nothing, which is enough for any answer. */
static bool read_room(const uint8_t *text, size_t size, uint64_t *room)
{
    *room = UINT64_MAX;
    return size == 0 || (text[0] == ' ' && read_decimal(text + 1, size - 1, room));
}

/* Answers a line that is a record of an op that there is, and says whether it is. */
static bool answer_record(const uint8_t *text, size_t size, unsigned long line)
{
    const uint8_t *space = size > LONGEST_LINE ? NULL : memchr(text, ' ', size);
    if (!space)
        return false;
    const struct op *op = op_of(text, (size_t)(space - text));
    const uint8_t *hex = space + 1;
    size_t left = size - (size_t)(hex - text), end = hex_end(hex, left);
    uint64_t room;
    if (!op || end == 0 || !read_room(hex + end, left - end, &room))
        return false;
    uint8_t bytes[MOST_BYTES];
    struct record record = {line, op->name, bytes, decode(hex, end, bytes), room};
    return op->answer(&record);
}

/* Reads a line, so far as it may be a record and one byte more, and says whether there was any. */
static bool read_line(uint8_t *text, size_t *size)
{
    int c = getchar();
    bool any = c != EOF;
    *size = 0;
    for (; c != EOF && c != '\n'; c = getchar())
        if (*size <= LONGEST_LINE)
            text[(*size)++] = (uint8_t)c;
    return any;
}

/* Answers each line of standard input. */
int main(void)
{
    uint8_t text[LONGEST_LINE + 1];
    size_t size;
    for (unsigned long line = 1; read_line(text, &size); line++)
        if (!answer_record(text, size, line))
            puts("bad record");
    return fflush(stdout) == 0 && !ferror(stdin) ? EXIT_SUCCESS : EXIT_FAILURE;
}
