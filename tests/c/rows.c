// Prints the rows of tests/vectors with the answers of the library: `parse` rows by each call that reads a document, `compact`
// and `pretty` rows by those that print one, `indexes` rows by the one that finds them, `locate` rows by the one that finds an
// error's line and column, `pointer` rows by the one that follows a pointer and the one that prints what it names. Rows that C
// has no call for and comments are copied. So a file of right rows comes out unchanged.
#include <inttypes.h>
#include <simd_json.h>
#include <stdbool.h>
#include <stdio.h>
#include <stdlib.h>
#include <string.h>

// What is in variables before a call that has to leave them alone, or to write them.
#define NOT_WRITTEN 77
#define FEW 64

struct bytes {
    unsigned char *at;
    size_t len, room;
};

struct row {
    struct bytes input;
    size_t limit;
};

// A copy of what a parser has lent.
struct tape {
    int status;
    simd_json_place place;
    size_t nodes_len, text_len;
    simd_json_node *nodes;
    unsigned char *text;
};

struct print {
    int status;
    simd_json_place place;
    struct bytes text;
};

static void stop(const char *why, const char *what) {
    fprintf(stderr, "rows: %s: %s\n", why, what);
    exit(2);
}

// Memory for so many bytes; null for none, which every call takes.
static void *memory(size_t len) {
    void *at = len ? malloc(len) : 0;
    if (len && !at) stop("no memory", "malloc");
    return at;
}

static void put(struct bytes *to, const void *from, size_t len) {
    if (to->room - to->len < len) {
        to->room = 2 * to->room + len;
        to->at = realloc(to->at, to->room);
        if (!to->at) stop("no memory", "realloc");
    }
    if (len) memcpy(to->at + to->len, from, len);
    to->len += len;
}

static void put_text(struct bytes *to, const char *text) { put(to, text, strlen(text)); }

static void put_number(struct bytes *to, size_t number) {
    char digits[32];
    put(to, digits, (size_t)snprintf(digits, sizeof digits, "%zu", number));
}

// That a call is wrong, behind the answer.
static void blame(struct bytes *wrong, const char *call, const char *what) {
    put_text(wrong, "; ");
    put_text(wrong, call);
    put_text(wrong, what);
}

static bool is_same(const struct bytes *a, const struct bytes *b) {
    return a->len == b->len && (a->len == 0 || memcmp(a->at, b->at, a->len) == 0);
}

// A byte of an answer.
static void put_shown(struct bytes *to, unsigned char byte) {
    char escape[4];
    if (byte >= 0x20 && byte != 0x7f && byte != '%')
        put(to, &byte, 1);
    else
        put(to, escape, (size_t)snprintf(escape, sizeof escape, "%%%02X", byte));
}

static unsigned hex(char digit) {
    const char *digits = "0123456789ABCDEF", *at = digit ? strchr(digits, digit) : 0;
    if (!at) stop("no byte after %", "two digits of 0 to 9 and A to F");
    return (unsigned)(at - digits);
}

// The bytes that a text up to `end` stands for: `%XX` is a byte, `%(N:TEXT)` a text so many times.
static void decode(const char *text, const char *end, struct bytes *to) {
    while (text < end) {
        if (*text != '%') {
            put(to, text++, 1);
        } else if (text[1] != '(') {
            unsigned char byte = (unsigned char)(hex(text[1]) << 4 | hex(text[2]));
            put(to, &byte, 1);
            text += 3;
        } else {
            char *colon;
            size_t times = strtoull(text + 2, &colon, 10);
            const char *close = memchr(colon, ')', (size_t)(end - colon));
            if (*colon != ':' || !close) stop("no text so many times", text);
            struct bytes piece = {0};
            decode(colon + 1, close, &piece);
            while (times--) put(to, piece.at, piece.len);
            free(piece.at);
            text = close + 1;
        }
    }
}

// A copy of the same bytes, with nothing behind it: some calls overwrite their input.
static void *copy_of(const void *from, size_t len) {
    void *copy = memory(len);
    if (copy) memcpy(copy, from, len);
    return copy;
}

static simd_json_parser unused;

// A parser with the row's limit that keeps nothing yet: opening it again closes the one before.
static simd_json_parser *new_parser(const struct row *row) {
    if (simd_json_open(&unused, row->limit) != SIMD_JSON_OK) stop("no parser", "simd_json_open");
    return &unused;
}

// Of a parser that is open with the row's limit, or without one. The input stays as it is.
static int check(simd_json_parser *parser, const struct row *row, simd_json_place *place, struct bytes *wrong) {
    const struct bytes *input = &row->input;
    void *copy = copy_of(input->at, input->len);
    *place = (simd_json_place){NOT_WRITTEN, NOT_WRITTEN};
    int status = parser ? simd_json_parser_check(parser, copy, input->len, place)
                        : simd_json_check(copy, input->len, row->limit, place);
    if (input->len && memcmp(copy, input->at, input->len) != 0)
        blame(wrong, parser ? "simd_json_parser_check" : "simd_json_check", " changed the input");
    free(copy);
    return status;
}

static void free_tape(struct tape *tape) {
    free(tape->nodes);
    free(tape->text);
}

static bool is_nowhere(simd_json_place place) { return place.index == 0 && place.character == SIMD_JSON_NO_CHARACTER; }

static struct tape tape_of(simd_json_parser *parser, const struct row *row, struct bytes *wrong) {
    void *copy = copy_of(row->input.at, row->input.len);
    simd_json_document lent = {0, NOT_WRITTEN, 0, NOT_WRITTEN};
    struct tape tape = {.place = {NOT_WRITTEN, NOT_WRITTEN}};
    tape.status = simd_json_parser_parse(parser, copy, row->input.len, &lent, &tape.place);
    if (tape.status == SIMD_JSON_OK) {
        tape.nodes_len = lent.nodes_len;
        tape.text_len = lent.text_len;
        if (tape.nodes_len > row->input.len || tape.text_len != row->input.len || lent.text != copy)
            blame(wrong, "simd_json_parser_parse", " lends something else");
        tape.nodes = copy_of(lent.nodes, lent.nodes_len * sizeof *lent.nodes);
        tape.text = copy_of(copy, row->input.len);
    } else if (lent.nodes || lent.nodes_len != NOT_WRITTEN || lent.text || lent.text_len != NOT_WRITTEN) {
        blame(wrong, "simd_json_parser_parse", " changed *document");
    }
    free(copy);
    return tape;
}

static int print(simd_json_parser *parser, uint32_t layout, const struct row *row, const struct bytes *pointer, struct print *text,
                 size_t *needed) {
    void *copy = copy_of(row->input.at, row->input.len);
    *needed = NOT_WRITTEN;
    text->place = (simd_json_place){NOT_WRITTEN, NOT_WRITTEN};
    int status = simd_json_parser_print(parser, copy, row->input.len, pointer->at, pointer->len, layout, text->text.at, text->text.len,
                                        needed, &text->place);
    free(copy);
    return status;
}

static const char *print_name(uint32_t layout) {
    return layout == SIMD_JSON_COMPACT ? "simd_json_parser_print (compact)" : "simd_json_parser_print (pretty)";
}

// Whether nothing is written from an index on.
static bool is_blank(const struct bytes *text, size_t from) {
    for (; from < text->len; from++)
        if (text->at[from] != NOT_WRITTEN) return false;
    return true;
}

// Into a few bytes, and then, where the text is longer, into one more than it has.
static struct print print_of(simd_json_parser *parser, uint32_t layout, const struct row *row, const struct bytes *pointer,
                             struct bytes *wrong) {
    const char *call = print_name(layout);
    struct print text = {.text = {memory(FEW), FEW, FEW}};
    size_t needed, again;
    memset(text.text.at, NOT_WRITTEN, FEW);
    text.status = print(parser, layout, row, pointer, &text, &needed);
    bool is_printed = text.status == SIMD_JSON_OK, is_long = text.status == SIMD_JSON_TOO_LITTLE_ROOM;
    if (!is_blank(&text.text, is_printed ? needed : 0)) blame(wrong, call, " changed out");
    if (!is_printed && !is_long && needed != NOT_WRITTEN) blame(wrong, call, " changed *needed");
    if ((is_printed && needed > FEW) || (is_long && (needed <= FEW || !is_nowhere(text.place))))
        blame(wrong, call, " is wrong with little room");
    if (is_long) {
        free(text.text.at);
        text.text = (struct bytes){memory(needed + 1), needed + 1, needed + 1};
        memset(text.text.at, NOT_WRITTEN, needed + 1);
        text.status = print(parser, layout, row, pointer, &text, &again);
        if (again != needed || !is_blank(&text.text, needed)) blame(wrong, call, " is wrong with enough room");
    }
    if (needed < text.text.len) text.text.len = needed;
    return text;
}

static void put_quoted(struct bytes *to, const unsigned char *text, size_t len) {
    static const char escaped[] = "\"\\\b\t\n\f\r", letters[] = "\"\\btnfr";
    char escape[8];
    put_text(to, "\"");
    for (size_t i = 0; i < len; i++) {
        const char *at = text[i] ? strchr(escaped, text[i]) : 0;
        if (at)
            put(to, (char[]){'\\', letters[at - escaped]}, 2);
        else if (text[i] < 0x20)
            put(to, escape, (size_t)snprintf(escape, sizeof escape, "\\u%04x", text[i]));
        else
            put_shown(to, text[i]);
    }
    put_text(to, "\"");
}

// A scalar in compact text.
static void put_scalar(struct bytes *to, const simd_json_node *node, const unsigned char *text) {
    char digits[24];
    switch (node->kind) {
    case SIMD_JSON_NULL: put_text(to, "null"); break;
    case SIMD_JSON_BOOL: put_text(to, node->value ? "true" : "false"); break;
    case SIMD_JSON_I64: put(to, digits, (size_t)snprintf(digits, sizeof digits, "%" PRId64, (int64_t)node->value)); break;
    case SIMD_JSON_U64: put_number(to, node->value); break;
    case SIMD_JSON_STRING: put_quoted(to, text + node->value, node->len); break;
    default: put(to, text + node->value, node->len);
    }
}

static void put_node(struct bytes *to, const simd_json_node *node, const unsigned char *text) {
    char name[SIMD_JSON_NAME_MAX];
    put(to, name, simd_json_kind_name(node->kind, name, sizeof name));
    if (node->kind == SIMD_JSON_NULL) return;
    put_text(to, " ");
    if (node->kind >= SIMD_JSON_ARRAY)
        put_number(to, node->len), put_text(to, " "), put_number(to, node->value);
    else
        put_scalar(to, node, text);
}

static void put_status(struct bytes *to, int status, simd_json_place place) {
    char name[SIMD_JSON_NAME_MAX];
    if (status != SIMD_JSON_OK) put_text(to, "! ");
    put(to, name, simd_json_status_name(status, name, sizeof name));
    put_text(to, " at character ");
    put_number(to, place.index);
    if (place.character == SIMD_JSON_NO_CHARACTER) return;
    // a byte, whose character is of one or two bytes
    unsigned char byte = (unsigned char)place.character;
    put_text(to, " ('");
    if (byte < 0x80)
        put_shown(to, byte);
    else
        put(to, (unsigned char[]){(unsigned char)(0xc0 | byte >> 6), (unsigned char)(0x80 | (byte & 0x3f))}, 2);
    put_text(to, "')");
}

static void put_tape(struct bytes *to, const struct tape *tape) {
    if (tape->status != SIMD_JSON_OK || !is_nowhere(tape->place)) {
        put_status(to, tape->status, tape->place);
        return;
    }
    for (size_t i = 0; i < tape->nodes_len; i++) {
        if (i) put_text(to, ", ");
        put_node(to, &tape->nodes[i], tape->text);
    }
}

static bool has_text(const simd_json_node *node) { return node->kind >= SIMD_JSON_I128 && node->kind <= SIMD_JSON_STRING; }

// Whether the texts lie in the input in their order, each by itself, and the fields of which nothing is said are 0.
static bool is_tidy(const struct tape *tape) {
    size_t end = 0;
    for (size_t i = 0; i < tape->nodes_len; i++) {
        const simd_json_node *node = &tape->nodes[i];
        bool is_text = has_text(node);
        bool is_container = node->kind == SIMD_JSON_ARRAY || node->kind == SIMD_JSON_OBJECT;
        if (!is_text && !is_container && node->len != 0) return false;
        if (is_text && (node->value < end || node->value > tape->text_len || node->len > tape->text_len - node->value)) return false;
        if (is_text) end = (size_t)node->value + node->len;
        if (node->kind == SIMD_JSON_NULL && node->value != 0) return false;
        if (node->kind == SIMD_JSON_BOOL && node->value > 1) return false;
    }
    return true;
}

// Whether two tapes are of equal values: 0 is printed without a sign.
static bool is_equal(const struct tape *a, const struct tape *b) {
    if (a->nodes_len != b->nodes_len) return false;
    for (size_t i = 0; i < a->nodes_len; i++) {
        const simd_json_node *m = &a->nodes[i], *n = &b->nodes[i];
        bool is_zero = m->kind == SIMD_JSON_I64 && m->value == 0 && n->kind == SIMD_JSON_U64;
        if (!is_zero && m->kind != n->kind) return false;
        if (m->len != n->len) return false;
        if (has_text(m) ? memcmp(a->text + m->value, b->text + n->value, m->len) != 0 : m->value != n->value) return false;
    }
    return true;
}

static bool is_same_tape(const struct tape *a, const struct tape *b) {
    if (!is_equal(a, b)) return false;
    for (size_t i = 0; i < a->nodes_len; i++)
        if (a->nodes[i].kind != b->nodes[i].kind) return false;
    return true;
}

// The same status and place by another call.
static void compare(struct bytes *wrong, const struct tape *tape, const char *call, int status, simd_json_place place) {
    if (status == tape->status && place.index == tape->place.index && place.character == tape->place.character) return;
    blame(wrong, "by ", call);
    put_text(wrong, ": ");
    put_status(wrong, status, place);
}

// The pointer that names the whole document.
static const struct bytes whole;

// The nodes of a document are printed as the document is, into just as much as is needed.
static void compare_nodes(struct bytes *wrong, const struct tape *tape, uint32_t layout, const struct bytes *text) {
    size_t needed = NOT_WRITTEN, again = NOT_WRITTEN;
    int status = simd_json_print(tape->nodes, tape->nodes_len, tape->text, tape->text_len, 0, layout, 0, 0, &needed);
    if (status != SIMD_JSON_TOO_LITTLE_ROOM || needed != text->len) {
        blame(wrong, "simd_json_print", " needs another length");
        return;
    }
    struct bytes out = {memory(needed), needed, needed};
    status = simd_json_print(tape->nodes, tape->nodes_len, tape->text, tape->text_len, 0, layout, out.at, needed, &again);
    if (status != SIMD_JSON_OK || again != needed || !is_same(&out, text)) blame(wrong, "simd_json_print", " differs");
    free(out.at);
}

// Each node was written where its text begins; all others are counted.
static void compare_places(struct bytes *wrong, const struct tape *tape, const struct row *row) {
    enum { MOST = 200 };
    for (size_t i = 0; i <= tape->nodes_len && i < MOST; i++) {
        simd_json_position at = {NOT_WRITTEN, NOT_WRITTEN, NOT_WRITTEN, -1};
        int status = simd_json_node_position(row->input.at, row->input.len, i, &at);
        const simd_json_node *node = &tape->nodes[i];
        if (i == tape->nodes_len ? status != SIMD_JSON_NO_VALUE || at.byte != NOT_WRITTEN : status != SIMD_JSON_OK)
            blame(wrong, "simd_json_node_position", " has another status");
        else if (i < tape->nodes_len && node->kind >= SIMD_JSON_I128 && node->kind <= SIMD_JSON_STRING
                 && at.byte + (node->kind == SIMD_JSON_STRING) != node->value)
            blame(wrong, "simd_json_node_position", " is elsewhere");
    }
}

// A document is printed, and read again as an equal value.
static void compare_print(struct bytes *wrong, const struct tape *tape, const struct row *row, simd_json_parser *parser, uint32_t layout) {
    const char *call = print_name(layout);
    struct print text = print_of(parser, layout, row, &whole, wrong);
    compare(wrong, tape, call, text.status, text.place);
    if (text.status == SIMD_JSON_OK && tape->status == SIMD_JSON_OK) {
        compare_nodes(wrong, tape, layout, &text.text);
        struct row printed = {text.text, row->limit};
        struct tape again = tape_of(new_parser(&printed), &printed, wrong);
        if (again.status != SIMD_JSON_OK || !is_equal(tape, &again)) {
            blame(wrong, "printed by ", call);
            put_text(wrong, " and read again: ");
            put_tape(wrong, &again);
        }
        free_tape(&again);
    }
    free(text.text.at);
}

// By each call, of a new parser and of one that is kept.
static void answer_parse(struct bytes *to, const struct row *row, simd_json_parser *parser) {
    struct bytes wrong = {0};
    struct tape tape = tape_of(new_parser(row), row, &wrong), kept = tape_of(parser, row, &wrong);
    put_tape(to, &tape);
    compare(&wrong, &tape, "simd_json_parser_parse, kept", kept.status, kept.place);
    if (tape.status == SIMD_JSON_OK && !is_tidy(&tape)) blame(&wrong, "simd_json_parser_parse", " has wrong fields");
    if (kept.status == SIMD_JSON_OK && !is_same_tape(&tape, &kept)) blame(&wrong, "simd_json_parser_parse", " lends another tape, kept");
    if (tape.status == SIMD_JSON_OK) compare_places(&wrong, &tape, row);
    simd_json_place place;
    int status = check(0, row, &place, &wrong);
    compare(&wrong, &tape, "simd_json_check", status, place);
    status = check(parser, row, &place, &wrong);
    compare(&wrong, &tape, "simd_json_parser_check", status, place);
    for (uint32_t layout = SIMD_JSON_COMPACT; layout <= SIMD_JSON_PRETTY; layout++) {
        compare_print(&wrong, &tape, row, new_parser(row), layout);
        compare_print(&wrong, &tape, row, parser, layout);
    }
    put(to, wrong.at, wrong.len);
    free_tape(&tape);
    free_tape(&kept);
    free(wrong.at);
}

static void answer_print(struct bytes *to, const struct row *row, simd_json_parser *parser, uint32_t layout) {
    struct bytes wrong = {0};
    struct print text = print_of(new_parser(row), layout, row, &whole, &wrong), kept = print_of(parser, layout, row, &whole, &wrong);
    if (kept.status != text.status || !is_same(&kept.text, &text.text)) blame(&wrong, print_name(layout), " differs, kept");
    free(kept.text.at);
    if (text.status != SIMD_JSON_OK || !is_nowhere(text.place))
        put_status(to, text.status, text.place);
    else
        for (size_t i = 0; i < text.text.len; i++) put_shown(to, text.text.at[i]);
    put(to, wrong.at, wrong.len);
    free(text.text.at);
    free(wrong.at);
}

// Into no memory, and then into just as much as is needed. Nothing is listed of what is rejected as a whole.
static void answer_indexes(struct bytes *to, const struct row *row) {
    size_t used = NOT_WRITTEN, again = NOT_WRITTEN;
    simd_json_place place = {NOT_WRITTEN, NOT_WRITTEN};
    void *copy = copy_of(row->input.at, row->input.len);
    int status = simd_json_scan(copy, row->input.len, 0, 0, &used, &place);
    if (status != SIMD_JSON_TOO_LITTLE_ROOM) {
        put_text(to, "none");
        if (used != NOT_WRITTEN) blame(to, "simd_json_scan", " changed *used");
    } else {
        uint32_t *indexes = memory(used * sizeof *indexes);
        status = simd_json_scan(copy, row->input.len, indexes, used, &again, &place);
        for (size_t i = 0; i < used; i++) {
            if (i) put_text(to, " ");
            put_number(to, indexes[i]);
        }
        if (status != SIMD_JSON_OK || again != used) blame(to, "simd_json_scan", " is wrong with just enough room");
        free(indexes);
    }
    if (!is_nowhere(place)) blame(to, "simd_json_scan", " has a place");
    if (row->input.len && memcmp(copy, row->input.at, row->input.len) != 0) blame(to, "simd_json_scan", " changed the input");
    free(copy);
}

// By the status of a check: first into no memory for the reason, and then into just as much as is needed.
static void answer_locate(struct bytes *to, const struct row *row) {
    simd_json_place place;
    simd_json_position position = {NOT_WRITTEN, NOT_WRITTEN, NOT_WRITTEN, -1}, again = position;
    size_t needed = NOT_WRITTEN, same = NOT_WRITTEN;
    int status = check(0, row, &place, to);
    int found = simd_json_location(row->input.at, row->input.len, 1, status, &place, &position, 0, 0, &needed);
    if (status == SIMD_JSON_OK) {
        put_text(to, "none");
        if (found != SIMD_JSON_OK || position.byte || position.line || position.column || position.status || needed)
            blame(to, "simd_json_location", " finds an error of a document");
        return;
    }
    struct bytes reason = {memory(needed), needed, needed};
    if (found != SIMD_JSON_TOO_LITTLE_ROOM || needed > SIMD_JSON_REASON_MAX) blame(to, "simd_json_location", " is wrong with no room");
    found = simd_json_location(row->input.at, row->input.len, 1, status, &place, &again, reason.at, needed, &same);
    if (found != SIMD_JSON_OK || same != needed || position.byte != again.byte || position.line != again.line
        || position.column != again.column || position.status != again.status)
        blame(to, "simd_json_location", " is wrong with just enough room");
    put_number(to, position.byte);
    put_text(to, " ");
    put_number(to, position.line);
    put_text(to, ":");
    put_number(to, position.column);
    put_text(to, ": ");
    for (size_t i = 0; i < needed; i++) put_shown(to, reason.at[i]);
    free(reason.at);
}

// A value in compact text; the index after it.
static size_t put_value(struct bytes *to, const struct tape *tape, size_t i) {
    const simd_json_node *node = &tape->nodes[i];
    bool is_object = node->kind == SIMD_JSON_OBJECT;
    if (node->kind < SIMD_JSON_ARRAY) {
        put_scalar(to, node, tape->text);
    } else {
        size_t at = i + 1;
        put_text(to, is_object ? "{" : "[");
        for (size_t n = 0; n < node->len; n++) {
            if (n) put_text(to, ",");
            if (is_object) at = put_value(to, tape, at), put_text(to, ":");
            at = put_value(to, tape, at);
        }
        put_text(to, is_object ? "}" : "]");
    }
    return simd_json_next(tape->nodes, i);
}

// The document of the last `document` row, and its bytes.
static struct tape document;
static struct row document_row;

static void read_document(struct row row) {
    struct bytes wrong = {0};
    free_tape(&document);
    free(document_row.input.at);
    document_row = row;
    document = tape_of(new_parser(&row), &row, &wrong);
    if (document.status != SIMD_JSON_OK || wrong.len) stop("no document", "simd_json_parser_parse");
}

// Why a pointer names nothing (RFC 6901, section 3), byte by byte.
static int32_t why_none(const struct bytes *pointer) {
    bool is_formed = pointer->len == 0 || pointer->at[0] == '/';
    for (size_t i = 0; i < pointer->len; i++)
        if (pointer->at[i] == '~') is_formed &= i + 1 < pointer->len && (pointer->at[i + 1] == '0' || pointer->at[i + 1] == '1');
    return is_formed ? SIMD_JSON_NO_VALUE : SIMD_JSON_INVALID_POINTER;
}

// The same value, or none, is printed by the parser from the bytes.
static void compare_at(struct bytes *wrong, simd_json_parser *parser, const struct bytes *pointer, const struct bytes *wanted) {
    struct print text = print_of(parser, SIMD_JSON_COMPACT, &document_row, pointer, wrong);
    bool is_right = wanted ? text.status == SIMD_JSON_OK && is_same(&text.text, wanted) : text.status == why_none(pointer);
    if (!is_right || !is_nowhere(text.place)) blame(wrong, "simd_json_parser_print", " differs");
    free(text.text.at);
}

// The same value, or none, is found by the parser, as an input of its own with the same nodes.
static void compare_found(struct bytes *wrong, simd_json_parser *parser, const struct bytes *pointer, size_t at) {
    struct bytes out = {memory(document_row.input.len), document_row.input.len, document_row.input.len};
    simd_json_found found = {NOT_WRITTEN, NOT_WRITTEN};
    simd_json_place place;
    memset(out.at, NOT_WRITTEN, out.len);
    if (simd_json_parser_scan(parser, document_row.input.at, document_row.input.len, &place) != SIMD_JSON_OK || !is_nowhere(place))
        blame(wrong, "simd_json_parser_scan", " rejects a document");
    int status = simd_json_parser_pointer(parser, pointer->at, pointer->len, &found, out.at, out.len);
    if (at == SIMD_JSON_NO_NODE) {
        if (status != why_none(pointer) || found.kind != NOT_WRITTEN || found.len != NOT_WRITTEN || !is_blank(&out, 0))
            blame(wrong, "simd_json_parser_pointer", " finds a value");
    } else if (status != SIMD_JSON_OK || found.kind != document.nodes[at].kind || !is_blank(&out, found.len)) {
        blame(wrong, "simd_json_parser_pointer", " finds no such value");
    } else {
        struct row row = {{out.at, found.len, found.len}, 1024};
        struct bytes shown = {0}, own = {0};
        struct tape tape = tape_of(new_parser(&row), &row, wrong);
        put_value(&shown, &document, at);
        if (tape.status == SIMD_JSON_OK) put_value(&own, &tape, 0);
        if (!is_same(&shown, &own)) blame(wrong, "simd_json_parser_pointer", " differs");
        free_tape(&tape);
        free(shown.at);
        free(own.at);
    }
    free(out.at);
}

// A row that says why a pointer leads nowhere keeps its answer, where none is found.
static void answer_pointer(struct bytes *to, const struct bytes *pointer, simd_json_parser *parser, const char *wanted) {
    size_t found = simd_json_pointer(document.nodes, document.nodes_len, document.text, document.text_len, 0, pointer->at, pointer->len);
    if (found != SIMD_JSON_NO_NODE) {
        struct bytes shown = {0}, text = {0};
        put_value(&shown, &document, found);
        put(to, shown.at, shown.len);
        decode((char *)shown.at, (char *)shown.at + shown.len, &text);
        compare_at(to, parser, pointer, &text);
        free(shown.at);
        free(text.at);
    } else {
        put_text(to, wanted[0] == '!' ? wanted : "none");
        compare_at(to, parser, pointer, 0);
    }
    compare_found(to, parser, pointer, found);
}

static bool is_word(const char *line, size_t len, const char *word) { return len == strlen(word) && memcmp(line, word, len) == 0; }

// A row without its answer is followed by the one that is found. `kept` is open for 1,024 containers, `other` for any number.
static void answer(const char *line, struct bytes *to, simd_json_parser *kept, simd_json_parser *other) {
    static const char *const copied[] = {"padded", "path", "paths"};
    const char *input = strchr(line, ' '), *end = input ? strstr(input, " => ") : 0;
    size_t len = strcspn(line, ": ");
    for (size_t i = 0; i < sizeof copied / sizeof *copied; i++)
        if (is_word(line, len, copied[i])) {
            put_text(to, line);
            return;
        }
    if (is_word(line, len, "document")) {
        struct row row = {.limit = 1024};
        decode(input + 1, line + strlen(line), &row.input);
        read_document(row);
        put_text(to, line);
        return;
    }
    bool is_pointer = is_word(line, len, "pointer");
    bool is_parse = is_word(line, len, "parse"), is_pretty = is_word(line, len, "pretty");
    bool is_indexes = is_word(line, len, "indexes"), is_locate = is_word(line, len, "locate");
    if (!end || !(is_parse || is_pretty || is_indexes || is_locate || is_pointer || is_word(line, len, "compact"))) stop("no row", line);
    struct row row = {.limit = line[len] == ':' ? strtoull(line + len + 1, 0, 10) : 1024};
    decode(input + 1, end, &row.input);
    put(to, line, (size_t)(end + 4 - line));
    if (is_indexes) {
        answer_indexes(to, &row);
    } else if (is_pointer) {
        answer_pointer(to, &row.input, kept, end + 4);
    } else if (is_locate) {
        answer_locate(to, &row);
    } else if (is_parse && row.limit == 1024) {
        answer_parse(to, &row, kept);
    } else if (is_parse) {
        if (simd_json_open(other, row.limit) != SIMD_JSON_OK) stop("no parser", line);
        answer_parse(to, &row, other);
    } else {
        answer_print(to, &row, kept, is_pretty ? SIMD_JSON_PRETTY : SIMD_JSON_COMPACT);
    }
    free(row.input.at);
}

int main(void) {
    simd_json_parser kept = {0}, other = {0};
    struct bytes out = {0};
    char *line = 0;
    size_t room = 0;
    if (simd_json_open(&kept, 1024) != SIMD_JSON_OK) stop("no parser", "simd_json_open");
    for (ssize_t len; (len = getline(&line, &room, stdin)) > 0;) {
        if (line[len - 1] == '\n') line[--len] = 0;
        out.len = 0;
        if (len == 0 || line[0] == '#')
            put_text(&out, line);
        else
            answer(line, &out, &kept, &other);
        fwrite(out.at, 1, out.len, stdout);
        putchar('\n');
    }
    simd_json_close(&kept);
    simd_json_close(&other);
    simd_json_close(&unused);
    free_tape(&document);
    free(document_row.input.at);
    free(line);
    free(out.at);
    return 0;
}
