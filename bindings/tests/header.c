/* 01's sample page through the header alone: prints its listing, then a few numbers, and the records and undo entries in the
 * desk's words. */
#include "clue_desk.h"
#include <inttypes.h>
#include <stdio.h>
#include <string.h>

static uint32_t desk[CLUE_DESK_WORDS];
static uint32_t nets[CLUE_DESK_NETS_WORDS];
static int32_t x[CLUE_DESK_LINE_NODES], y[CLUE_DESK_LINE_NODES];
static uint8_t kinds[CLUE_DESK_LINE_NODES], dirs[CLUE_DESK_LINE_NODES];
static uint32_t joins[CLUE_DESK_JOINS_WORDS];
static uint32_t refusal[CLUE_DESK_REFUSAL_WORDS];

static uint32_t read(const char *text) {
    return read_text(desk, CLUE_DESK_WORDS, (const uint8_t *)text, strlen(text), refusal, CLUE_DESK_REFUSAL_WORDS);
}

static void lay_out(void) {
    uint32_t number = layout(desk, CLUE_DESK_WORDS, 1, 1, nets, CLUE_DESK_NETS_WORDS, x, CLUE_DESK_VERTICES, y, CLUE_DESK_VERTICES, kinds, CLUE_DESK_VERTICES, joins, CLUE_DESK_JOINS_WORDS);
    printf("layout %" PRIu32 "\n", number);
    for (uint32_t v = nets[1]; v < nets[1] + nets[2]; v++)
        printf("%" PRIu32 " %" PRId32 " %" PRId32 " %c\n", v - nets[1], x[v], y[v], kinds[v]);
}

static void find(int32_t from_x, int32_t from_y, int32_t to_x, int32_t to_y) {
    uint32_t number = search(desk, CLUE_DESK_WORDS, 1, from_x, from_y, &to_x, 1, &to_y, 1, x, CLUE_DESK_LINE_NODES, y, CLUE_DESK_LINE_NODES, kinds, CLUE_DESK_LINE_NODES, dirs, CLUE_DESK_LINE_NODES);
    printf("search %" PRIu32 "\n", number);
    for (size_t i = 0; i < CLUE_DESK_LINE_NODES && kinds[i] != 0; i++)
        printf("%" PRId32 " %" PRId32 " %c %d\n", x[i], y[i], kinds[i], dirs[i]);
}

/* A row, whose fields behind the first are coordinates, as many as is said. */
static void print_row(const char *name, const uint32_t *row, size_t words, size_t coordinates) {
    printf("%s", name);
    for (size_t f = 0; f < words; f++) {
        int32_t coordinate = (int32_t)(row[f] - CLUE_DESK_ORIGIN);
        if (f >= 1 && f <= coordinates)
            printf(" %" PRId32, coordinate);
        else
            printf(" %" PRIu32, row[f]);
    }
    printf("\n");
}

static void print_list(const char *name, size_t at, size_t words, size_t coordinates) {
    for (uint32_t i = 0; i < desk[at]; i++)
        print_row(name, desk + at + 1 + i * words, words, coordinates);
}

static void print_lists(void) {
    print_list("box", CLUE_DESK_BOXES_AT, CLUE_DESK_BOX_WORDS, 4);
    print_list("port", CLUE_DESK_PORTS_AT, CLUE_DESK_PORT_WORDS, 2);
    print_list("net", CLUE_DESK_NETS_AT, CLUE_DESK_NET_ID_WORDS, 0);
    print_list("end", CLUE_DESK_ENDS_AT, CLUE_DESK_END_WORDS, 2);
}

static void print_entries(void) {
    static const char *const names[] = {
        [CLUE_DESK_KIND_BOX] = "box", [CLUE_DESK_KIND_PORT] = "port", [CLUE_DESK_KIND_NET] = "net", [CLUE_DESK_KIND_END] = "end"};
    static const size_t words[] = {CLUE_DESK_BOX_WORDS, CLUE_DESK_PORT_WORDS, CLUE_DESK_NET_ID_WORDS, CLUE_DESK_END_WORDS};
    static const size_t coordinates[] = {4, 2, 0, 2};
    for (uint32_t k = 0; k < desk[0]; k++) {
        const uint32_t *entry = desk + CLUE_DESK_ENTRIES_AT + k * CLUE_DESK_ENTRY_WORDS;
        if (entry[0] < CLUE_DESK_UNDO_RETIRE) {
            printf("last %s goes\n", names[entry[0] - CLUE_DESK_UNDO_ADD]);
        } else {
            uint32_t kind = entry[0] - CLUE_DESK_UNDO_RETIRE;
            printf("at %" PRIu32 " comes back ", entry[1]);
            print_row(names[kind], entry + 2, words[kind], coordinates[kind]);
        }
    }
}

int main(void) {
    printf("read %" PRIu32 "\n", read("net\t1\nend\t1\t0\t0\t0\nend\t1\t2560\t5120\t0\n"));
    lay_out();
    find(0, 0, 2560, 5120);
    find(1, 1, 2560, 5120);
    uint32_t numbers[] = {
        add_box(desk, CLUE_DESK_WORDS, 7, 25600, 0, 30720, 5120),
        add_port(desk, CLUE_DESK_WORDS, 7, 25600, 2560, CLUE_DESK_NEG_X),
        add_net(desk, CLUE_DESK_WORDS, 1),
        add_end(desk, CLUE_DESK_WORDS, 1, 25600, 2560, 1),
        retire_box(desk, CLUE_DESK_WORDS, 7),
        retire_port(desk, CLUE_DESK_WORDS, 0),
        retire_box(desk, CLUE_DESK_WORDS, 7),
        retire_net(desk, CLUE_DESK_WORDS, 1),
        retire_end(desk, CLUE_DESK_WORDS, 3),
        retire_end(desk, CLUE_DESK_WORDS, 2),
        undo(desk, CLUE_DESK_WORDS),
        undo(desk, CLUE_DESK_WORDS - 1),
    };
    for (size_t i = 0; i < sizeof numbers / sizeof *numbers; i++)
        printf("%" PRIu32 "%c", numbers[i], i + 1 < sizeof numbers / sizeof *numbers ? ' ' : '\n');
    print_entries();
    for (int i = 0; i < 2; i++)
        printf("undo %" PRIu32 "\n", undo(desk, CLUE_DESK_WORDS));
    print_lists();
    print_entries();
    uint32_t long_id[] = {
        add_box(desk, CLUE_DESK_WORDS, CLUE_DESK_ID, 25600, 0, 30720, 5120),
        retire_box(desk, CLUE_DESK_WORDS, CLUE_DESK_ID),
        retire_box(desk, CLUE_DESK_WORDS, CLUE_DESK_ID),
        undo(desk, CLUE_DESK_WORDS),
    };
    for (size_t i = 0; i < sizeof long_id / sizeof *long_id; i++)
        printf("%" PRIu32 "%c", long_id[i], i + 1 < sizeof long_id / sizeof *long_id ? ' ' : '\n');
    print_list("box", CLUE_DESK_BOXES_AT, CLUE_DESK_BOX_WORDS, 4);
    printf("read %" PRIu32 "\n", read("net\t4294967295\n"));
    print_lists();
    printf("read %" PRIu32, read("net\t1\nport\t9\t0\t0\t0\n"));
    printf(" at line %" PRIu32 " with %" PRIu32 "\n", refusal[0], refusal[1]);
    return 0;
}
