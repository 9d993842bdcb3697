/* Calls every function of the library on random inputs, damaged ones among them, and holds each
   answer to what can be said of it without scoring: the refusals, the bytes, the calls among the
   melds, the dora, the choice among the readings, what the room's setting and the indicators change,
   that the sources of the calls change nothing else, and that the functions for three players refuse
   what they have to and else answer as those for four, but for the total. A booking is held to the
   book that follows from the score, byte for byte, and to the book as it was where it is refused.
   Whatever is lent is allocated at exactly its size, so that valgrind sees every read or write
   outside of it. Before them, single hands: one under every setting, some with dora, one with a
   call of every kind and source, one with what three players alone are refused, and one that is
   booked with every byte for a seat and at every limit of a book. In the root:

     cc -std=c99 -O1 -g -Iinclude examples/c/boundary.c target/staticlib/libziwhakemo.a \
         -o target/boundary
     target/boundary 1000000
     valgrind --error-exitcode=9 target/boundary 1000000

   The first argument is the number of inputs, the second the seed (1 without it). An input is a
   hand, its calls, a win, a number of a reading, a number of bytes to lend, han, fu, basic points,
   a book, a deal and its winner; each is given to all functions. It exits with status 1 where an
   answer is wrong, and where of 10,000 inputs or more none was refused with a number that a
   function has. */
#include "ziwhakemo.h"
#include <stdio.h>
#include <stdlib.h>
#include <string.h>

enum { MOST_COUNTS = 40, MOST_CALLS = 6, MOST_BYTES = 120, GUARD = 64 };
enum { NUMBERS = 17, MANY = 5, ENOUGH = 10000 };
enum { FIRST_MELD = 5 }; /* where the melds of a standard record begin */

/* ---- Random numbers (splitmix64) ---- */

static uint64_t state;

static uint64_t word(void) {
    uint64_t z = (state += 0x9e3779b97f4a7c15u);
    z = (z ^ (z >> 30)) * 0xbf58476d1ce4e5b9u;
    z = (z ^ (z >> 27)) * 0x94d049bb133111ebu;
    return z ^ (z >> 31);
}

/* A number below n. */
static unsigned below(unsigned n) {
    return (unsigned)((word() >> 32) * n >> 32);
}

static bool percent(unsigned share) {
    return below(100) < share;
}

static uint8_t byte(void) {
    return (uint8_t)word();
}

/* ---- Inputs ---- */

typedef struct {
    uint8_t counts[MOST_COUNTS];
    size_t counts_length;
    ziwhakemo_meld calls[MOST_CALLS];
    size_t calls_length;
    ziwhakemo_game_context win;
    size_t reading;
    size_t out_length;
    uint8_t han, fu;
    bool flag;
    uint32_t basic_points;
    ziwhakemo_seat_book book;
    ziwhakemo_deal deal;
    ziwhakemo_winner winner;
} input;

/* ---- The checks ---- */

static bool starts_sequence(uint8_t tile) {
    return tile < 27 && tile % 9 < 7;
}

/* Can a tile have been called from there? */
static bool is_from_another(uint8_t source) {
    return source == ZIWHAKEMO_FROM_RIGHT || source == ZIWHAKEMO_FROM_ACROSS ||
           source == ZIWHAKEMO_FROM_LEFT;
}

static bool is_call(ziwhakemo_meld meld) {
    bool is_tile = meld.tile < ZIWHAKEMO_TILES;
    switch (meld.kind) {
    case ZIWHAKEMO_MELD_OPEN_SEQUENCE:
        return starts_sequence(meld.tile) && meld.source == ZIWHAKEMO_FROM_LEFT;
    case ZIWHAKEMO_MELD_CLOSED_KAN: return is_tile && meld.source == ZIWHAKEMO_FROM_NOBODY;
    case ZIWHAKEMO_MELD_OPEN_TRIPLET:
    case ZIWHAKEMO_MELD_OPEN_KAN:
    case ZIWHAKEMO_MELD_ADDED_KAN: return is_tile && is_from_another(meld.source);
    default: return false;
    }
}

/* How many of a tile a call holds. */
static unsigned called(ziwhakemo_meld meld, unsigned tile) {
    if (meld.kind == ZIWHAKEMO_MELD_OPEN_SEQUENCE)
        return tile >= meld.tile && tile < meld.tile + 3u ? 1 : 0;
    if (tile != meld.tile) return 0;
    return meld.kind == ZIWHAKEMO_MELD_OPEN_TRIPLET ? 3 : 4;
}

/* How many of a tile hand and calls hold together. */
static unsigned held(const input *in, unsigned tile) {
    unsigned sum = in->counts[tile];
    for (size_t i = 0; i < in->calls_length; i++) sum += called(in->calls[i], tile);
    return sum;
}

/* The first of the checks 1 to 6 that fails, or 0. */
static unsigned hand_check(const input *in) {
    unsigned sum = 0;
    if (in->counts_length != ZIWHAKEMO_TILES) return 1;
    if (in->calls_length > 4) return 2;
    for (size_t i = 0; i < in->calls_length; i++)
        if (!is_call(in->calls[i])) return 3;
    for (int i = 0; i < ZIWHAKEMO_TILES; i++)
        if (in->counts[i] > 4) return 4;
    for (unsigned i = 0; i < ZIWHAKEMO_TILES; i++) {
        if (held(in, i) > 4) return 5;
        sum += in->counts[i];
    }
    return sum + 3 * in->calls_length != 14 ? 6 : 0;
}

static bool is_wind(uint8_t tile) {
    return tile >= ZIWHAKEMO_EAST && tile <= ZIWHAKEMO_NORTH;
}

static bool is_setting(uint8_t fu) {
    return fu == ZIWHAKEMO_DOUBLE_WIND_FU_FOUR || fu == ZIWHAKEMO_DOUBLE_WIND_FU_TWO;
}

/* At most ten, and each that is shown a tile? */
static bool are_indicators(const ziwhakemo_indicators *shown) {
    if (shown->count > ZIWHAKEMO_INDICATORS) return false;
    for (int i = 0; i < shown->count; i++)
        if (shown->tiles[i] >= ZIWHAKEMO_TILES) return false;
    return true;
}

/* The first of the checks 1 to 6, 8, 14 and 9, in this order, that fails, or 0. */
static unsigned win_check(const input *in) {
    unsigned number = hand_check(in);
    const ziwhakemo_game_context *win = &in->win;
    if (number != 0) return number;
    if (win->win_type > 1 || !is_wind(win->round_wind) || !is_wind(win->seat_wind)) return 8;
    if (!is_setting(win->double_wind_fu)) return 8;
    if (!are_indicators(&win->dora_indicators)) return 14;
    if (!are_indicators(&win->ura_dora_indicators)) return 14;
    if (win->winning_tile >= ZIWHAKEMO_TILES || in->counts[win->winning_tile] == 0) return 9;
    return 0;
}

/* ---- The checks with three players ---- */

/* Is the tile in the wall with three players? */
static bool is_in_three(unsigned tile) {
    return tile < ZIWHAKEMO_MAN(2) || tile > ZIWHAKEMO_MAN(8);
}

static bool is_three_call(ziwhakemo_meld meld) {
    return is_call(meld) && meld.kind != ZIWHAKEMO_MELD_OPEN_SEQUENCE && is_in_three(meld.tile) &&
           meld.source <= ZIWHAKEMO_THREE_FROM_LEFT;
}

/* The first of the checks 1 to 6 that fails with three players, or 0: those with four, but that 3 and
   4 refuse more. */
static unsigned three_hand_check(const input *in) {
    unsigned number = hand_check(in);
    if (number == 1 || number == 2) return number;
    for (size_t i = 0; i < in->calls_length; i++)
        if (!is_three_call(in->calls[i])) return 3;
    for (unsigned i = 0; i < ZIWHAKEMO_TILES; i++)
        if (in->counts[i] > (is_in_three(i) ? 4 : 0)) return 4;
    return number;
}

/* The first of the checks 1 to 6, 8, 14 and 9, in this order, that fails with three players, or 0. */
static unsigned three_win_check(const input *in) {
    unsigned number = three_hand_check(in), four = win_check(in);
    bool shown = in->win.dora_indicators.count > 0 || in->win.ura_dora_indicators.count > 0;
    if (number != 0) return number;
    return four != 8 && shown ? 14 : four;
}

/* ---- Dora ---- */

/* The tile that an indicator makes dora: the next of its suit, of the winds or of the dragons, and
   after the last of them the first. */
static unsigned dora_of(uint8_t indicator) {
    if (indicator < ZIWHAKEMO_EAST) return indicator % 9 == 8 ? indicator - 8u : indicator + 1u;
    if (indicator == ZIWHAKEMO_NORTH) return ZIWHAKEMO_EAST;
    if (indicator == ZIWHAKEMO_RED) return ZIWHAKEMO_WHITE;
    return indicator + 1u;
}

/* The dora of hand and calls, for indicators that pass the check. */
static unsigned dora(const input *in, const ziwhakemo_indicators *shown) {
    unsigned sum = 0;
    for (int i = 0; i < shown->count; i++) sum += held(in, dora_of(shown->tiles[i]));
    return sum;
}

static unsigned regular_dora(const input *in) {
    return dora(in, &in->win.dora_indicators);
}

/* By riichi alone. */
static unsigned ura_dora(const input *in) {
    return in->win.is_riichi ? dora(in, &in->win.ura_dora_indicators) : 0;
}

/* ---- Drawing ---- */

/* The tiles from which a hand is drawn, and whether it is drawn for three players. */
static unsigned first_tile, number_of_tiles;
static bool for_three;

static uint8_t any_tile(void) {
    unsigned tile;
    do tile = first_tile + below(number_of_tiles);
    while (for_three && !is_in_three(tile));
    return (uint8_t)tile;
}

/* A source that a call of this kind can have. */
static uint8_t any_source(unsigned kind) {
    if (kind == ZIWHAKEMO_MELD_OPEN_SEQUENCE) return ZIWHAKEMO_FROM_LEFT;
    if (kind == ZIWHAKEMO_MELD_CLOSED_KAN) return ZIWHAKEMO_FROM_NOBODY;
    return (uint8_t)(ZIWHAKEMO_FROM_RIGHT + below(3));
}

/* The same with three players. */
static uint8_t any_three_source(unsigned kind) {
    if (kind == ZIWHAKEMO_MELD_CLOSED_KAN) return ZIWHAKEMO_FROM_NOBODY;
    return (uint8_t)(ZIWHAKEMO_THREE_FROM_RIGHT + below(2));
}

static void add_meld(input *in, uint8_t tile, unsigned kind) {
    if (kind == ZIWHAKEMO_MELD_CLOSED_SEQUENCE) {
        for (int i = 0; i < 3; i++) in->counts[tile + i]++;
    } else if (kind == ZIWHAKEMO_MELD_CLOSED_TRIPLET) {
        in->counts[tile] += 3;
    } else {
        in->calls[in->calls_length].tile = tile;
        in->calls[in->calls_length].kind = (uint8_t)kind;
        in->calls[in->calls_length].source = for_three ? any_three_source(kind) : any_source(kind);
        in->calls_length++;
    }
}

/* Does a sequence start here whose tiles are drawn? */
static bool may_start_sequence(uint8_t tile) {
    return starts_sequence(tile) && (!for_three || tile > ZIWHAKEMO_MAN(9));
}

/* Four melds, some of them called, and a pair. There may be more than four of a kind. */
static void standard_hand(input *in) {
    unsigned calls = percent(50) ? 0 : below(100);
    for (int i = 0; i < 4; i++) {
        uint8_t tile = any_tile();
        bool called = percent(calls);
        unsigned kind;
        if (may_start_sequence(tile) && percent(60))
            kind = called && !for_three ? ZIWHAKEMO_MELD_OPEN_SEQUENCE
                                        : ZIWHAKEMO_MELD_CLOSED_SEQUENCE;
        else if (called)
            kind = ZIWHAKEMO_MELD_OPEN_TRIPLET + below(4);
        else
            kind = ZIWHAKEMO_MELD_CLOSED_TRIPLET;
        add_meld(in, tile, kind);
    }
    in->counts[any_tile()] += 2;
}

static void seven_pairs(input *in) {
    for (int pairs = 0; pairs < 7;) {
        uint8_t tile = any_tile();
        if (in->counts[tile] == 0) {
            in->counts[tile] = 2;
            pairs++;
        }
    }
}

static void orphans(input *in) {
    static const uint8_t kinds[] = {0, 8, 9, 17, 18, 26, 27, 28, 29, 30, 31, 32, 33};
    for (int i = 0; i < 13; i++) in->counts[kinds[i]] = 1;
    in->counts[kinds[below(13)]]++;
}

static void from_the_wall(input *in) {
    for (int drawn = 0; drawn < 14;) {
        uint8_t tile = any_tile();
        if (in->counts[tile] < 4) {
            in->counts[tile]++;
            drawn++;
        }
    }
}

static void draw_hand(input *in) {
    bool flush = percent(60);
    unsigned first_suit = for_three ? 1 : 0;
    first_tile = flush ? 9 * (first_suit + below(3 - first_suit)) : 0;
    number_of_tiles = flush ? 9 : ZIWHAKEMO_TILES;
    memset(in, 0, sizeof *in);
    in->counts_length = ZIWHAKEMO_TILES;
    unsigned kind = below(100);
    if (kind < 85) standard_hand(in);
    else if (kind < 91) seven_pairs(in);
    else if (kind < 94) orphans(in);
    else from_the_wall(in);
}

static uint8_t wind(void) {
    return (uint8_t)(ZIWHAKEMO_EAST + below(4));
}

/* A tile that the hand holds, where it holds any. */
static uint8_t held_tile(const input *in) {
    for (int tries = 0; tries < 200; tries++) {
        unsigned tile = below(ZIWHAKEMO_TILES);
        if (in->counts[tile] > 0) return (uint8_t)tile;
    }
    return 0;
}

/* The wind of a pair in the hand, or any wind. */
static uint8_t paired_wind(const input *in) {
    for (int tile = ZIWHAKEMO_EAST; tile <= ZIWHAKEMO_NORTH; tile++)
        if (in->counts[tile] == 2) return (uint8_t)tile;
    return wind();
}

/* An indicator whose dora the hand holds, where one is found. */
static uint8_t hitting(const input *in) {
    for (int tries = 0; tries < 50; tries++) {
        uint8_t tile = (uint8_t)below(ZIWHAKEMO_TILES);
        if (in->counts[dora_of(tile)] > 0) return tile;
    }
    return 0;
}

/* Up to ten indicators, often the same one again, and any bytes behind them. */
static void draw_indicators(const input *in, ziwhakemo_indicators *shown) {
    unsigned again = below(3) * 40;
    shown->count = (uint8_t)(percent(30) ? 0 : below(percent(70) ? 6 : ZIWHAKEMO_INDICATORS + 1));
    for (int i = 0; i < ZIWHAKEMO_INDICATORS; i++) {
        if (i >= shown->count) shown->tiles[i] = byte();
        else if (i > 0 && percent(again)) shown->tiles[i] = shown->tiles[i - 1];
        else shown->tiles[i] = percent(60) ? hitting(in) : any_tile();
    }
}

static void draw_win(input *in) {
    unsigned share = below(3) * 25;
    bool double_wind = percent(25);
    ziwhakemo_game_context *win = &in->win;
    win->win_type = (uint8_t)below(2);
    win->winning_tile = held_tile(in);
    win->round_wind = double_wind ? paired_wind(in) : wind();
    win->seat_wind = double_wind ? win->round_wind : wind();
    win->is_riichi = percent(share);
    win->is_double_riichi = percent(share);
    win->is_ippatsu = percent(share);
    win->is_rinshan = percent(share);
    win->is_chankan = percent(share);
    win->is_last_tile = percent(share);
    win->is_tenhou = percent(share / 10);
    win->is_chiihou = percent(share / 10);
    win->double_wind_fu =
        percent(50) ? ZIWHAKEMO_DOUBLE_WIND_FU_FOUR : ZIWHAKEMO_DOUBLE_WIND_FU_TWO;
    draw_indicators(in, &win->dora_indicators);
    draw_indicators(in, &win->ura_dora_indicators);
    if (for_three && percent(90)) win->dora_indicators.count = win->ura_dora_indicators.count = 0;
}

/* Any number of indicators, or any byte for one of them. */
static void damage_indicators(ziwhakemo_indicators *shown) {
    if (percent(50)) shown->count = percent(50) ? (uint8_t)(9 + below(4)) : byte();
    else shown->tiles[below(ZIWHAKEMO_INDICATORS)] = percent(50) ? (uint8_t)below(36) : byte();
}

/* Any bytes in one of the places. */
static void damage(input *in) {
    unsigned tile = below(ZIWHAKEMO_TILES);
    bool first = percent(50);
    switch (below(13)) {
    case 0:
        in->counts_length = below(MOST_COUNTS + 1);
        for (int i = ZIWHAKEMO_TILES; i < MOST_COUNTS; i++) in->counts[i] = byte();
        break;
    case 1: in->calls_length = below(MOST_CALLS + 1); break;
    case 2:
        in->calls_length = 1 + below(MOST_CALLS);
        for (size_t i = 0; i < in->calls_length; i++) {
            in->calls[i].tile = percent(50) ? (uint8_t)below(36) : byte();
            in->calls[i].kind = percent(50) ? (uint8_t)below(8) : byte();
            in->calls[i].source = percent(50) ? any_source(in->calls[i].kind) : byte();
        }
        break;
    case 3: in->counts[tile] = byte(); break;
    case 4: in->counts[tile] = (uint8_t)below(6); break;
    case 5: in->win.win_type = byte(); break;
    case 6: in->win.winning_tile = percent(50) ? (uint8_t)below(36) : byte(); break;
    case 7: *(first ? &in->win.round_wind : &in->win.seat_wind) = byte(); break;
    case 8: in->win.double_wind_fu = percent(50) ? (uint8_t)below(6) : byte(); break;
    case 9:
    case 10:
        damage_indicators(first ? &in->win.dora_indicators : &in->win.ura_dora_indicators);
        break;
    case 11: in->calls[below(4)].source = percent(50) ? (uint8_t)below(5) : byte(); break;
    default:
        for (int i = 0; i < MOST_COUNTS; i++) in->counts[i] = byte();
    }
}

/* A number near another: up to three below it, up to three above. */
static int64_t near_to(int64_t number) {
    return number - 3 + below(7);
}

/* The points of a seat: mostly those of a game, else at a limit, near one, or any. */
static int64_t draw_points(void) {
    int64_t limit = percent(50) ? ZIWHAKEMO_MOST_POINTS : -ZIWHAKEMO_MOST_POINTS;
    unsigned kind = below(100);
    if (kind < 75) return (int64_t)below(200000) - 50000;
    if (kind < 90) return limit;
    if (kind < 97) return near_to(limit);
    return (int64_t)(percent(50) ? word() : (uint64_t)1 << below(64));
}

/* A new book, or one in which each field may be near its limit or anything. */
static ziwhakemo_seat_book draw_book(void) {
    ziwhakemo_seat_book book = ziwhakemo_new_book();
    if (percent(20)) return book;
    for (int i = 0; i < ZIWHAKEMO_SEATS; i++) book.points[i] = draw_points();
    book.sticks = below(10);
    if (percent(15)) book.sticks = (uint32_t)near_to(ZIWHAKEMO_MOST_STICKS);
    if (percent(3)) book.sticks = (uint32_t)word();
    book.deals = (uint16_t)below(ZIWHAKEMO_MOST_DEALS);
    if (percent(15)) book.deals = (uint16_t)near_to(ZIWHAKEMO_MOST_DEALS);
    if (percent(3)) book.deals = (uint16_t)word();
    book.counter = percent(50) ? (uint8_t)below(8) : byte();
    if (percent(25)) book.counter = (uint8_t)(ZIWHAKEMO_MOST_COUNTER - below(3));
    book.reserved = percent(50) ? 0 : byte();
    return book;
}

/* Mostly a seat, and sometimes any byte. */
static uint8_t draw_seat(void) {
    if (percent(95)) return (uint8_t)below(ZIWHAKEMO_SEATS);
    return percent(50) ? ZIWHAKEMO_SEATS : byte();
}

/* A deal and its winner. By tsumo any byte stands for the discarder. */
static void draw_deal(input *in) {
    unsigned share = below(3) * 40;
    ziwhakemo_winner *winner = &in->winner;
    in->deal.dealer = draw_seat();
    for (int i = 0; i < ZIWHAKEMO_SEATS; i++) in->deal.declared[i] = percent(share);
    winner->seat = percent(30) ? in->deal.dealer : draw_seat();
    winner->has_discarder = percent(50);
    winner->discarder = winner->has_discarder ? draw_seat() : byte();
}

static input draw_input(void) {
    input in;
    bool may_hold_five = percent(10);
    for_three = percent(40);
    do draw_hand(&in);
    while (!may_hold_five && hand_check(&in) != 0);
    draw_win(&in);
    for (unsigned faults = percent(40) ? 1 + below(2) : 0; faults > 0; faults--) damage(&in);
    in.reading = percent(80) ? below(2) : percent(50) ? (size_t)word() : (size_t)1 << below(64);
    in.out_length = below(percent(50) ? 40 : MOST_BYTES + 1);
    in.han = byte();
    in.fu = byte();
    in.flag = percent(50);
    in.basic_points = percent(50) ? below(160000) : (uint32_t)word();
    in.book = draw_book();
    draw_deal(&in);
    return in;
}

/* ---- What is wrong ---- */

static uint64_t wrong;

static void print_indicators(const char *name, const ziwhakemo_indicators *shown) {
    printf("\n  %s (%d):", name, shown->count);
    for (int i = 0; i < ZIWHAKEMO_INDICATORS; i++) printf(" %d", shown->tiles[i]);
}

static void print_booking(const input *in) {
    const ziwhakemo_seat_book *book = &in->book;
    printf("  book:");
    for (int i = 0; i < ZIWHAKEMO_SEATS; i++) printf(" %ld", (long)book->points[i]);
    printf(", sticks %lu, deals %d, counter %d, reserved %d\n  dealer %d, declared",
           (unsigned long)book->sticks, book->deals, book->counter, book->reserved,
           in->deal.dealer);
    for (int i = 0; i < ZIWHAKEMO_SEATS; i++) printf(" %d", in->deal.declared[i]);
    printf(", winner %d, discarder %d %d\n", in->winner.seat, in->winner.has_discarder,
           in->winner.discarder);
}

static void hold(bool good, const char *what, const input *in) {
    if (good) return;
    if (++wrong <= 5) {
        printf("WRONG: %s\n  counts (%zu):", what, in->counts_length);
        for (size_t i = 0; i < in->counts_length; i++) printf(" %d", in->counts[i]);
        printf("\n  calls (%zu):", in->calls_length);
        for (size_t i = 0; i < in->calls_length; i++)
            printf(" %d-%d-%d", in->calls[i].tile, in->calls[i].kind, in->calls[i].source);
        print_indicators("dora indicators", &in->win.dora_indicators);
        print_indicators("ura dora indicators", &in->win.ura_dora_indicators);
        printf("\n  win %d by %d, winds %d %d, riichi %d, setting %d, reading %zu, %zu bytes\n",
               in->win.win_type, in->win.winning_tile, in->win.round_wind, in->win.seat_wind,
               in->win.is_riichi, in->win.double_wind_fu, in->reading, in->out_length);
        print_booking(in);
    }
}

/* ---- Lending ---- */

static uint64_t nulls;

/* A region of exactly so many bytes with the same content; NULL or an empty region for none. */
static void *lend(const void *from, size_t size) {
    if (size == 0 && percent(50)) {
        nulls++;
        return NULL;
    }
    void *region = malloc(size);
    if (region == NULL && size > 0) {
        printf("no memory\n");
        exit(2);
    }
    if (size > 0) memcpy(region, from, size);
    return region;
}

static bool same(const void *region, const void *content, size_t size) {
    return size == 0 || memcmp(region, content, size) == 0;
}

/* What was lent of an input. */
typedef struct {
    uint8_t *counts;
    ziwhakemo_meld *calls;
} lent;

/* ---- Listing ---- */

static uint64_t listed[NUMBERS], won[NUMBERS], scored[NUMBERS], named[NUMBERS], paid[NUMBERS];
static uint64_t three_listed[NUMBERS], three_won[NUMBERS], three_scored[NUMBERS];
static uint64_t three_named[NUMBERS], three_paid[NUMBERS];
static uint64_t levels[NUMBERS], settled[NUMBERS], with_readings[MANY + 1];

/* Do the bytes hold so many records and nothing else? */
static bool are_records(const uint8_t *bytes, size_t size, size_t readings) {
    static const size_t lengths[] = {0, ZIWHAKEMO_SEVEN_PAIRS_LENGTH, ZIWHAKEMO_ORPHANS_LENGTH,
                                     ZIWHAKEMO_STANDARD_LENGTH};
    size_t at = 0;
    for (; readings > 0; readings--) {
        if (size - at < ZIWHAKEMO_ORPHANS_LENGTH) return false;
        unsigned length = bytes[at] + 256u * bytes[at + 1];
        unsigned kind = bytes[at + 2] + 256u * bytes[at + 3];
        if (kind < 1 || kind > 3 || length != lengths[kind] || size - at < length) return false;
        at += length;
    }
    return at == size;
}

/* A meld of a standard record, by its place. */
static ziwhakemo_meld meld_at(const uint8_t *record, size_t place) {
    ziwhakemo_meld meld;
    memcpy(&meld, record + FIRST_MELD + place * sizeof meld, sizeof meld);
    return meld;
}

/* Where a meld stands among others: by tile, then by kind, then by source. */
static unsigned long order(ziwhakemo_meld meld) {
    return 65536ul * meld.tile + 256ul * meld.kind + meld.source;
}

static bool is_closed_of_hand(ziwhakemo_meld meld) {
    return meld.kind == ZIWHAKEMO_MELD_CLOSED_SEQUENCE ||
           meld.kind == ZIWHAKEMO_MELD_CLOSED_TRIPLET;
}

/* How often a meld is among the calls, and how often among the melds of a standard record. */
static unsigned times_called(const input *in, ziwhakemo_meld meld) {
    unsigned sum = 0;
    for (size_t i = 0; i < in->calls_length; i++) sum += order(in->calls[i]) == order(meld);
    return sum;
}

static unsigned times_recorded(const uint8_t *record, ziwhakemo_meld meld) {
    unsigned sum = 0;
    for (size_t i = 0; i < 4; i++) sum += order(meld_at(record, i)) == order(meld);
    return sum;
}

/* Do the melds of a standard record ascend, and are they the calls with their sources, and else
   closed ones from nobody? */
static bool has_calls(const input *in, const uint8_t *record) {
    size_t calls = 0;
    for (size_t i = 0; i < 4; i++) {
        ziwhakemo_meld meld = meld_at(record, i);
        if (i > 0 && order(meld_at(record, i - 1)) > order(meld)) return false;
        if (is_closed_of_hand(meld)) {
            if (meld.source != ZIWHAKEMO_FROM_NOBODY) return false;
        } else {
            if (times_called(in, meld) != times_recorded(record, meld)) return false;
            calls++;
        }
    }
    return calls == in->calls_length;
}

/* The melds of all records. */
static void hold_melds(const input *in, const uint8_t *record, size_t readings) {
    for (size_t n = 0; n < readings; n++) {
        if (record[2] == ZIWHAKEMO_RECORD_STANDARD)
            hold(has_calls(in, record), "the melds of a record", in);
        record += record[0] + 256u * record[1];
    }
}

/* Lists into a buffer that is long enough, with bytes on both sides of it that have to stay. Answers
   the number of readings, and hands on their records. */
static size_t list_guarded(const input *in, lent from, uint8_t *all) {
    static uint8_t block[GUARD + ZIWHAKEMO_ALWAYS_ENOUGH + GUARD];
    memset(block, 0xa5, sizeof block);
    ziwhakemo_listing_answer answer =
        ziwhakemo_list_readings(from.counts, in->counts_length, from.calls, in->calls_length,
                                block + GUARD, ZIWHAKEMO_ALWAYS_ENOUGH);
    size_t end = GUARD + answer.bytes;
    bool stays = answer.bytes <= ZIWHAKEMO_ALWAYS_ENOUGH;
    for (size_t i = 0; i < GUARD; i++) stays = stays && block[i] == 0xa5;
    for (size_t i = end; i < sizeof block; i++) stays = stays && block[i] == 0xa5;
    hold(stays, "a byte beside the records changed", in);
    if (stays) memcpy(all, block + GUARD, answer.bytes);
    hold(answer.number == hand_check(in), "the number of a listing", in);
    hold(stays && are_records(block + GUARD, answer.bytes, answer.readings), "the records", in);
    return answer.readings;
}

/* Lists into exactly the bytes that are lent, by the function of either game. */
static void list_exactly(const input *in, lent from, const uint8_t *all, size_t bytes,
                         size_t readings, bool three) {
    uint8_t noise[MOST_BYTES];
    for (int i = 0; i < MOST_BYTES; i++) noise[i] = byte();
    uint8_t *out = (uint8_t *)lend(noise, in->out_length);
    ziwhakemo_listing_answer answer =
        (three ? ziwhakemo_three_list_readings : ziwhakemo_list_readings)(
            from.counts, in->counts_length, from.calls, in->calls_length, out, in->out_length);
    unsigned number = three ? three_hand_check(in) : hand_check(in);
    if (number == 0 && bytes > in->out_length) number = 7;
    if (number != 0) bytes = readings = 0;
    hold(answer.number == number, "the number of a listing", in);
    hold(answer.readings == readings && answer.bytes == bytes, "the counts of a listing", in);
    hold(same(out, all, bytes), "the records", in);
    hold(in->out_length == bytes || same(out + bytes, noise + bytes, in->out_length - bytes),
         "a byte beyond the records changed", in);
    (three ? three_listed : listed)[number]++;
    free(out);
}

/* ---- Scores ---- */

static bool is_flag(const bool *flag) {
    unsigned char value;
    memcpy(&value, flag, 1);
    return value <= 1;
}

static unsigned tally(const ziwhakemo_score_answer *a) {
    unsigned sum = 0;
    for (int i = 0; i < ZIWHAKEMO_YAKU; i++) sum += a->tallies[i];
    return sum;
}

/* The settlement of what is accepted, by win type and seat. */
static uint32_t settlement(uint8_t win_type, bool is_dealer) {
    if (win_type == ZIWHAKEMO_RON) return ZIWHAKEMO_SETTLEMENT_RON;
    return is_dealer ? ZIWHAKEMO_SETTLEMENT_DEALER_TSUMO : ZIWHAKEMO_SETTLEMENT_TSUMO;
}

/* Does the refusal have its number alone? */
static bool is_alone(const ziwhakemo_score_answer *a) {
    return a->reading == 0 && tally(a) == 0 && a->han == 0 && a->fu == 0 && !a->is_yakuman &&
           a->level == 0 && a->yakuman_count == 0 && a->regular_dora == 0 && a->ura_dora == 0 &&
           a->basic_points == 0 && a->settlement == 0 && a->from_non_dealer == 0 &&
           a->from_dealer == 0 && a->from_discarder == 0 && a->total == 0;
}

/* Do level, points and payment follow from han, fu and the yakuman flag? */
static bool follows(const input *in, const ziwhakemo_score_answer *a) {
    bool dealer = in->win.seat_wind == ZIWHAKEMO_EAST;
    ziwhakemo_level_answer level = ziwhakemo_score_level(a->han, a->fu, a->is_yakuman);
    uint32_t points = ziwhakemo_basic_points(a->han, a->fu, a->is_yakuman);
    ziwhakemo_payment_answer pay = ziwhakemo_payment(points, dealer, in->win.win_type);
    return a->level == level.level && a->yakuman_count == level.count &&
           a->basic_points == points && pay.number == 0 &&
           a->settlement == settlement(in->win.win_type, dealer) &&
           a->settlement == pay.settlement &&
           a->from_non_dealer == pay.from_non_dealer &&
           a->from_dealer == pay.from_dealer && a->from_discarder == pay.from_discarder &&
           a->total == pay.total;
}

/* The dora that are among the han: none where there is a yakuman. */
static unsigned added_dora(const ziwhakemo_score_answer *a) {
    return a->is_yakuman ? 0 : (unsigned)a->regular_dora + a->ura_dora;
}

static void hold_score(const input *in, const ziwhakemo_score_answer *a, unsigned number,
                       size_t reading) {
    hold(a->number == number, "the number of a score", in);
    hold(is_flag(&a->is_yakuman), "a flag that is neither 0 nor 1", in);
    if (number != 0) {
        hold(is_alone(a), "a refusal with more than its number", in);
    } else {
        hold(a->reading == reading, "the number of the reading", in);
        hold(follows(in, a), "level, points or payment", in);
        hold(a->regular_dora == regular_dora(in) && a->ura_dora == ura_dora(in), "the dora", in);
        hold(a->han >= added_dora(a) && (tally(a) > 0) == (a->han > added_dora(a)),
             "han without yaku, or yaku without han", in);
    }
}

/* Does a pay more than b, or is it else to be chosen before it? */
static bool before(const ziwhakemo_score_answer *a, const ziwhakemo_score_answer *b) {
    if (a->total != b->total) return a->total > b->total;
    if (a->is_yakuman != b->is_yakuman) return a->is_yakuman;
    if (a->han != b->han) return a->han > b->han;
    return a->fu > b->fu;
}

/* The win is scored as the best of its readings, each asked for by its number. */
static void score(const input *in, lent from, size_t readings) {
    unsigned number = win_check(in);
    ziwhakemo_score_answer best;
    bool found = false;
    for (size_t n = 0; number == 0 && n < readings; n++) {
        ziwhakemo_score_answer a = ziwhakemo_score_reading(
            from.counts, in->counts_length, from.calls, in->calls_length, in->win, n);
        hold_score(in, &a, 0, n);
        if (tally(&a) > 0 && (!found || before(&a, &best))) {
            best = a;
            found = true;
        }
    }
    ziwhakemo_score_answer a = ziwhakemo_score_win(from.counts, in->counts_length, from.calls,
                                                   in->calls_length, in->win);
    if (number == 0 && !found) number = readings == 0 ? 10 : 11;
    hold_score(in, &a, number, found ? best.reading : 0);
    if (found) {
        bool alike = memcmp(a.tallies, best.tallies, sizeof a.tallies) == 0;
        hold(alike && !before(&a, &best) && !before(&best, &a), "the chosen reading", in);
    }
    won[number]++;
}

/* Reading and waits of the number that was drawn. */
static void by_number(const input *in, lent from, size_t readings) {
    unsigned number = win_check(in), sum = 0;
    if (number == 0 && in->reading >= readings) number = 12;
    ziwhakemo_score_answer a = ziwhakemo_score_reading(
        from.counts, in->counts_length, from.calls, in->calls_length, in->win, in->reading);
    hold_score(in, &a, number, in->reading);
    scored[number]++;
    ziwhakemo_waits_answer waits = ziwhakemo_name_waits(
        from.counts, in->counts_length, from.calls, in->calls_length, in->win, in->reading);
    for (int i = 0; i < ZIWHAKEMO_WAITS; i++) sum += waits.waits[i];
    hold(waits.number == number, "the number of waits", in);
    hold(number == 0 || sum == 0, "a refusal with more than its number", in);
    named[number]++;
}

/* ---- The room's setting ---- */

static uint64_t fewer_fu[2];

/* Do two answers have the same yaku? */
static bool same_yaku(const ziwhakemo_score_answer *a, const ziwhakemo_score_answer *b) {
    return memcmp(a->tallies, b->tallies, sizeof a->tallies) == 0 && a->is_yakuman == b->is_yakuman;
}

/* Is the pair of this reading both round and seat wind? */
static bool has_double_wind(const input *in, const uint8_t *record) {
    return record[2] == ZIWHAKEMO_RECORD_STANDARD && record[4] == in->win.round_wind &&
           record[4] == in->win.seat_wind;
}

/* Each reading under both settings: only where the pair is both winds may two give ten fu fewer, by
   rounding, and yaku, han and waits are the same. */
static void under_both(const input *in, lent from, const uint8_t *record, size_t readings) {
    ziwhakemo_game_context four = in->win, two = in->win;
    four.double_wind_fu = ZIWHAKEMO_DOUBLE_WIND_FU_FOUR;
    two.double_wind_fu = ZIWHAKEMO_DOUBLE_WIND_FU_TWO;
    if (win_check(in) != 0) return;
    for (size_t n = 0; n < readings; n++) {
        ziwhakemo_score_answer a = ziwhakemo_score_reading(
            from.counts, in->counts_length, from.calls, in->calls_length, four, n);
        ziwhakemo_score_answer b = ziwhakemo_score_reading(
            from.counts, in->counts_length, from.calls, in->calls_length, two, n);
        ziwhakemo_waits_answer c = ziwhakemo_name_waits(
            from.counts, in->counts_length, from.calls, in->calls_length, four, n);
        ziwhakemo_waits_answer d = ziwhakemo_name_waits(
            from.counts, in->counts_length, from.calls, in->calls_length, two, n);
        bool double_wind = has_double_wind(in, record);
        hold_score(in, &a, 0, n);
        hold_score(in, &b, 0, n);
        hold(same_yaku(&a, &b) && a.han == b.han, "yaku or han by the room's setting", in);
        hold(c.number == 0 && d.number == 0 && memcmp(c.waits, d.waits, sizeof c.waits) == 0,
             "waits by the room's setting", in);
        hold(a.fu == b.fu || (double_wind && a.fu == b.fu + 10), "fu by the room's setting", in);
        if (double_wind) fewer_fu[a.fu != b.fu]++;
        record += record[0] + 256u * record[1];
    }
}

/* A hand that pays otherwise by the other setting: man 222, pin 456, sou 345 678, East East, by the
   dealer's tsumo on pin 5 in the East round. */
static input pair_of_east(uint8_t double_wind_fu) {
    input in;
    memset(&in, 0, sizeof in);
    in.counts_length = ZIWHAKEMO_TILES;
    in.counts[ZIWHAKEMO_MAN(2)] = 3;
    for (int n = 4; n <= 6; n++) in.counts[ZIWHAKEMO_PIN(n)] = 1;
    for (int n = 3; n <= 8; n++) in.counts[ZIWHAKEMO_SOU(n)] = 1;
    in.counts[ZIWHAKEMO_EAST] = 2;
    in.win.win_type = ZIWHAKEMO_TSUMO;
    in.win.winning_tile = ZIWHAKEMO_PIN(5);
    in.win.round_wind = ZIWHAKEMO_EAST;
    in.win.seat_wind = ZIWHAKEMO_EAST;
    in.win.double_wind_fu = double_wind_fu;
    return in;
}

/* What each operation that takes a win answers, by number to reading 0. */
typedef struct {
    ziwhakemo_score_answer win, reading;
    ziwhakemo_waits_answer waits;
} answers;

static answers ask(const input *in) {
    answers a;
    const uint8_t *counts = in->counts;
    const ziwhakemo_meld *calls = in->calls;
    size_t tiles = in->counts_length, melds = in->calls_length;
    a.win = ziwhakemo_score_win(counts, tiles, calls, melds, in->win);
    a.reading = ziwhakemo_score_reading(counts, tiles, calls, melds, in->win, 0);
    a.waits = ziwhakemo_name_waits(counts, tiles, calls, melds, in->win, 0);
    return a;
}

static void hold_refused(const input *in, unsigned number) {
    static const uint8_t none[ZIWHAKEMO_WAITS] = {0};
    answers a = ask(in);
    hold_score(in, &a.win, number, 0);
    hold_score(in, &a.reading, number, 0);
    hold(a.waits.number == number, "the number of waits", in);
    hold(same(a.waits.waits, none, sizeof none), "a refusal with more than its number", in);
}

/* Is it Menzen Tsumo alone, with so many fu and so much in all? */
static bool is_menzen_tsumo(const ziwhakemo_score_answer *a, uint8_t fu, uint64_t total) {
    return tally(a) == 1 && a->tallies[ZIWHAKEMO_YAKU_MENZEN_TSUMO] == 1 && a->han == 1 &&
           a->fu == fu && a->total == total;
}

static void hold_pair_of_east(uint8_t double_wind_fu, uint8_t fu, uint64_t total) {
    static const uint8_t kanchan[ZIWHAKEMO_WAITS] = {0, 1, 0, 0, 0, 0};
    input in = pair_of_east(double_wind_fu);
    answers a = ask(&in);
    hold_score(&in, &a.win, 0, 0);
    hold_score(&in, &a.reading, 0, 0);
    hold(is_menzen_tsumo(&a.win, fu, total), "the win with a pair of East", &in);
    hold(is_menzen_tsumo(&a.reading, fu, total), "the reading with a pair of East", &in);
    hold(a.waits.number == 0 && same(a.waits.waits, kanchan, sizeof kanchan),
         "the waits with a pair of East", &in);
}

static void settings(void) {
    hold_pair_of_east(ZIWHAKEMO_DOUBLE_WIND_FU_FOUR, 40, 2100);
    hold_pair_of_east(ZIWHAKEMO_DOUBLE_WIND_FU_TWO, 30, 1500);
    for (unsigned fu = 0; fu < 256; fu++) {
        if (fu == 2 || fu == 4) continue;
        input in = pair_of_east((uint8_t)fu);
        hold_refused(&in, 8);
        in.win.winning_tile = ZIWHAKEMO_MAN(9); /* 8 comes before 9 */
        hold_refused(&in, 8);
        in.counts[ZIWHAKEMO_EAST] = 1; /* and 6 before 8 */
        hold_refused(&in, 6);
    }
}

/* ---- Indicators ---- */

static uint64_t with_dora[3], yakuman_with_dora, no_yaku_at_13;

static void count_dora(const ziwhakemo_score_answer *a) {
    unsigned sum = (unsigned)a->regular_dora + a->ura_dora;
    with_dora[sum == 0 ? 0 : sum < 13 ? 1 : 2]++;
    if (a->is_yakuman && sum > 0) yakuman_with_dora++;
    if (tally(a) == 0 && a->han >= 13) no_yaku_at_13++;
}

/* Other bytes behind the indicators. */
static void other_noise(ziwhakemo_indicators *shown) {
    for (int i = shown->count; i < ZIWHAKEMO_INDICATORS; i++) shown->tiles[i] = byte();
}

/* Each reading with its indicators, with none, and with other bytes behind them: they change the han
   by the dora, what follows from the han, and nothing else; the bytes behind them nothing at all. */
static void without_dora(const input *in, lent from, size_t readings) {
    ziwhakemo_game_context none = in->win, noise = in->win;
    if (win_check(in) != 0) return;
    none.dora_indicators.count = none.ura_dora_indicators.count = 0;
    other_noise(&noise.dora_indicators);
    other_noise(&noise.ura_dora_indicators);
    for (size_t n = 0; n < readings; n++) {
        ziwhakemo_score_answer a = ziwhakemo_score_reading(
            from.counts, in->counts_length, from.calls, in->calls_length, in->win, n);
        ziwhakemo_score_answer b = ziwhakemo_score_reading(
            from.counts, in->counts_length, from.calls, in->calls_length, none, n);
        ziwhakemo_score_answer c = ziwhakemo_score_reading(
            from.counts, in->counts_length, from.calls, in->calls_length, noise, n);
        ziwhakemo_waits_answer d = ziwhakemo_name_waits(
            from.counts, in->counts_length, from.calls, in->calls_length, in->win, n);
        ziwhakemo_waits_answer e = ziwhakemo_name_waits(
            from.counts, in->counts_length, from.calls, in->calls_length, none, n);
        hold(b.number == 0 && b.regular_dora == 0 && b.ura_dora == 0, "dora of no indicator", in);
        hold(same_yaku(&a, &b) && a.fu == b.fu, "yaku or fu by the indicators", in);
        hold(a.han == b.han + added_dora(&a), "han by the indicators", in);
        hold_score(in, &c, 0, n);
        hold(same_yaku(&a, &c) && a.han == c.han && a.fu == c.fu, "a byte behind the indicators", in);
        hold(d.number == 0 && e.number == 0 && memcmp(d.waits, e.waits, sizeof d.waits) == 0,
             "waits by the indicators", in);
        count_dora(&a);
    }
}

/* So many of a tile, and behind them what would be refused if it were read. */
static void show(ziwhakemo_indicators *shown, unsigned count, uint8_t tile) {
    shown->count = (uint8_t)count;
    for (unsigned i = 0; i < ZIWHAKEMO_INDICATORS; i++)
        shown->tiles[i] = i < count ? tile : (uint8_t)(ZIWHAKEMO_TILES + below(222));
}

/* The indicators of one sort. */
static ziwhakemo_indicators *sort(input *in, bool ura) {
    return ura ? &in->win.ura_dora_indicators : &in->win.dora_indicators;
}

/* The hand with three of man 2 and a pair of East, one yaku and 40 fu; it shows so many of a tile. */
static input showing(bool ura, unsigned count, uint8_t tile) {
    input in = pair_of_east(ZIWHAKEMO_DOUBLE_WIND_FU_FOUR);
    show(sort(&in, ura), count, tile);
    show(sort(&in, !ura), 0, 0);
    return in;
}

/* The win, and reading 0 by number, with so many han. */
static answers hold_han(const input *in, unsigned han) {
    answers a = ask(in);
    hold_score(in, &a.win, 0, 0);
    hold_score(in, &a.reading, 0, 0);
    hold(a.waits.number == 0, "the number of waits", in);
    hold(a.win.han == han && a.reading.han == han, "han with dora", in);
    return a;
}

/* man 1 shown up to four times, for three of man 2 each: 13 han are paid like a yakuman and are none.
   Then each of the 34 tiles shown once, as either sort. */
static void counted(void) {
    static const unsigned level[] = {ZIWHAKEMO_LEVEL_NORMAL, ZIWHAKEMO_LEVEL_MANGAN,
                                     ZIWHAKEMO_LEVEL_HANEMAN, ZIWHAKEMO_LEVEL_BAIMAN,
                                     ZIWHAKEMO_LEVEL_YAKUMAN};
    static const uint64_t total[] = {2100, 12000, 18000, 24000, 48000};
    for (unsigned count = 0; count <= 4; count++) {
        input in = showing(false, count, ZIWHAKEMO_MAN(1));
        ziwhakemo_score_answer a = hold_han(&in, 1 + 3 * count).win;
        hold(a.level == level[count] && a.total == total[count], "the win with dora", &in);
        hold(!a.is_yakuman, "13 han called a yakuman", &in);
    }
    for (uint8_t tile = 0; tile < ZIWHAKEMO_TILES; tile++) {
        for (int ura = 0; ura < 2; ura++) {
            input in = showing(ura, 1, tile);
            in.win.is_riichi = true;
            hold_han(&in, 2u + in.counts[dora_of(tile)]);
        }
    }
}

/* Each number of indicators from 0 to 255, of either sort. Ura dora count by riichi alone, and not by
   the flag of a double one. */
static void numbers(bool ura, bool is_riichi, bool is_double_riichi) {
    for (unsigned count = 0; count < 256; count++) {
        input in = showing(ura, count, ZIWHAKEMO_MAN(1));
        in.win.is_riichi = is_riichi;
        in.win.is_double_riichi = is_double_riichi;
        unsigned yaku = 1u + is_riichi + (is_riichi && is_double_riichi);
        unsigned dora_each = ura && !is_riichi ? 0 : 3;
        if (count > ZIWHAKEMO_INDICATORS) hold_refused(&in, 14);
        else hold_han(&in, yaku + dora_each * count);
    }
}

/* What is no tile, at each place of up to ten: refused exactly where it is shown, and of ura dora
   without riichi too. */
static void no_tile(bool ura, uint8_t tile) {
    for (unsigned count = 0; count <= ZIWHAKEMO_INDICATORS; count++) {
        for (unsigned place = 0; place < ZIWHAKEMO_INDICATORS; place++) {
            input in = showing(ura, count, ZIWHAKEMO_MAN(1));
            sort(&in, ura)->tiles[place] = tile;
            if (place < count) hold_refused(&in, 14);
            else hold_han(&in, ura ? 1 : 1 + 3 * count);
        }
    }
}

/* Grounds for 6, 8, 14 and 9 in every mixture: the first of them, in this order, is answered. */
static void in_order(bool ura, unsigned count, uint8_t tile) {
    for (unsigned grounds = 0; grounds < 16; grounds++) {
        bool six = grounds & 1, eight = grounds & 2, fourteen = grounds & 4, nine = grounds & 8;
        input in = showing(ura, count, tile);
        if (!fourteen) show(sort(&in, ura), 1, ZIWHAKEMO_RED);
        if (six) in.counts[ZIWHAKEMO_EAST] = 1;
        if (eight) in.win.seat_wind = ZIWHAKEMO_WHITE;
        if (nine) in.win.winning_tile = ZIWHAKEMO_MAN(9);
        if (six) hold_refused(&in, 6);
        else if (eight) hold_refused(&in, 8);
        else if (fourteen) hold_refused(&in, 14);
        else if (nine) hold_refused(&in, 9);
        else hold_han(&in, 1);
    }
}

/* pin 456, sou 234 678, man 55, a call from anyone, ron on sou 8 by South. It has no yaku, but by the
   call. */
static input with_call(uint8_t tile, uint8_t kind) {
    input in = pair_of_east(ZIWHAKEMO_DOUBLE_WIND_FU_FOUR);
    memset(in.counts, 0, sizeof in.counts);
    in.counts[ZIWHAKEMO_MAN(5)] = 2;
    for (int n = 4; n <= 6; n++) in.counts[ZIWHAKEMO_PIN(n)] = 1;
    for (int n = 2; n <= 8; n++) in.counts[ZIWHAKEMO_SOU(n)] = n == 5 ? 0 : 1;
    in.calls[0].tile = tile;
    in.calls[0].kind = kind;
    in.calls[0].source = any_source(kind);
    in.calls_length = 1;
    in.win.win_type = ZIWHAKEMO_RON;
    in.win.winning_tile = ZIWHAKEMO_SOU(8);
    in.win.seat_wind = ZIWHAKEMO_SOUTH;
    return in;
}

/* Called tiles count too: three by a pon, four by a kan, one by a chi. Ura dora count on the open
   hand where the riichi flag is set. */
static void called_dora(void) {
    static const struct {
        uint8_t tile, kind, shown, dora;
    } calls[] = {{ZIWHAKEMO_MAN(1), ZIWHAKEMO_MELD_OPEN_SEQUENCE, ZIWHAKEMO_MAN(9), 1},
                 {ZIWHAKEMO_EAST, ZIWHAKEMO_MELD_OPEN_TRIPLET, ZIWHAKEMO_NORTH, 3},
                 {ZIWHAKEMO_EAST, ZIWHAKEMO_MELD_CLOSED_KAN, ZIWHAKEMO_NORTH, 4},
                 {ZIWHAKEMO_EAST, ZIWHAKEMO_MELD_OPEN_KAN, ZIWHAKEMO_NORTH, 4},
                 {ZIWHAKEMO_EAST, ZIWHAKEMO_MELD_ADDED_KAN, ZIWHAKEMO_NORTH, 4}};
    for (int i = 0; i < 5; i++) {
        for (int ura = 0; ura < 2; ura++) {
            input in = with_call(calls[i].tile, calls[i].kind);
            show(sort(&in, ura), 1, calls[i].shown);
            show(sort(&in, !ura), 0, 0);
            in.win.is_riichi = ura;
            ziwhakemo_score_answer a = ask(&in).reading;
            hold_score(&in, &a, 0, 0);
            hold((ura ? a.ura_dora : a.regular_dora) == calls[i].dora, "dora of a call", &in);
        }
    }
}

/* With no yaku 12 dora and 13 are refused with 11 as none are, while the reading has its price. */
static void no_yaku(void) {
    static const uint64_t total[] = {500, 24000, 32000};
    static const unsigned han[] = {0, 12, 13};
    for (int i = 0; i < 3; i++) {
        input in = with_call(ZIWHAKEMO_MAN(1), ZIWHAKEMO_MELD_OPEN_SEQUENCE);
        show(&in.win.dora_indicators, i == 0 ? 0 : 6, ZIWHAKEMO_MAN(4));
        if (i == 2) in.win.dora_indicators.tiles[in.win.dora_indicators.count++] = ZIWHAKEMO_SOU(7);
        answers a = ask(&in);
        hold_score(&in, &a.win, 11, 0);
        hold_score(&in, &a.reading, 0, 0);
        hold(tally(&a.reading) == 0 && a.reading.han == han[i] && a.reading.total == total[i],
             "a reading with dora alone", &in);
    }
}

/* man 222 333 444, pin 666, sou 88, tsumo on pin 6 by South: by triplets a yakuman, which takes none
   of 30 dora, and by sequences as much by 33 han. The yakuman is chosen. */
static void beside_a_yakuman(void) {
    input in = pair_of_east(ZIWHAKEMO_DOUBLE_WIND_FU_FOUR);
    memset(in.counts, 0, sizeof in.counts);
    for (int n = 2; n <= 4; n++) in.counts[ZIWHAKEMO_MAN(n)] = 3;
    in.counts[ZIWHAKEMO_PIN(6)] = 3;
    in.counts[ZIWHAKEMO_SOU(8)] = 2;
    in.win.winning_tile = ZIWHAKEMO_PIN(6);
    in.win.seat_wind = ZIWHAKEMO_SOUTH;
    show(&in.win.dora_indicators, 10, ZIWHAKEMO_MAN(1));
    for (int i = 4; i < 10; i++) in.win.dora_indicators.tiles[i] = ZIWHAKEMO_MAN(i % 2 + 2);
    answers a = ask(&in);
    hold_score(&in, &a.win, 0, 1);
    hold_score(&in, &a.reading, 0, 0);
    hold(a.win.is_yakuman && a.win.tallies[ZIWHAKEMO_YAKU_SUUANKOU] == 1, "the yakuman", &in);
    hold(a.win.han == 13 && a.win.regular_dora == 30, "the yakuman's han and dora", &in);
    hold(!a.reading.is_yakuman && a.reading.han == 33, "han beside the yakuman", &in);
    hold(a.win.total == 32000 && a.reading.total == 32000, "the totals beside a yakuman", &in);
}

/* An answer field by field: South's tsumo by riichi, with three dora and two ura dora. */
static void each_field(void) {
    input in = showing(false, 1, ZIWHAKEMO_MAN(1));
    show(&in.win.ura_dora_indicators, 1, ZIWHAKEMO_NORTH);
    in.win.is_riichi = true;
    in.win.seat_wind = ZIWHAKEMO_SOUTH;
    ziwhakemo_score_answer a = ask(&in).win;
    hold_score(&in, &a, 0, 0);
    hold(a.settlement == ZIWHAKEMO_SETTLEMENT_TSUMO && a.tallies[ZIWHAKEMO_YAKU_RIICHI] == 1 &&
             a.tallies[ZIWHAKEMO_YAKU_MENZEN_TSUMO] == 1 && tally(&a) == 2,
         "the yaku with dora", &in);
    hold(a.han == 7 && a.fu == 30 && a.level == ZIWHAKEMO_LEVEL_HANEMAN && a.yakuman_count == 0 &&
             a.regular_dora == 3 && a.ura_dora == 2,
         "han, fu, level or dora", &in);
    hold(a.basic_points == 3000 && a.from_non_dealer == 3000 && a.from_dealer == 6000 &&
             a.from_discarder == 0 && a.total == 12000,
         "the payment with dora", &in);
}

static void indicators(void) {
    for (int i = 0; i < 8; i++) numbers(i & 1, i & 2, i & 4);
    for (int ura = 0; ura < 2; ura++) {
        no_tile(ura, ZIWHAKEMO_TILES);
        no_tile(ura, 255);
        in_order(ura, 11, ZIWHAKEMO_MAN(1));
        in_order(ura, 255, ZIWHAKEMO_MAN(1));
        in_order(ura, 1, ZIWHAKEMO_TILES);
        in_order(ura, 10, 255);
    }
    counted();
    called_dora();
    no_yaku();
    beside_a_yakuman();
    each_field();
}

/* ---- Sources ---- */

static uint64_t other_sources_taken;

/* Are two answers alike in every field? */
static bool same_score(const ziwhakemo_score_answer *a, const ziwhakemo_score_answer *b) {
    return a->number == b->number && a->settlement == b->settlement && a->reading == b->reading &&
           same_yaku(a, b) && a->han == b->han && a->fu == b->fu && a->level == b->level &&
           a->yakuman_count == b->yakuman_count && a->regular_dora == b->regular_dora &&
           a->ura_dora == b->ura_dora && a->basic_points == b->basic_points &&
           a->from_non_dealer == b->from_non_dealer && a->from_dealer == b->from_dealer &&
           a->from_discarder == b->from_discarder && a->total == b->total;
}

static bool same_waits(const ziwhakemo_waits_answer *a, const ziwhakemo_waits_answer *b) {
    return a->number == b->number && memcmp(a->waits, b->waits, sizeof a->waits) == 0;
}

/* Other sources for the calls, each of which can be. */
static input with_other_sources(const input *in) {
    input other = *in;
    for (size_t i = 0; i < other.calls_length; i++)
        other.calls[i].source = any_source(other.calls[i].kind);
    return other;
}

/* Is this the place of a source in a standard record? */
static bool is_source(size_t place) {
    return place >= FIRST_MELD &&
           (place - FIRST_MELD) % sizeof(ziwhakemo_meld) == offsetof(ziwhakemo_meld, source);
}

/* Are records byte for byte the same, but for the sources of their melds? */
static bool same_but_sources(const uint8_t *a, const uint8_t *b, size_t bytes) {
    for (size_t at = 0; at < bytes; at += a[at] + 256u * a[at + 1]) {
        size_t length = a[at] + 256u * a[at + 1];
        bool standard = a[at + 2] == ZIWHAKEMO_RECORD_STANDARD;
        for (size_t i = 0; i < length; i++) {
            bool skip = standard && is_source(i);
            if (!skip && a[at + i] != b[at + i]) return false;
        }
    }
    return true;
}

/* The listing with other sources. */
static void hold_listing(const input *in, const input *other, const uint8_t *all, size_t bytes,
                         size_t readings) {
    uint8_t records[ZIWHAKEMO_ALWAYS_ENOUGH];
    ziwhakemo_listing_answer answer =
        ziwhakemo_list_readings(other->counts, other->counts_length, other->calls,
                                other->calls_length, records, sizeof records);
    bool alike = answer.number == 0 && answer.readings == readings && answer.bytes == bytes;
    hold(alike, "a listing by sources", in);
    if (!alike) return;
    hold(same_but_sources(all, records, bytes), "records by sources", in);
    hold_melds(other, records, readings);
}

/* Scores and waits with other sources, of the win and of the reading that was drawn. */
static void hold_alike(const input *in, const input *other) {
    const uint8_t *counts = in->counts;
    size_t tiles = in->counts_length, melds = in->calls_length, n = in->reading;
    ziwhakemo_score_answer a = ziwhakemo_score_win(counts, tiles, in->calls, melds, in->win);
    ziwhakemo_score_answer b = ziwhakemo_score_win(counts, tiles, other->calls, melds, in->win);
    hold(same_score(&a, &b), "the win by sources", in);
    a = ziwhakemo_score_reading(counts, tiles, in->calls, melds, in->win, n);
    b = ziwhakemo_score_reading(counts, tiles, other->calls, melds, in->win, n);
    hold(same_score(&a, &b), "a reading by sources", in);
    ziwhakemo_waits_answer c = ziwhakemo_name_waits(counts, tiles, in->calls, melds, in->win, n);
    ziwhakemo_waits_answer d = ziwhakemo_name_waits(counts, tiles, other->calls, melds, in->win, n);
    hold(same_waits(&c, &d), "waits by sources", in);
}

/* A hand with calls, and with other sources of them: nothing else changes. */
static void by_sources(const input *in, const uint8_t *all, size_t bytes, size_t readings) {
    if (hand_check(in) != 0 || in->calls_length == 0) return;
    input other = with_other_sources(in);
    hold_listing(in, &other, all, bytes, readings);
    hold_alike(in, &other);
    if (memcmp(in->calls, other.calls, sizeof in->calls) != 0) other_sources_taken++;
}

/* What a listing is answered with. */
static uint32_t listing_number(const input *in) {
    uint8_t records[ZIWHAKEMO_ALWAYS_ENOUGH];
    return ziwhakemo_list_readings(in->counts, in->counts_length, in->calls, in->calls_length,
                                   records, sizeof records)
        .number;
}

/* A call that is none is refused with 3, which comes after 1 and 2 and before 4. */
static void hold_no_call(input in) {
    hold_refused(&in, 3);
    hold(listing_number(&in) == 3, "the number of a listing", &in);
    in.counts[ZIWHAKEMO_MAN(9)] = 5;
    hold_refused(&in, 3);
    in.calls_length = 5;
    hold_refused(&in, 2);
    in.counts_length = ZIWHAKEMO_TILES - 1;
    hold_refused(&in, 1);
}

/* A call is listed, and scored as with the source that it had. */
static void hold_call(const input *in, const input *first) {
    answers a = ask(in), b = ask(first);
    hold(listing_number(in) == 0, "the number of a listing", in);
    hold(a.reading.number == 0 && a.waits.number == 0, "the number of a reading", in);
    hold(same_score(&a.win, &b.win), "the win by sources", in);
    hold(same_score(&a.reading, &b.reading), "a reading by sources", in);
    hold(same_waits(&a.waits, &b.waits), "waits by sources", in);
}

/* A source is taken for a call of a kind exactly where this says so. */
static bool is_source_of(unsigned kind, unsigned source) {
    static const bool taken[7][4] = {
        {false, false, false, false}, /* a closed sequence is no call */
        {false, false, false, true},  /* chi: from the left alone */
        {false, false, false, false}, /* a closed triplet is no call */
        {false, true, true, true},    /* pon */
        {true, false, false, false},  /* closed kan: from nobody */
        {false, true, true, true},    /* open kan */
        {false, true, true, true}     /* added kan */
    };
    return kind < 7 && source < 4 && taken[kind][source];
}

/* A call of every kind, and of what is no kind, with each of the 256 sources. */
static void sources(void) {
    for (unsigned kind = 0; kind < 9; kind++) {
        bool sequence = kind <= ZIWHAKEMO_MELD_OPEN_SEQUENCE;
        input first = with_call(sequence ? ZIWHAKEMO_MAN(1) : (uint8_t)ZIWHAKEMO_WHITE,
                                (uint8_t)(kind < 8 ? kind : 255));
        for (unsigned source = 0; source < 256; source++) {
            input in = first;
            in.calls[0].source = (uint8_t)source;
            if (is_source_of(in.calls[0].kind, source)) hold_call(&in, &first);
            else hold_no_call(in);
        }
    }
}

/* ---- Points ---- */

static void points(const input *in) {
    uint8_t win_type = in->win.win_type;
    ziwhakemo_level_answer level = ziwhakemo_score_level(in->han, in->fu, in->flag);
    uint32_t basic = ziwhakemo_basic_points(in->han, in->fu, in->flag);
    hold(level.level <= ZIWHAKEMO_LEVEL_YAKUMAN && level.count <= 19, "a level", in);
    hold((level.level == ZIWHAKEMO_LEVEL_YAKUMAN) == (level.count > 0), "a yakuman's count", in);
    hold(basic <= ZIWHAKEMO_MOST_BASIC_POINTS, "basic points", in);
    if (level.level < NUMBERS) levels[level.level]++;
    ziwhakemo_payment_answer pay = ziwhakemo_payment(in->basic_points, in->flag, win_type);
    unsigned number = win_type > 1 ? 8 : in->basic_points > ZIWHAKEMO_MOST_BASIC_POINTS ? 13 : 0;
    uint64_t others = in->flag ? 3 : 2;
    hold(pay.number == number, "the number of a payment", in);
    hold(pay.settlement == (number == 0 ? settlement(win_type, in->flag) : 0),
         "the settlement of a payment", in);
    if (pay.settlement < NUMBERS) settled[pay.settlement]++;
    hold(pay.total == pay.from_discarder + pay.from_dealer + others * pay.from_non_dealer,
         "the total of a payment", in);
    hold(number == 0 || pay.total == 0, "a refusal with more than its number", in);
    paid[number]++;
}

/* ---- Three players ---- */

/* What four players are answered, with the total of three: one player fewer pays by tsumo. */
static ziwhakemo_score_answer of_three(ziwhakemo_score_answer four) {
    four.total -= four.from_non_dealer;
    return four;
}

/* Is the answer this refusal, or else that of four players but for the total? */
static void hold_three(const input *in, const ziwhakemo_score_answer *a, unsigned number,
                       ziwhakemo_score_answer four) {
    ziwhakemo_score_answer expected = of_three(four);
    hold(is_flag(&a->is_yakuman), "a flag that is neither 0 nor 1", in);
    if (number != 0)
        hold(a->number == number && is_alone(a), "a refusal with three players", in);
    else
        hold(same_score(a, &expected), "a score with three players", in);
}

/* The win. Where it passes the checks of three players, so it does those of four. */
static void three_score(const input *in, lent from) {
    unsigned number = three_win_check(in);
    ziwhakemo_score_answer a = ziwhakemo_three_score_win(from.counts, in->counts_length, from.calls,
                                                         in->calls_length, in->win);
    ziwhakemo_score_answer four = ziwhakemo_score_win(from.counts, in->counts_length, from.calls,
                                                      in->calls_length, in->win);
    if (number == 0) number = four.number;
    hold_three(in, &a, number, four);
    three_won[number < NUMBERS ? number : 0]++;
}

/* Reading and waits of the number that was drawn. */
static void three_by_number(const input *in, lent from) {
    unsigned number = three_win_check(in), sum = 0;
    ziwhakemo_score_answer a = ziwhakemo_three_score_reading(
        from.counts, in->counts_length, from.calls, in->calls_length, in->win, in->reading);
    ziwhakemo_score_answer four = ziwhakemo_score_reading(
        from.counts, in->counts_length, from.calls, in->calls_length, in->win, in->reading);
    ziwhakemo_waits_answer waits = ziwhakemo_three_name_waits(
        from.counts, in->counts_length, from.calls, in->calls_length, in->win, in->reading);
    ziwhakemo_waits_answer of_four = ziwhakemo_name_waits(
        from.counts, in->counts_length, from.calls, in->calls_length, in->win, in->reading);
    if (number == 0) number = four.number;
    hold_three(in, &a, number, four);
    for (int i = 0; i < ZIWHAKEMO_WAITS; i++) sum += waits.waits[i];
    hold(waits.number == number, "the number of waits with three players", in);
    hold(number != 0 ? sum == 0 : same_waits(&waits, &of_four), "waits with three players", in);
    three_scored[number < NUMBERS ? number : 0]++;
    three_named[waits.number < NUMBERS ? waits.number : 0]++;
}

static void three_points(const input *in) {
    uint8_t win_type = in->win.win_type;
    ziwhakemo_payment_answer a = ziwhakemo_three_payment(in->basic_points, in->flag, win_type);
    ziwhakemo_payment_answer four = ziwhakemo_payment(in->basic_points, in->flag, win_type);
    uint64_t others = in->flag ? 2 : 1;
    hold(a.number == four.number && a.settlement == four.settlement &&
             a.from_non_dealer == four.from_non_dealer && a.from_dealer == four.from_dealer &&
             a.from_discarder == four.from_discarder,
         "a payment with three players", in);
    hold(a.total == a.from_discarder + a.from_dealer + others * a.from_non_dealer,
         "the total of a payment with three players", in);
    three_paid[a.number < NUMBERS ? a.number : 0]++;
}

/* pin 456, sou 234 678, man 99, a pon of Red from two seats onward, ron on sou 8 by South: both games
   take it. */
static input taken_by_both(void) {
    input in = with_call(ZIWHAKEMO_RED, ZIWHAKEMO_MELD_OPEN_TRIPLET);
    in.counts[ZIWHAKEMO_MAN(5)] = 0;
    in.counts[ZIWHAKEMO_MAN(9)] = 2;
    in.calls[0].source = ZIWHAKEMO_THREE_FROM_LEFT;
    return in;
}

/* What each function for three players that takes a hand is answered with: this number, but that a
   listing does not look at the win. */
static void hold_three_number(const input *in, unsigned number) {
    uint8_t records[ZIWHAKEMO_ALWAYS_ENOUGH];
    const uint8_t *counts = in->counts;
    size_t tiles = in->counts_length, melds = in->calls_length;
    ziwhakemo_score_answer a = ziwhakemo_three_score_win(counts, tiles, in->calls, melds, in->win);
    ziwhakemo_score_answer b =
        ziwhakemo_three_score_reading(counts, tiles, in->calls, melds, in->win, 0);
    ziwhakemo_waits_answer c =
        ziwhakemo_three_name_waits(counts, tiles, in->calls, melds, in->win, 0);
    ziwhakemo_listing_answer d = ziwhakemo_three_list_readings(counts, tiles, in->calls, melds,
                                                               records, sizeof records);
    hold(a.number == number && b.number == number && c.number == number,
         "the number of a win with three players", in);
    hold(number == 0 || (is_alone(&a) && is_alone(&b)), "a refusal with more than its number", in);
    hold(d.number == (number < 7 ? number : 0), "the number of a listing with three players", in);
}

/* A call of each kind, of each tile, with each of the 256 sources. */
static void three_calls(void) {
    for (unsigned kind = 0; kind < 9; kind++) {
        for (unsigned source = 0; source < 256; source++) {
            for (uint8_t tile = 0; tile < ZIWHAKEMO_TILES + 2; tile++) {
                bool open = kind == ZIWHAKEMO_MELD_OPEN_TRIPLET ||
                            kind == ZIWHAKEMO_MELD_OPEN_KAN || kind == ZIWHAKEMO_MELD_ADDED_KAN;
                bool good = tile < ZIWHAKEMO_TILES && (tile < 1 || tile > 7) &&
                            ((open && (source == 1 || source == 2)) ||
                             (kind == ZIWHAKEMO_MELD_CLOSED_KAN && source == 0));
                input in = taken_by_both();
                in.win.is_last_tile = true; /* a yaku, whatever the call */
                in.calls[0].tile = tile;
                in.calls[0].kind = (uint8_t)kind;
                in.calls[0].source = (uint8_t)source;
                if (!good) hold_three_number(&in, 3);
                else if (held(&in, tile) > 4) hold_three_number(&in, 5);
                else hold_three_number(&in, 0);
            }
        }
    }
}

/* Grounds for 3, 4, 6, 8, 14 and 9 in every mixture: the first of them, in this order, is answered.
   Those for 3, 4 and 14 are none with four players. */
static void three_in_order(void) {
    for (unsigned grounds = 0; grounds < 64; grounds++) {
        static const unsigned numbers[] = {3, 4, 6, 8, 14, 9};
        unsigned first = 0;
        input in = taken_by_both();
        if (grounds & 1) in.calls[0].source = ZIWHAKEMO_FROM_LEFT;
        if (grounds & 2) in.counts[ZIWHAKEMO_MAN(5)] = 1;
        if (grounds & 4) in.counts[ZIWHAKEMO_MAN(9)] = 1;
        if (grounds & 8) in.win.seat_wind = ZIWHAKEMO_WHITE;
        if (grounds & 16) show(sort(&in, grounds & 1), 1, ZIWHAKEMO_SOU(7));
        if (grounds & 32) in.win.winning_tile = ZIWHAKEMO_MAN(5);
        while (first < 6 && !(grounds >> first & 1)) first++;
        hold_three_number(&in, first < 6 ? numbers[first] : 0);
    }
}

/* Each count of each absent tile, each number of indicators of either sort, each winning tile that is
   absent, and each setting. */
static void three_players(void) {
    three_calls();
    three_in_order();
    for (unsigned n = 0; n < 256; n++) {
        input shown = taken_by_both(), ura = taken_by_both(), setting = taken_by_both();
        for (int value = 2; value <= 8; value++) {
            input in = taken_by_both();
            in.counts[ZIWHAKEMO_MAN(value)] = (uint8_t)n;
            hold_three_number(&in, n > 0 ? 4 : 0);
            in.win.winning_tile = ZIWHAKEMO_MAN(value);
            hold_three_number(&in, n > 0 ? 4 : 9);
        }
        show(&shown.win.dora_indicators, n, ZIWHAKEMO_SOU(7));
        show(&ura.win.ura_dora_indicators, n, ZIWHAKEMO_SOU(7));
        setting.win.double_wind_fu = (uint8_t)n;
        hold_three_number(&shown, n > 0 ? 14 : 0);
        hold_three_number(&ura, n > 0 ? 14 : 0);
        hold_three_number(&setting, n == 2 || n == 4 ? 0 : 8);
    }
}

/* ---- The book ---- */

static uint64_t drawn[NUMBERS], booked[NUMBERS], book_settled[NUMBERS];
static uint64_t full_counters, games, game_deals;

/* What a payer adds for each repeat counter. */
enum { ADDED_BY_TSUMO = 100, ADDED_BY_RON = 300 };

/* What a booking has to answer, and the book after it. */
typedef struct {
    unsigned number;
    ziwhakemo_seat_book book;
} booking;

/* All points of a book: those of the seats, and of the sticks. Modulo 2 to the 64th, so that it can
   be said of any book. */
static uint64_t all_points(const ziwhakemo_seat_book *book) {
    uint64_t sum = (uint64_t)ZIWHAKEMO_STICK_POINTS * book->sticks;
    for (int i = 0; i < ZIWHAKEMO_SEATS; i++) sum += (uint64_t)book->points[i];
    return sum;
}

static bool same_book(const ziwhakemo_seat_book *a, const ziwhakemo_seat_book *b) {
    return memcmp(a, b, sizeof *a) == 0;
}

/* Are all seats that are read seats, and is the discarder another than the winner? */
static bool are_seats(const input *in, bool is_win) {
    ziwhakemo_winner winner = in->winner;
    if (in->deal.dealer >= ZIWHAKEMO_SEATS) return false;
    if (!is_win) return true;
    if (winner.seat >= ZIWHAKEMO_SEATS) return false;
    if (!winner.has_discarder) return true;
    return winner.discarder < ZIWHAKEMO_SEATS && winner.discarder != winner.seat;
}

static bool is_within_limits(const ziwhakemo_seat_book *book) {
    for (int i = 0; i < ZIWHAKEMO_SEATS; i++) {
        if (book->points[i] > ZIWHAKEMO_MOST_POINTS) return false;
        if (book->points[i] < -ZIWHAKEMO_MOST_POINTS) return false;
    }
    return book->deals < ZIWHAKEMO_MOST_DEALS && book->sticks <= ZIWHAKEMO_MOST_STICKS;
}

/* The first of the checks 15 and 16 that fails before a win is scored, or 0. */
static unsigned book_check(const input *in, bool is_win) {
    if (!are_seats(in, is_win)) return 15;
    if (!is_within_limits(&in->book)) return 16;
    return !is_win && in->book.counter == ZIWHAKEMO_MOST_COUNTER ? 16 : 0;
}

/* The win with win type and seat wind as the seats say, which pass check 15. */
static input seated(const input *in) {
    input other = *in;
    other.win.win_type = in->winner.has_discarder ? ZIWHAKEMO_RON : ZIWHAKEMO_TSUMO;
    other.win.seat_wind =
        (uint8_t)(ZIWHAKEMO_EAST + (in->winner.seat + 4 - in->deal.dealer) % ZIWHAKEMO_SEATS);
    return other;
}

/* Each seat that declared puts a stick on the table. */
static void put_sticks(ziwhakemo_seat_book *book, const ziwhakemo_deal *deal) {
    for (int i = 0; i < ZIWHAKEMO_SEATS; i++) {
        if (!deal->declared[i]) continue;
        book->points[i] -= ZIWHAKEMO_STICK_POINTS;
        book->sticks++;
    }
}

/* What a seat pays for a win: its part of the score, and of the counter. */
static int64_t share_of(const input *in, const ziwhakemo_score_answer *score, uint8_t seat) {
    int64_t counter = in->book.counter;
    bool by_ron = in->winner.has_discarder;
    if (seat == in->winner.seat) return 0;
    if (by_ron && seat != in->winner.discarder) return 0;
    if (by_ron) return score->from_discarder + ADDED_BY_RON * counter;
    uint32_t hand = seat == in->deal.dealer ? score->from_dealer : score->from_non_dealer;
    return hand + ADDED_BY_TSUMO * counter;
}

/* The book after a draw, on a book that takes it. */
static ziwhakemo_seat_book after_draw(const input *in) {
    ziwhakemo_seat_book book = in->book;
    put_sticks(&book, &in->deal);
    book.counter++;
    book.deals++;
    return book;
}

/* The book after a win with this score, on a book that takes it. */
static ziwhakemo_seat_book after_win(const input *in, const ziwhakemo_score_answer *score) {
    ziwhakemo_seat_book book = in->book;
    int64_t *winner = &book.points[in->winner.seat];
    put_sticks(&book, &in->deal);
    for (uint8_t seat = 0; seat < ZIWHAKEMO_SEATS; seat++) {
        book.points[seat] -= share_of(in, score, seat);
        *winner += share_of(in, score, seat);
    }
    *winner += (int64_t)ZIWHAKEMO_STICK_POINTS * book.sticks;
    book.sticks = 0;
    book.counter = (uint8_t)(in->winner.seat == in->deal.dealer ? book.counter + 1 : 0);
    book.deals++;
    return book;
}

static booking expected_draw(const input *in) {
    booking b = {book_check(in, false), in->book};
    if (b.number == 0) b.book = after_draw(in);
    return b;
}

/* The win is scored by ziwhakemo_score_win, which is asked as the seats say. */
static booking expected_win(const input *in, lent from) {
    booking b = {book_check(in, true), in->book};
    if (b.number != 0) return b;
    input as_seated = seated(in);
    unsigned number = win_check(&as_seated);
    ziwhakemo_score_answer score = ziwhakemo_score_win(from.counts, in->counts_length, from.calls,
                                                       in->calls_length, as_seated.win);
    if (number == 0 && score.number != 0) number = score.number == 10 ? 10 : 11;
    hold_score(&as_seated, &score, number, score.reading);
    bool is_dealer = in->winner.seat == in->deal.dealer;
    bool is_full = is_dealer && in->book.counter == ZIWHAKEMO_MOST_COUNTER;
    b.number = number == 0 && is_full ? 16 : number;
    if (b.number == 0) b.book = after_win(in, &score);
    return b;
}

static booking expected_booking(const input *in, lent from, bool is_win) {
    return is_win ? expected_win(in, from) : expected_draw(in);
}

/* Any win type and seat wind, which no booking reads: often some that could be meant, of another
   seat. */
static void fill_not_read(ziwhakemo_game_context *win) {
    win->win_type = percent(50) ? (uint8_t)below(2) : byte();
    win->seat_wind = percent(50) ? wind() : byte();
}

/* Books, and answers the number. */
static uint32_t book_deal(ziwhakemo_seat_book *book, const input *in, lent from, bool is_win) {
    ziwhakemo_game_context win = in->win;
    fill_not_read(&win);
    if (!is_win) return ziwhakemo_book_draw(book, in->deal);
    return ziwhakemo_book_win(book, from.counts, in->counts_length, from.calls, in->calls_length,
                              win, in->deal, in->winner);
}

/* Is it the number, and are all 40 bytes those of the book? A refused booking has to leave them as
   they were, and any has to keep the points. */
static void hold_book(const input *in, const booking *expected, uint32_t number,
                      const ziwhakemo_seat_book *book) {
    hold(number == expected->number, "the number of a booking", in);
    hold(number == 0 || same_book(book, &in->book), "a refused booking changed the book", in);
    hold(same_book(book, &expected->book), "the book after a booking", in);
    hold(all_points(book) == all_points(&in->book), "the sum of points and sticks", in);
}

/* Books in a book with bytes on both sides of it that have to stay. */
static void book_guarded(const input *in, lent from, const booking *expected, bool is_win) {
    static struct {
        uint8_t low[GUARD];
        ziwhakemo_seat_book book;
        uint8_t high[GUARD];
    } block;
    bool stays = true;
    memset(&block, 0xa5, sizeof block);
    block.book = in->book;
    uint32_t number = book_deal(&block.book, in, from, is_win);
    for (int i = 0; i < GUARD; i++)
        stays = stays && block.low[i] == 0xa5 && block.high[i] == 0xa5;
    hold(stays, "a byte beside the book changed", in);
    hold_book(in, expected, number, &block.book);
}

/* Books in a book that is lent at exactly its size. */
static void book_exactly(const input *in, lent from, const booking *expected, bool is_win) {
    ziwhakemo_seat_book *book = (ziwhakemo_seat_book *)lend(&in->book, sizeof in->book);
    uint32_t number = book_deal(book, in, from, is_win);
    hold_book(in, expected, number, book);
    free(book);
}

/* Counts a win that was booked by who paid, and one that the counter alone keeps from it. */
static void count_win(const input *in, unsigned number) {
    bool is_dealer = in->winner.seat == in->deal.dealer;
    uint8_t win_type = in->winner.has_discarder ? ZIWHAKEMO_RON : ZIWHAKEMO_TSUMO;
    booked[number]++;
    if (number == 0) book_settled[settlement(win_type, is_dealer)]++;
    if (number == 16 && book_check(in, true) == 0) full_counters++;
}

/* Both bookings of what was drawn. */
static void book_both(const input *in, lent from) {
    for (int is_win = 0; is_win < 2; is_win++) {
        booking expected = expected_booking(in, from, is_win);
        book_guarded(in, from, &expected, is_win);
        book_exactly(in, from, &expected, is_win);
        if (is_win) count_win(in, expected.number);
        else drawn[expected.number]++;
    }
}

/* ---- Games from a new book ---- */

/* A game, and what its accepted bookings say of the book: how many there were, how many sticks were
   declared after the last win, and how many there were after the last win of another than the
   dealer. */
typedef struct {
    ziwhakemo_seat_book book;
    unsigned deals, sticks, counter;
} game;

static game new_game(void) {
    game g = {ziwhakemo_new_book(), 0, 0, 0};
    return g;
}

static void remember(game *g, const input *in, bool is_win) {
    bool is_dealer = in->winner.seat == in->deal.dealer;
    g->deals++;
    for (int i = 0; i < ZIWHAKEMO_SEATS; i++) g->sticks += in->deal.declared[i];
    if (is_win) g->sticks = 0;
    g->counter = is_win && !is_dealer ? 0 : g->counter + 1;
}

/* Books a deal of a game, whose book is to be what the accepted bookings say. Answers the number
   that was expected. */
static unsigned play(game *g, input in, lent from, bool is_win) {
    const ziwhakemo_seat_book *book = &g->book;
    in.book = g->book;
    booking expected = expected_booking(&in, from, is_win);
    uint32_t number = book_deal(&g->book, &in, from, is_win);
    hold_book(&in, &expected, number, book);
    if (number == 0) remember(g, &in, is_win);
    hold(all_points(book) == (uint64_t)ZIWHAKEMO_SEATS * ZIWHAKEMO_START_POINTS,
         "the sum of a game", &in);
    hold(book->deals == g->deals && book->sticks == g->sticks && book->counter == g->counter &&
             book->reserved == 0,
         "the book of a game", &in);
    return expected.number;
}

/* What was drawn is booked as a deal of the game that goes on. A full book ends it. */
static void go_on(const input *in, lent from) {
    static game g;
    static bool is_on = false;
    if (!is_on) {
        g = new_game();
        games++;
    }
    unsigned number = play(&g, *in, from, percent(50));
    if (number == 0) game_deals++;
    is_on = number != 16;
}

/* ---- Single bookings ---- */

/* Lends what stands in an input. */
static lent lend_as_is(input *in) {
    lent from = {in->counts, in->calls};
    return from;
}

/* The number is this one, and the book is what follows from it. */
static void hold_deal(input in, bool is_win, unsigned number) {
    lent from = lend_as_is(&in);
    booking expected = expected_booking(&in, from, is_win);
    hold(expected.number == number, "the expected number of a booking", &in);
    book_guarded(&in, from, &expected, is_win);
}

/* A win on the last tile, which has a yaku by ron and by tsumo, for any seat. On a new book, in a
   deal of seat 0 in which seats 1 and 2 declared riichi. */
static input on_new_book(uint8_t seat, bool has_discarder, uint8_t discarder) {
    static const ziwhakemo_deal deal = {0, {false, true, true, false}};
    input in = pair_of_east(ZIWHAKEMO_DOUBLE_WIND_FU_FOUR);
    in.win.is_last_tile = true;
    in.book = ziwhakemo_new_book();
    in.deal = deal;
    in.winner.seat = seat;
    in.winner.has_discarder = has_discarder;
    in.winner.discarder = discarder;
    return in;
}

/* Each byte of a new book, as it is said. */
static void new_books(void) {
    static const uint8_t zeros[sizeof(ziwhakemo_seat_book)] = {0};
    input in = on_new_book(0, false, 0);
    size_t rest = offsetof(ziwhakemo_seat_book, sticks);
    for (int i = 0; i < ZIWHAKEMO_SEATS; i++)
        hold(in.book.points[i] == 25000, "the points of a new book", &in);
    hold(same((const uint8_t *)&in.book + rest, zeros, sizeof in.book - rest),
         "a new book with more than points", &in);
}

/* Three seats, the discarder given or not: a win is taken exactly where this says so, and a draw by
   the dealer alone. */
static void hold_seats(unsigned dealer, unsigned seat, unsigned discarder) {
    for (int given = 0; given < 2; given++) {
        input in = on_new_book((uint8_t)seat, given, (uint8_t)discarder);
        bool good = dealer < 4 && seat < 4 && (!given || (discarder < 4 && discarder != seat));
        in.deal.dealer = (uint8_t)dealer;
        hold_deal(in, true, good ? 0 : 15);
        hold_deal(in, false, dealer < 4 ? 0 : 15);
    }
}

/* Each of the 256 bytes for each seat, with all seats for the two others. */
static void seat_bytes(void) {
    for (unsigned n = 0; n < 256; n++) {
        for (unsigned i = 0; i < 16; i++) {
            hold_seats(n, i / 4, i % 4);
            hold_seats(i / 4, n, i % 4);
            hold_seats(i / 4, i % 4, n);
        }
    }
}

/* Each of the 256 bytes for win type and for seat wind, which are not read; and for `reserved`,
   which is kept. */
static void bytes_not_read(void) {
    for (unsigned i = 0; i < 16; i++) {
        input in = on_new_book((uint8_t)(i / 4), i / 4 != i % 4, (uint8_t)(i % 4));
        booking expected = expected_win(&in, lend_as_is(&in));
        for (unsigned n = 0; n < 512; n++) {
            ziwhakemo_seat_book book = in.book;
            fill_not_read(&in.win);
            *(n < 256 ? &in.win.win_type : &in.win.seat_wind) = (uint8_t)n;
            book.reserved = expected.book.reserved = (uint8_t)n;
            uint32_t number =
                ziwhakemo_book_win(&book, in.counts, in.counts_length, in.calls, in.calls_length,
                                   in.win, in.deal, in.winner);
            hold(number == 0 && same_book(&book, &expected.book), "a byte that is not read", &in);
        }
    }
}

/* A draw, a ron, the dealer's tsumo and another's, each on a book that takes it or does not. */
static void hold_limit(ziwhakemo_seat_book book, bool taken) {
    input wins[] = {on_new_book(1, true, 2), on_new_book(0, false, 0), on_new_book(3, false, 0)};
    for (int i = 0; i < 3; i++) {
        wins[i].book = book;
        hold_deal(wins[i], true, taken ? 0 : 16);
    }
    hold_deal(wins[0], false, taken ? 0 : 16);
}

/* Each limit of the book from both sides, and the ends of the types. */
static void limits(void) {
    const int64_t most = ZIWHAKEMO_MOST_POINTS;
    const int64_t amounts[] = {most, -most, most + 1, -most - 1, INT64_MAX, INT64_MIN};
    const uint32_t sticks[] = {4095, 4096, 4097, 65536, UINT32_MAX};
    const uint16_t deals[] = {1022, 1023, 1024, 1025, 2048, UINT16_MAX};
    ziwhakemo_seat_book first = ziwhakemo_new_book(), book;
    for (int i = 0; i < 24; i++) {
        book = first;
        book.points[i % 4] = amounts[i / 4];
        hold_limit(book, i / 4 < 2);
    }
    for (int i = 0; i < 5; i++) {
        book = first;
        book.sticks = sticks[i];
        hold_limit(book, i < 2);
    }
    for (int i = 0; i < 6; i++) {
        book = first;
        book.deals = deals[i];
        hold_limit(book, i < 2);
    }
}

/* Each counter: at 255 a draw is refused, and the dealer's win, and another's is not. */
static void counters(void) {
    for (unsigned n = 0; n < 256; n++) {
        unsigned number = n < 255 ? 0 : 16;
        for (uint8_t seat = 0; seat < ZIWHAKEMO_SEATS; seat++) {
            for (int given = 0; given < 2; given++) {
                input in = on_new_book(seat, given, (uint8_t)((seat + 1) % 4));
                in.book.counter = (uint8_t)n;
                hold_deal(in, true, seat == 0 ? number : 0);
                hold_deal(in, false, number);
            }
        }
    }
}

/* Grounds for 15, 16, 3, 6, 8, 14, 9, 11 and for 16 by the counter in every mixture: the first of
   them, in this order, is answered. The hand is the dealer's, and has no yaku by ron. */
static void book_in_order(void) {
    static const unsigned numbers[] = {15, 16, 3, 6, 8, 14, 9, 11, 16};
    for (unsigned grounds = 0; grounds < 512; grounds++) {
        bool by_ron = grounds & 128;
        unsigned first = 0;
        input in = on_new_book(0, by_ron, 1);
        in.win.is_last_tile = false;
        if (grounds & 1) in.deal.dealer = ZIWHAKEMO_SEATS;
        if (grounds & 2) in.book.deals = ZIWHAKEMO_MOST_DEALS;
        if (grounds & 4) in.calls_length = 1; /* all zeros: no call */
        if (grounds & 8) in.counts[ZIWHAKEMO_EAST] = 1;
        if (grounds & 16) in.win.round_wind = ZIWHAKEMO_WHITE;
        if (grounds & 32) show(&in.win.dora_indicators, 11, ZIWHAKEMO_RED);
        if (grounds & 64) in.win.winning_tile = ZIWHAKEMO_MAN(9);
        if (grounds & 256) in.book.counter = ZIWHAKEMO_MOST_COUNTER;
        while (first < 9 && !(grounds >> first & 1)) first++;
        hold_deal(in, true, first < 9 ? numbers[first] : 0);
    }
}

/* A game as long as it can be: 255 draws and dealer's wins, each of which raises the counter; then
   neither is taken, but another's win is; and so on to 1,024 deals, after which none is. */
static void longest_game(void) {
    input dealers = on_new_book(0, false, 0), others = on_new_book(2, true, 0);
    lent from = lend_as_is(&dealers), other = lend_as_is(&others);
    game g = new_game();
    for (unsigned n = 0; n < ZIWHAKEMO_MOST_DEALS; n++) {
        bool is_full = g.counter == ZIWHAKEMO_MOST_COUNTER;
        if (is_full) {
            hold(play(&g, dealers, from, false) == 16, "a draw at a counter of 255", &dealers);
            hold(play(&g, dealers, from, true) == 16, "a win at a counter of 255", &dealers);
        }
        unsigned number = is_full ? play(&g, others, other, true)
                                  : play(&g, dealers, from, n % 3 == 0);
        hold(number == 0, "a deal of the longest game", &dealers);
    }
    hold(play(&g, dealers, from, false) == 16, "a draw after 1,024 deals", &dealers);
    hold(play(&g, others, other, true) == 16, "a win after 1,024 deals", &others);
}

static void books(void) {
    new_books();
    seat_bytes();
    bytes_not_read();
    limits();
    counters();
    book_in_order();
    longest_game();
}

/* ---- The run ---- */

static void run(const input *in) {
    uint8_t all[ZIWHAKEMO_ALWAYS_ENOUGH];
    lent from;
    from.counts = (uint8_t *)lend(in->counts, in->counts_length);
    from.calls = (ziwhakemo_meld *)lend(in->calls, in->calls_length * sizeof(ziwhakemo_meld));
    size_t readings = list_guarded(in, from, all);
    size_t bytes = 0;
    for (size_t i = 0; i < readings; i++) bytes += all[bytes] + 256u * all[bytes + 1];
    if (hand_check(in) == 0) with_readings[readings < MANY ? readings : (size_t)MANY]++;
    list_exactly(in, from, all, bytes, readings, false);
    hold_melds(in, all, readings);
    score(in, from, readings);
    by_number(in, from, readings);
    under_both(in, from, all, readings);
    without_dora(in, from, readings);
    by_sources(in, all, bytes, readings);
    points(in);
    list_exactly(in, from, all, bytes, readings, true);
    three_score(in, from);
    three_by_number(in, from);
    three_points(in);
    book_both(in, from);
    go_on(in, from);
    hold(same(from.counts, in->counts, in->counts_length), "the counts changed", in);
    hold(same(from.calls, in->calls, in->calls_length * sizeof(ziwhakemo_meld)), "a call changed",
         in);
    free(from.counts);
    free(from.calls);
}

static void print(const char *name, const uint64_t *answers) {
    printf("%s:", name);
    for (int i = 0; i < NUMBERS; i++)
        if (answers[i] > 0) printf(" %d: %lu", i, (unsigned long)answers[i]);
    printf("\n");
}

/* Prints how often each number was answered. Of these, closed by -1, each has to be among them where
   there were inputs enough. */
static void print_numbers(const char *name, const uint64_t *answers, const int *numbers,
                          bool enough) {
    print(name, answers);
    for (; enough && *numbers >= 0; numbers++) {
        if (answers[*numbers] > 0) continue;
        printf("WRONG: never answered with %d\n", *numbers);
        wrong++;
    }
}

static void print_operations(bool enough) {
    static const int listing[] = {0, 1, 2, 3, 4, 5, 6, 7, -1};
    static const int win[] = {0, 1, 2, 3, 4, 5, 6, 8, 14, 9, 10, 11, -1};
    static const int reading[] = {0, 1, 2, 3, 4, 5, 6, 8, 14, 9, 12, -1};
    static const int payment[] = {0, 8, 13, -1};
    static const int draw[] = {0, 15, 16, -1};
    static const int book_win[] = {0, 15, 16, 1, 2, 3, 4, 5, 6, 8, 14, 9, 10, 11, -1};
    print_numbers("ziwhakemo_list_readings", listed, listing, enough);
    print_numbers("ziwhakemo_score_win", won, win, enough);
    print_numbers("ziwhakemo_score_reading", scored, reading, enough);
    print_numbers("ziwhakemo_name_waits", named, reading, enough);
    print_numbers("ziwhakemo_payment", paid, payment, enough);
    print_numbers("ziwhakemo_three_list_readings", three_listed, listing, enough);
    print_numbers("ziwhakemo_three_score_win", three_won, win, enough);
    print_numbers("ziwhakemo_three_score_reading", three_scored, reading, enough);
    print_numbers("ziwhakemo_three_name_waits", three_named, reading, enough);
    print_numbers("ziwhakemo_three_payment", three_paid, payment, enough);
    print_numbers("ziwhakemo_book_draw", drawn, draw, enough);
    print_numbers("ziwhakemo_book_win", booked, book_win, enough);
}

/* Prints what else was met. */
static void print_others(void) {
    print("ziwhakemo_payment, by settlement", settled);
    print("ziwhakemo_book_win, by settlement", book_settled);
    print("ziwhakemo_score_level and ziwhakemo_basic_points, by level", levels);
    printf("accepted hands with 0, 1, 2, 3, 4, more readings:");
    for (int i = 0; i <= MANY; i++) printf(" %lu", (unsigned long)with_readings[i]);
    printf("\nreadings whose pair is both winds, as many fu by two as by four, ten fewer:");
    for (int i = 0; i < 2; i++) printf(" %lu", (unsigned long)fewer_fu[i]);
    printf("\nreadings without dora, with some, with 13 and more; yakuman with some; no yaku at "
           "13:");
    for (int i = 0; i < 3; i++) printf(" %lu", (unsigned long)with_dora[i]);
    printf(" %lu %lu", (unsigned long)yakuman_with_dora, (unsigned long)no_yaku_at_13);
    printf("\nhands with other sources: %lu", (unsigned long)other_sources_taken);
    printf("\ndealer's wins that score at a counter of 255: %lu", (unsigned long)full_counters);
    printf("\ngames from a new book, and their deals: %lu %lu", (unsigned long)games,
           (unsigned long)game_deals);
    printf("\nNULL lent for nothing: %lu\nwrong: %lu\n", (unsigned long)nulls,
           (unsigned long)wrong);
}

int main(int words, char **arguments) {
    if (ziwhakemo_version() != ZIWHAKEMO_VERSION) {
        printf("the library is of version %lu, the header of version %d\n",
               (unsigned long)ziwhakemo_version(), ZIWHAKEMO_VERSION);
        return 2;
    }
    unsigned long inputs = words > 1 ? strtoul(arguments[1], NULL, 10) : 100000;
    unsigned long seed = words > 2 ? strtoul(arguments[2], NULL, 10) : 1;
    state = seed;
    settings();
    indicators();
    sources();
    three_players();
    books();
    for (unsigned long i = 0; i < inputs; i++) {
        input in = draw_input();
        run(&in);
    }
    printf("%lu inputs, seed %lu; by answer:\n", inputs, seed);
    print_operations(inputs >= ENOUGH);
    print_others();
    return wrong > 0;
}
