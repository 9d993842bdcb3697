/* Books a short game and prints the book after each deal. A row says what was booked, who dealt,
   which seats declared riichi, the number that was answered, and the book: the points of each seat,
   the sticks on the table, the repeat counter and the deals booked. The last column is the sum of
   all points and of 1,000 for each stick. Then it books on a book that was set by hand. In the
   root:

     cc -std=c99 -Iinclude examples/c/book.c target/staticlib/libziwhakemo.a -o target/book
     target/book

   It prints examples/c/book.out. */
#include "ziwhakemo_names.h"
#include <stdio.h>
#include <string.h>

enum { MOST_TEXT = 24 };
enum { ALL_POINTS = ZIWHAKEMO_SEATS * ZIWHAKEMO_START_POINTS };

/* A finished hand without calls, and its win. */
typedef struct {
    uint8_t counts[ZIWHAKEMO_TILES];
    ziwhakemo_game_context win;
} hand;

/* ---- What is printed ---- */

/* All points: those of the seats, and those of the sticks on the table. */
static int64_t all_points(const ziwhakemo_seat_book *book) {
    int64_t sum = (int64_t)ZIWHAKEMO_STICK_POINTS * book->sticks;
    for (int seat = 0; seat < ZIWHAKEMO_SEATS; seat++) sum += book->points[seat];
    return sum;
}

static void print_head(void) {
    printf("%-16s %6s %6s %6s", "deal", "dealer", "riichi", "number");
    for (int seat = 0; seat < ZIWHAKEMO_SEATS; seat++) printf("     seat %d", seat);
    printf(" %6s %7s %5s %10s\n", "sticks", "counter", "deals", "sum");
}

static void print_book(const ziwhakemo_seat_book *book) {
    for (int seat = 0; seat < ZIWHAKEMO_SEATS; seat++) printf(" %10ld", (long)book->points[seat]);
    printf(" %6lu %7d %5d %10ld\n", (unsigned long)book->sticks, book->counter, book->deals,
           (long)all_points(book));
}

/* A book before anything is booked on it. */
static void print_start(const char *what, const ziwhakemo_seat_book *book) {
    printf("%-16s %6s %6s %6s", what, "-", "-", "-");
    print_book(book);
}

/* A booking, and the book after it. A refused one has a line more: what its number means. */
static void print_booking(const char *what, const ziwhakemo_deal *deal, uint32_t number,
                          const ziwhakemo_seat_book *book) {
    char riichi[ZIWHAKEMO_SEATS + 1] = "";
    for (int seat = 0; seat < ZIWHAKEMO_SEATS; seat++)
        riichi[seat] = deal->declared[seat] ? "0123"[seat] : '-';
    printf("%-16s %6d %6s %6lu", what, deal->dealer, riichi, (unsigned long)number);
    print_book(book);
    if (number != ZIWHAKEMO_ACCEPTED) printf("  refused: %s\n", ziwhakemo_number_meaning(number));
}

/* ---- Booking ---- */

/* Was it answered with this number, are there as many points as before, and has a refused booking
   changed no byte? A book has no padding, so memcmp may compare two of them. */
static bool is_right(uint32_t number, uint32_t expected, const ziwhakemo_seat_book *before,
                     const ziwhakemo_seat_book *after) {
    bool is_same = memcmp(before, after, sizeof *before) == 0;
    return number == expected && all_points(before) == all_points(after) &&
           is_same == (number != ZIWHAKEMO_ACCEPTED);
}

/* Books a draw. Answers false where something about it is not right. */
static bool draw(ziwhakemo_seat_book *book, ziwhakemo_deal deal, uint32_t expected) {
    ziwhakemo_seat_book before = *book;
    uint32_t number = ziwhakemo_book_draw(book, deal);
    print_booking("draw", &deal, number, book);
    return is_right(number, expected, &before, book);
}

/* Books a win, likewise. */
static bool win(ziwhakemo_seat_book *book, const hand *h, ziwhakemo_deal deal,
                ziwhakemo_winner winner, uint32_t expected) {
    char what[MOST_TEXT];
    ziwhakemo_seat_book before = *book;
    uint32_t number =
        ziwhakemo_book_win(book, h->counts, ZIWHAKEMO_TILES, NULL, 0, h->win, deal, winner);
    if (winner.has_discarder)
        snprintf(what, sizeof what, "ron by %d from %d", winner.seat, winner.discarder);
    else
        snprintf(what, sizeof what, "tsumo by %d", winner.seat);
    print_booking(what, &deal, number, book);
    return is_right(number, expected, &before, book);
}

/* ---- The deals ---- */

/* A deal in which nobody declared riichi. */
static ziwhakemo_deal dealt_by(uint8_t dealer) {
    ziwhakemo_deal deal = {dealer, {false, false, false, false}};
    return deal;
}

/* A deal in which one seat did. */
static ziwhakemo_deal with_riichi(uint8_t dealer, uint8_t seat) {
    ziwhakemo_deal deal = dealt_by(dealer);
    deal.declared[seat] = true;
    return deal;
}

static ziwhakemo_winner by_tsumo(uint8_t seat) {
    ziwhakemo_winner winner = {seat, false, 0}; /* the discarder is not read */
    return winner;
}

static ziwhakemo_winner by_ron(uint8_t seat, uint8_t discarder) {
    ziwhakemo_winner winner = {seat, true, discarder};
    return winner;
}

/* ---- The hands ---- */

/* No tile, no flag and no indicator, in a room that gives four fu for a pair that is both winds.
   Win type and seat wind stay 0, as a booking does not read them: both follow from the seats. */
static hand nothing(uint8_t winning_tile) {
    hand h;
    memset(&h, 0, sizeof h);
    h.win.winning_tile = winning_tile;
    h.win.round_wind = ZIWHAKEMO_EAST;
    h.win.double_wind_fu = ZIWHAKEMO_DOUBLE_WIND_FU_FOUR;
    return h;
}

/* 234567m 345p 678s 55s: Tanyao and Pinfu, and by tsumo Menzen Tsumo. */
static hand tanyao_pinfu(void) {
    hand h = nothing(ZIWHAKEMO_MAN(5));
    for (int n = 2; n <= 7; n++) h.counts[ZIWHAKEMO_MAN(n)] = 1;
    for (int n = 3; n <= 5; n++) h.counts[ZIWHAKEMO_PIN(n)] = 1;
    for (int n = 6; n <= 8; n++) h.counts[ZIWHAKEMO_SOU(n)] = 1;
    h.counts[ZIWHAKEMO_SOU(5)] = 2;
    return h;
}

/* The same with riichi. That a seat declared it is said in the deal as well. */
static hand after_riichi(void) {
    hand h = tanyao_pinfu();
    h.win.is_riichi = true;
    return h;
}

/* The same without the winning tile: 13 tiles. */
static hand unfinished(void) {
    hand h = tanyao_pinfu();
    h.counts[ZIWHAKEMO_MAN(5)] = 0;
    return h;
}

/* 119m 19p 19s and each honor, won on 9m: Kokushi Musou. */
static hand orphans(void) {
    static const uint8_t suited[] = {ZIWHAKEMO_MAN(1), ZIWHAKEMO_MAN(9), ZIWHAKEMO_PIN(1),
                                     ZIWHAKEMO_PIN(9), ZIWHAKEMO_SOU(1), ZIWHAKEMO_SOU(9)};
    hand h = nothing(ZIWHAKEMO_MAN(9));
    for (size_t i = 0; i < sizeof suited; i++) h.counts[suited[i]] = 1;
    for (int tile = ZIWHAKEMO_EAST; tile <= ZIWHAKEMO_RED; tile++) h.counts[tile] = 1;
    h.counts[ZIWHAKEMO_MAN(1)] = 2;
    return h;
}

/* ---- The game ---- */

/* Five deals that are booked, and two that are refused. */
static bool play(ziwhakemo_seat_book *book) {
    hand plain = tanyao_pinfu(), riichi = after_riichi(), short_of_one = unfinished();
    hand yakuman = orphans();
    bool good = draw(book, with_riichi(0, 2), ZIWHAKEMO_ACCEPTED);
    /* 2600 from the dealer, 1300 from each other, 100 each for the counter, and two sticks */
    good = win(book, &riichi, with_riichi(0, 1), by_tsumo(1), ZIWHAKEMO_ACCEPTED) && good;
    /* nobody wins on the own discard */
    good = win(book, &plain, dealt_by(1), by_ron(1, 1), ZIWHAKEMO_REFUSED_SEATS) && good;
    /* 2900 from the discarder to the dealer */
    good = win(book, &plain, dealt_by(1), by_ron(1, 3), ZIWHAKEMO_ACCEPTED) && good;
    /* a tile is missing */
    good = win(book, &short_of_one, dealt_by(1), by_tsumo(1),
               ZIWHAKEMO_REFUSED_NUMBER_OF_TILES) && good;
    /* 1300 and 100 from each other to the dealer, and the stick of seat 0 */
    good = win(book, &plain, with_riichi(1, 0), by_tsumo(1), ZIWHAKEMO_ACCEPTED) && good;
    /* 32000 and 600 from the discarder, who falls below zero */
    good = win(book, &yakuman, dealt_by(1), by_ron(3, 0), ZIWHAKEMO_ACCEPTED) && good;
    return good && all_points(book) == ALL_POINTS;
}

/* A book with a seat at the limit takes a deal. This one carries the seat beyond it, and the next
   is refused. */
static bool beyond_the_limit(void) {
    hand plain = tanyao_pinfu();
    ziwhakemo_seat_book book = ziwhakemo_new_book();
    book.points[3] = ZIWHAKEMO_MOST_POINTS;
    print_start("set by hand", &book);
    bool good = win(&book, &plain, dealt_by(0), by_ron(3, 2), ZIWHAKEMO_ACCEPTED);
    return draw(&book, dealt_by(0), ZIWHAKEMO_REFUSED_BOOK) && good;
}

int main(void) {
    if (ziwhakemo_version() != ZIWHAKEMO_VERSION) {
        printf("the library is of version %lu, the header of version %d\n",
               (unsigned long)ziwhakemo_version(), ZIWHAKEMO_VERSION);
        return 2;
    }
    ziwhakemo_seat_book book = ziwhakemo_new_book();
    print_head();
    print_start("new book", &book);
    bool good = play(&book);
    printf("\n");
    print_head();
    good = beyond_the_limit() && good;
    return good ? 0 : 1;
}
