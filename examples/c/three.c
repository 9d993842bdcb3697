/* Scores two wins of a table of three players, each beside what it would pay at a table of four, and
   shows what the functions for three players refuse. In the root:

     cc -std=c99 -Iinclude examples/c/three.c target/staticlib/libziwhakemo.a -o target/three
     target/three

   It prints examples/c/three.out. */
#include "ziwhakemo_names.h"
#include <stdio.h>
#include <string.h>

/* A finished hand, its calls and its win. */
typedef struct {
    uint8_t counts[ZIWHAKEMO_TILES];
    ziwhakemo_meld calls[4];
    size_t calls_length;
    ziwhakemo_game_context win;
} hand;

/* ---- What is printed ---- */

/* Who pays what, of so many players who are not the dealer and did not win. */
static void print_payment(const ziwhakemo_score_answer *score, int others) {
    printf("%d han %d fu, ", score->han, score->fu);
    switch (score->settlement) {
    case ZIWHAKEMO_SETTLEMENT_RON:
        printf("the discarder pays %lu", (unsigned long)score->from_discarder);
        break;
    case ZIWHAKEMO_SETTLEMENT_DEALER_TSUMO:
        printf("%d players pay %lu each", others, (unsigned long)score->from_non_dealer);
        break;
    case ZIWHAKEMO_SETTLEMENT_TSUMO:
        printf("the dealer pays %lu, %d %s %lu%s", (unsigned long)score->from_dealer, others,
               others == 1 ? "other" : "others", (unsigned long)score->from_non_dealer,
               others == 1 ? "" : " each");
        break;
    default: printf("nobody pays");
    }
    printf(", total %lu\n", (unsigned long)score->total);
}

/* Each reading by its number, with its waits. */
static void print_readings(const hand *h, size_t readings) {
    for (size_t n = 0; n < readings; n++) {
        ziwhakemo_score_answer score = ziwhakemo_three_score_reading(
            h->counts, ZIWHAKEMO_TILES, h->calls, h->calls_length, h->win, n);
        ziwhakemo_waits_answer waits = ziwhakemo_three_name_waits(
            h->counts, ZIWHAKEMO_TILES, h->calls, h->calls_length, h->win, n);
        printf("  reading %lu: %lu points, waits:", (unsigned long)n, (unsigned long)score.total);
        for (int i = 0; i < ZIWHAKEMO_WAITS; i++)
            if (waits.waits[i] > 0) printf(" %s", ziwhakemo_wait_name((size_t)i));
        printf("\n");
    }
}

/* The win at a table of three and at one of four. Answers false where it is refused. */
static bool show(const char *what, const hand *h) {
    uint8_t records[ZIWHAKEMO_ALWAYS_ENOUGH];
    bool is_dealer = h->win.seat_wind == ZIWHAKEMO_EAST;
    ziwhakemo_listing_answer listing = ziwhakemo_three_list_readings(
        h->counts, ZIWHAKEMO_TILES, h->calls, h->calls_length, records, sizeof records);
    ziwhakemo_score_answer three = ziwhakemo_three_score_win(h->counts, ZIWHAKEMO_TILES, h->calls,
                                                             h->calls_length, h->win);
    ziwhakemo_score_answer four =
        ziwhakemo_score_win(h->counts, ZIWHAKEMO_TILES, h->calls, h->calls_length, h->win);
    printf("%s\n", what);
    print_readings(h, listing.readings);
    if (three.number != ZIWHAKEMO_ACCEPTED || four.number != ZIWHAKEMO_ACCEPTED) {
        printf("  refused with %lu and %lu\n", (unsigned long)three.number,
               (unsigned long)four.number);
        return false;
    }
    printf("  three players: ");
    print_payment(&three, is_dealer ? 2 : 1);
    printf("  four players: ");
    print_payment(&four, is_dealer ? 3 : 2);
    return true;
}

/* What is refused at a table of three. Answers false where it is refused with another number. */
static bool refused(const char *what, const hand *h, uint32_t number) {
    ziwhakemo_score_answer score = ziwhakemo_three_score_win(h->counts, ZIWHAKEMO_TILES, h->calls,
                                                             h->calls_length, h->win);
    printf("  %s: %lu, %s\n", what, (unsigned long)score.number,
           ziwhakemo_number_meaning(score.number));
    return score.number == number;
}

/* ---- The hands ---- */

/* A tsumo in the East round with no tile, no call, no flag and no indicator, in a room that gives
   four fu for a pair that is both winds. */
static hand nothing(uint8_t winning_tile, uint8_t seat_wind) {
    hand h;
    memset(&h, 0, sizeof h);
    h.win.win_type = ZIWHAKEMO_TSUMO;
    h.win.winning_tile = winning_tile;
    h.win.round_wind = ZIWHAKEMO_EAST;
    h.win.seat_wind = seat_wind;
    h.win.double_wind_fu = ZIWHAKEMO_DOUBLE_WIND_FU_FOUR;
    return h;
}

/* The pon comes from the player on the left, who has another number than at a table of four. */
static hand with_pon(void) {
    hand h = nothing(ZIWHAKEMO_PIN(5), ZIWHAKEMO_SOUTH);
    h.counts[ZIWHAKEMO_MAN(9)] = 3;
    for (int n = 3; n <= 5; n++) h.counts[ZIWHAKEMO_PIN(n)] = 1;
    for (int n = 4; n <= 6; n++) h.counts[ZIWHAKEMO_SOU(n)] = 1;
    h.counts[ZIWHAKEMO_SOU(8)] = 2;
    h.calls[0].tile = ZIWHAKEMO_RED;
    h.calls[0].kind = ZIWHAKEMO_MELD_OPEN_TRIPLET;
    h.calls[0].source = ZIWHAKEMO_THREE_FROM_LEFT;
    h.calls_length = 1;
    return h;
}

static hand of_the_dealer(void) {
    hand h = nothing(ZIWHAKEMO_PIN(5), ZIWHAKEMO_EAST);
    for (int n = 1; n <= 8; n++) h.counts[ZIWHAKEMO_PIN(n)] = n == 3 ? 2 : 1;
    h.counts[ZIWHAKEMO_PIN(9)] = 3;
    h.counts[ZIWHAKEMO_WEST] = 2;
    h.win.is_riichi = true;
    return h;
}

/* The first hand with a chi of pin 345 in place of the sequence. */
static hand with_chi(void) {
    hand h = with_pon();
    for (int n = 3; n <= 5; n++) h.counts[ZIWHAKEMO_PIN(n)] = 0;
    h.calls[1].tile = ZIWHAKEMO_PIN(3);
    h.calls[1].kind = ZIWHAKEMO_MELD_OPEN_SEQUENCE;
    h.calls[1].source = ZIWHAKEMO_THREE_FROM_LEFT;
    h.calls_length = 2;
    return h;
}

/* The first hand with the pon's source as it is at a table of four. */
static hand from_the_left_of_four(void) {
    hand h = with_pon();
    h.calls[0].source = ZIWHAKEMO_FROM_LEFT;
    return h;
}

/* The first hand with man 555 in place of man 999. */
static hand with_man_5(void) {
    hand h = with_pon();
    h.counts[ZIWHAKEMO_MAN(9)] = 0;
    h.counts[ZIWHAKEMO_MAN(5)] = 3;
    return h;
}

/* The first hand with an indicator. */
static hand with_indicator(void) {
    hand h = with_pon();
    h.win.dora_indicators.tiles[h.win.dora_indicators.count++] = ZIWHAKEMO_SOU(7);
    return h;
}

static bool show_refusals(void) {
    hand chi = with_chi(), left = from_the_left_of_four(), man = with_man_5();
    hand shown = with_indicator();
    printf("refused with three players, of the first hand\n");
    bool good = refused("with chi 345p", &chi, ZIWHAKEMO_REFUSED_NOT_A_CALL);
    good = refused("pon from ZIWHAKEMO_FROM_LEFT", &left, ZIWHAKEMO_REFUSED_NOT_A_CALL) && good;
    good = refused("with 555m", &man, ZIWHAKEMO_REFUSED_COUNT_ABOVE_FOUR) && good;
    return refused("indicator 7s", &shown, ZIWHAKEMO_REFUSED_INDICATORS) && good;
}

/* The payments of a mangan by tsumo in both games. */
static void show_mangan(void) {
    for (int dealer = 1; dealer >= 0; dealer--) {
        ziwhakemo_payment_answer three = ziwhakemo_three_payment(2000, dealer, ZIWHAKEMO_TSUMO);
        ziwhakemo_payment_answer four = ziwhakemo_payment(2000, dealer, ZIWHAKEMO_TSUMO);
        printf("mangan by %s tsumo: total %lu with three players, %lu with four\n",
               dealer ? "the dealer's" : "another's", (unsigned long)three.total,
               (unsigned long)four.total);
    }
}

int main(void) {
    if (ziwhakemo_version() != ZIWHAKEMO_VERSION) {
        printf("the library is of version %lu, the header of version %d\n",
               (unsigned long)ziwhakemo_version(), ZIWHAKEMO_VERSION);
        return 2;
    }
    hand first = with_pon(), second = of_the_dealer();
    bool good = show("999m 345p 456s 88s, pon Red from the left: South, tsumo on 5p", &first);
    good = show("123p 345p 678p 999p, pair West: East, riichi, tsumo on 5p", &second) && good;
    good = show_refusals() && good;
    show_mangan();
    return good ? 0 : 1;
}
