/* Lists the readings of three hands, decodes each record, and prints it with its waits, yaku, dora
   and score, then what the win scores and who pays what. The first hand has a chi from the left, a
   pon from across and a closed kan, whose four tiles are dora. In the root:

     cc -std=c99 -Iinclude examples/c/calls.c target/staticlib/libziwhakemo.a -o target/calls
     target/calls

   It prints examples/c/calls.out. */
#include "ziwhakemo_names.h"
#include <stdio.h>
#include <string.h>

/* A finished hand, its calls and its win. */
typedef struct {
    uint8_t counts[ZIWHAKEMO_TILES];
    ziwhakemo_meld calls[4];
    size_t calls_length;
    ziwhakemo_game_context win;
} hand;

/* ---- Tiles ---- */

static void print_tile(uint8_t tile) {
    static const char *const honors[] = {"East", "South", "West", "North", "White", "Green", "Red"};
    if (tile >= ZIWHAKEMO_EAST) printf("%s", honors[tile - ZIWHAKEMO_EAST]);
    else printf("%d%c", tile % 9 + 1, "mps"[tile / 9]);
}

static void print_tiles(const uint8_t *tiles, int number) {
    for (int i = 0; i < number; i++) {
        printf(" ");
        print_tile(tiles[i]);
    }
}

/* ---- Records ---- */

/* Prints a meld, and who its tile came from where it was called. */
static void print_meld(ziwhakemo_meld meld) {
    static const char *const kinds[] = {"sequence from", "chi from", "triplet of", "pon of",
                                        "closed kan of", "open kan of", "added kan of"};
    static const char *const sources[] = {"", " (called from the right)", " (called from across)",
                                          " (called from the left)"};
    printf(", %s ", kinds[meld.kind]);
    print_tile(meld.tile);
    printf("%s", sources[meld.source]);
}

/* Prints melds of a record, each of which stands there byte for byte. */
static void print_melds(const uint8_t *bytes, int number) {
    ziwhakemo_meld meld;
    for (int i = 0; i < number; i++) {
        memcpy(&meld, bytes + (size_t)i * sizeof meld, sizeof meld);
        print_meld(meld);
    }
}

/* Prints a record and answers its length. What stands where is said in ziwhakemo.h, "Listing
   readings". */
static size_t print_record(const uint8_t *record) {
    size_t length = record[0] + 256u * record[1];
    unsigned kind = record[2] + 256u * record[3];
    const uint8_t *rest = record + 4;
    if (kind == ZIWHAKEMO_RECORD_SEVEN_PAIRS) {
        printf("seven pairs:");
        print_tiles(rest, 7);
    } else if (kind == ZIWHAKEMO_RECORD_ORPHANS) {
        printf("thirteen orphans, twice");
        print_tiles(rest, 1);
    } else {
        printf("pair of");
        print_tiles(rest, 1);
        print_melds(rest + 1, 4);
    }
    return length;
}

/* ---- Scores ---- */

static void print_waits(const hand *h, size_t reading) {
    ziwhakemo_waits_answer answer = ziwhakemo_name_waits(h->counts, ZIWHAKEMO_TILES, h->calls,
                                                         h->calls_length, h->win, reading);
    printf("    waits:");
    for (int i = 0; i < ZIWHAKEMO_WAITS; i++)
        if (answer.waits[i] > 0) printf(" %s", ziwhakemo_wait_name((size_t)i));
    printf("\n");
}

static void print_score(const ziwhakemo_score_answer *score) {
    printf("    yaku:");
    for (int i = 0; i < ZIWHAKEMO_YAKU; i++) {
        if (score->tallies[i] > 0) printf(" [%s]", ziwhakemo_yaku_name((size_t)i));
        if (score->tallies[i] > 1) printf(" x%d", score->tallies[i]);
    }
    printf("\n    dora: %d, ura dora: %d", score->regular_dora, score->ura_dora);
    if (score->is_yakuman) printf(" (a yakuman takes none)");
    printf("\n    %d han %d fu, %s", score->han, score->fu, ziwhakemo_level_name(score->level));
    if (score->yakuman_count > 1) printf(" x%d", score->yakuman_count);
    printf(", basic points %lu\n", (unsigned long)score->basic_points);
}

/* Who pays what: the settlement says which of the amounts are meant. */
static void print_payment(const ziwhakemo_score_answer *score) {
    unsigned long other = score->from_non_dealer;
    printf("    %s: ", ziwhakemo_settlement_name(score->settlement));
    switch (score->settlement) {
    case ZIWHAKEMO_SETTLEMENT_RON:
        printf("the discarder pays %lu", (unsigned long)score->from_discarder);
        break;
    case ZIWHAKEMO_SETTLEMENT_DEALER_TSUMO:
        printf("each of the three others pays %lu", other);
        break;
    case ZIWHAKEMO_SETTLEMENT_TSUMO:
        printf("the dealer pays %lu, each of the two others %lu",
               (unsigned long)score->from_dealer, other);
        break;
    default: printf("nobody pays");
    }
    printf(", total %lu\n", (unsigned long)score->total);
}

/* ---- A hand ---- */

/* Prints every reading with its waits and score. Answers false where the hand is refused. */
static bool print_readings(const hand *h) {
    uint8_t records[ZIWHAKEMO_ALWAYS_ENOUGH];
    size_t at = 0;
    ziwhakemo_listing_answer listing =
        ziwhakemo_list_readings(h->counts, ZIWHAKEMO_TILES, h->calls, h->calls_length, records,
                                sizeof records);
    if (listing.number != ZIWHAKEMO_ACCEPTED) {
        printf("  the hand is refused: %s\n", ziwhakemo_number_meaning(listing.number));
        return false;
    }
    for (size_t n = 0; n < listing.readings; n++) {
        ziwhakemo_score_answer score = ziwhakemo_score_reading(
            h->counts, ZIWHAKEMO_TILES, h->calls, h->calls_length, h->win, n);
        printf("  reading %lu: ", (unsigned long)n);
        at += print_record(records + at);
        printf("\n");
        print_waits(h, n);
        print_score(&score);
    }
    return true;
}

static bool show(const char *what, const hand *h) {
    printf("%s\n", what);
    if (!print_readings(h)) return false;
    ziwhakemo_score_answer score =
        ziwhakemo_score_win(h->counts, ZIWHAKEMO_TILES, h->calls, h->calls_length, h->win);
    if (score.number != ZIWHAKEMO_ACCEPTED) {
        printf("  the win is refused: %s\n", ziwhakemo_number_meaning(score.number));
        return false;
    }
    printf("  the win: reading %lu\n", (unsigned long)score.reading);
    print_score(&score);
    print_payment(&score);
    return true;
}

/* ---- The hands ---- */

/* No tile, no call, no flag and no indicator, in a room that gives four fu for a pair that is both
   winds. */
static hand nothing(uint8_t win_type, uint8_t winning_tile, uint8_t seat_wind) {
    hand h;
    memset(&h, 0, sizeof h);
    h.win.win_type = win_type;
    h.win.winning_tile = winning_tile;
    h.win.round_wind = ZIWHAKEMO_EAST;
    h.win.seat_wind = seat_wind;
    h.win.double_wind_fu = ZIWHAKEMO_DOUBLE_WIND_FU_FOUR;
    return h;
}

static void call(hand *h, uint8_t tile, uint8_t kind, uint8_t source) {
    ziwhakemo_meld *meld = &h->calls[h->calls_length++];
    meld->tile = tile;
    meld->kind = kind;
    meld->source = source;
}

/* Shows one indicator more: the tile that lies there, not the dora. */
static void show_indicator(ziwhakemo_indicators *shown, uint8_t tile) {
    shown->tiles[shown->count++] = tile;
}

static hand with_calls(void) {
    hand h = nothing(ZIWHAKEMO_RON, ZIWHAKEMO_PIN(6), ZIWHAKEMO_SOUTH);
    h.counts[ZIWHAKEMO_PIN(4)] = h.counts[ZIWHAKEMO_PIN(5)] = h.counts[ZIWHAKEMO_PIN(6)] = 1;
    h.counts[ZIWHAKEMO_SOU(8)] = 2;
    call(&h, ZIWHAKEMO_MAN(2), ZIWHAKEMO_MELD_OPEN_SEQUENCE, ZIWHAKEMO_FROM_LEFT);
    call(&h, ZIWHAKEMO_RED, ZIWHAKEMO_MELD_OPEN_TRIPLET, ZIWHAKEMO_FROM_ACROSS);
    call(&h, ZIWHAKEMO_EAST, ZIWHAKEMO_MELD_CLOSED_KAN, ZIWHAKEMO_FROM_NOBODY);
    show_indicator(&h.win.dora_indicators, ZIWHAKEMO_NORTH);
    show_indicator(&h.win.dora_indicators, ZIWHAKEMO_MAN(1));
    return h;
}

static hand seven_pairs(void) {
    hand h = nothing(ZIWHAKEMO_TSUMO, ZIWHAKEMO_MAN(2), ZIWHAKEMO_EAST);
    h.counts[ZIWHAKEMO_MAN(1)] = h.counts[ZIWHAKEMO_MAN(2)] = h.counts[ZIWHAKEMO_MAN(3)] = 2;
    h.counts[ZIWHAKEMO_PIN(7)] = h.counts[ZIWHAKEMO_PIN(8)] = h.counts[ZIWHAKEMO_PIN(9)] = 2;
    h.counts[ZIWHAKEMO_SOU(5)] = 2;
    h.win.is_riichi = true;
    show_indicator(&h.win.dora_indicators, ZIWHAKEMO_MAN(1));
    show_indicator(&h.win.ura_dora_indicators, ZIWHAKEMO_SOU(4));
    return h;
}

static hand orphans(void) {
    hand h = nothing(ZIWHAKEMO_TSUMO, ZIWHAKEMO_RED, ZIWHAKEMO_WEST);
    h.counts[ZIWHAKEMO_MAN(1)] = h.counts[ZIWHAKEMO_MAN(9)] = 1;
    h.counts[ZIWHAKEMO_PIN(1)] = h.counts[ZIWHAKEMO_PIN(9)] = 1;
    h.counts[ZIWHAKEMO_SOU(1)] = h.counts[ZIWHAKEMO_SOU(9)] = 1;
    for (int tile = ZIWHAKEMO_EAST; tile <= ZIWHAKEMO_RED; tile++) h.counts[tile] = 1;
    h.counts[ZIWHAKEMO_RED] = 2;
    show_indicator(&h.win.dora_indicators, ZIWHAKEMO_GREEN);
    return h;
}

int main(void) {
    if (ziwhakemo_version() != ZIWHAKEMO_VERSION) {
        printf("the library is of version %lu, the header of version %d\n",
               (unsigned long)ziwhakemo_version(), ZIWHAKEMO_VERSION);
        return 2;
    }
    hand first = with_calls(), second = seven_pairs(), third = orphans();
    bool good = show("456p 88s, chi 234m from the left, pon Red from across, closed kan East: South, "
                     "ron on 6p; indicators North and 1m",
                     &first);
    good = show("112233m 778899p 55s: East, riichi, tsumo on 2m; indicator 1m, ura indicator 4s",
                &second) && good;
    good = show("19m 19p 19s, each honor, Red twice: West, tsumo on Red; indicator Green", &third) &&
           good;
    return good ? 0 : 1;
}
