/* Holds the names of ziwhakemo_names.h to the library: for every yaku, wait, level, settlement and
   refusal it asks for something that is known to have it, and what is answered, named, has to be
   what is written here. In the root:

     cc -std=c99 -Iinclude examples/c/names.c target/staticlib/libziwhakemo.a -o target/names
     target/names

   It exits with status 1 where a name differs or is never asked for. */
#include "ziwhakemo_names.h"
#include <stdio.h>
#include <string.h>

enum { MOST_TEXT = 200, NUMBERS = ZIWHAKEMO_REFUSED_BOOK + 1 };

static unsigned wrong;

static void hold(const char *got, const char *expected, const char *what) {
    if (strcmp(got, expected) == 0) return;
    printf("WRONG: %s: named \"%s\", expected \"%s\"\n", what, got, expected);
    wrong++;
}

/* Every place is to have been named. */
static void hold_all(const bool *named, int places, const char *what) {
    for (int i = 0; i < places; i++) {
        if (named[i]) continue;
        printf("WRONG: %s %d is never asked for\n", what, i);
        wrong++;
    }
}

/* ---- Hands in the usual notation: 123m for man, p for pin, s for sou, and of z 1 to 4 for the winds
   and 5 to 7 for white, green, red ---- */

static uint8_t tile_of(char digit, char suit) {
    int n = digit - '0';
    if (suit == 'm') return ZIWHAKEMO_MAN(n);
    if (suit == 'p') return ZIWHAKEMO_PIN(n);
    if (suit == 's') return ZIWHAKEMO_SOU(n);
    return (uint8_t)(ZIWHAKEMO_EAST + n - 1);
}

typedef struct {
    uint8_t counts[ZIWHAKEMO_TILES];
    ziwhakemo_meld calls[5];
    size_t calls_length;
    ziwhakemo_game_context win;
} hand;

static void read_tiles(hand *h, const char *text) {
    for (; *text != 0; text++) {
        const char *suit = text + strcspn(text, "mpsz");
        for (; text < suit; text++) h->counts[tile_of(*text, *suit)]++;
    }
}

static uint8_t kind_of(char letter) {
    if (letter == 'c') return ZIWHAKEMO_MELD_OPEN_SEQUENCE; /* chi, by its lowest tile */
    if (letter == 'p') return ZIWHAKEMO_MELD_OPEN_TRIPLET;
    if (letter == 'k') return ZIWHAKEMO_MELD_CLOSED_KAN;
    if (letter == 'o') return ZIWHAKEMO_MELD_OPEN_KAN;
    return ZIWHAKEMO_MELD_ADDED_KAN; /* a */
}

/* Three letters a call: kind, number, suit. What is called comes from the left. */
static void read_calls(hand *h, const char *text) {
    for (; *text != 0; text += 3) {
        ziwhakemo_meld *call = &h->calls[h->calls_length++];
        call->tile = tile_of(text[1], text[2]);
        call->kind = kind_of(text[0]);
        call->source = text[0] == 'k' ? ZIWHAKEMO_FROM_NOBODY : ZIWHAKEMO_FROM_LEFT;
    }
}

/* The winning tile, round and seat wind, and a letter for tsumo and each flag. The room gives four
   fu for a pair that is both winds. No indicator is shown. */
static void read_win(ziwhakemo_game_context *win, const char *text) {
    win->winning_tile = tile_of(text[0], text[1]);
    win->round_wind = tile_of(text[3], 'z');
    win->seat_wind = tile_of(text[4], 'z');
    win->double_wind_fu = ZIWHAKEMO_DOUBLE_WIND_FU_FOUR;
    for (const char *flag = text + 5; *flag != 0; flag++) {
        if (*flag == 't') win->win_type = ZIWHAKEMO_TSUMO;
        if (*flag == 'r') win->is_riichi = true;
        if (*flag == 'd') win->is_double_riichi = true;
        if (*flag == 'i') win->is_ippatsu = true;
        if (*flag == 'k') win->is_rinshan = true;
        if (*flag == 'c') win->is_chankan = true;
        if (*flag == 'l') win->is_last_tile = true;
        if (*flag == 'T') win->is_tenhou = true;
        if (*flag == 'C') win->is_chiihou = true;
    }
}

static hand read_hand(const char *tiles, const char *calls, const char *win) {
    hand h;
    memset(&h, 0, sizeof h);
    read_tiles(&h, tiles);
    read_calls(&h, calls);
    read_win(&h.win, win);
    return h;
}

/* ---- Yaku ---- */

/* A win, and all its yaku in the order of the tallies. */
typedef struct {
    const char *tiles, *calls, *win, *yaku;
} won;

static const won wins[] = {
    {"123678m456p789s11p", "", "7m 12r", "Riichi"},
    {"123678m456p789s11p", "", "7m 12ri", "Riichi, Ippatsu"},
    {"123678m456p789s11p", "", "7m 12t", "Menzen Tsumo"},
    {"234567m345p678s55s", "", "6m 12", "Tanyao"},
    {"123678m456p789s22p", "", "1m 12", "Pinfu"},
    {"112233m456p789s11p", "", "5p 12", "Iipeikou"},
    {"123m456p789s55p111z", "", "2m 12", "Yakuhai East"},
    {"123m456p789s55p222z", "", "2m 12", "Yakuhai South"},
    {"123m456p789s55p333z", "", "2m 32", "Yakuhai West"},
    {"123m456p789s55p444z", "", "2m 14", "Yakuhai North"},
    {"123m456p789s55p555z", "", "2m 12", "Yakuhai White"},
    {"123m456p789s55p666z", "", "2m 12", "Yakuhai Green"},
    {"123m456p789s55p777z", "", "2m 12", "Yakuhai Red"},
    {"123m456p789s11m", "k9p", "2m 12tk", "Menzen Tsumo, Rinshan Kaihou"},
    {"123678m456p789s11p", "", "7m 12c", "Chankan"},
    {"123678m456p789s11p", "", "7m 12tl", "Menzen Tsumo, Haitei Raoyue"},
    {"123678m456p789s11p", "", "7m 12l", "Houtei Raoyui"},
    {"123678m456p789s11p", "", "7m 12rd", "Double Riichi"},
    {"999s333p44m", "p2mp5p", "4m 12", "Toitoi"},
    {"234m234p234789s99p", "", "3m 12", "Sanshoku Doujun"},
    {"456m99p", "p3mp3pp3s", "5m 12", "Sanshoku Doukou"},
    {"123456789m234p99s", "", "5m 12", "Ittsu"},
    {"1199m3377p2255s44z", "", "1m 12", "Chiitoitsu"},
    {"123999m789p123s44z", "", "2m 12", "Chanta"},
    {"222678m888p55599s", "", "7m 12", "San Ankou"},
    {"456s99p", "o2mo5pa8s", "5s 12", "San Kantsu"},
    {"999s444z11p", "p1mp9p", "1p 12", "Toitoi, Honroutou"},
    {"234m678p55566677z", "", "3m 12", "Yakuhai White, Yakuhai Green, Shousangen"},
    {"12322567999m444z", "", "6m 12", "Honitsu"},
    {"123999m11789p123s", "", "2m 12", "Junchan"},
    {"112233m778899p55s", "", "2m 12", "Ryanpeikou"},
    {"12322345567999m", "", "6m 12", "Chinitsu"},
    {"123678m456p789s11p", "", "7m 11tT", "Tenhou"},
    {"123678m456p789s11p", "", "7m 12tC", "Chiihou"},
    {"119m19p19s1234567z", "", "9m 12", "Kokushi Musou"},
    {"222m333888p55599s", "", "2m 12t", "Suuankou"},
    {"234m99p555666777z", "", "3m 12", "Daisangen"},
    {"234m11122233344z", "", "3m 12", "Shousuushii"},
    {"55m333444z", "p1zp2z", "5m 12", "Daisuushii"},
    {"11223344556677z", "", "1z 12", "Tsuuiisou"},
    {"111999p11s", "p1mp9m", "1s 12", "Chinroutou"},
    {"223344666888s66z", "", "3s 12", "Ryuuiisou"},
    {"11123455678999m", "", "1m 12", "Chuuren Poutou"},
    {"99m", "o2mo5pa8so3p", "9m 12", "Suu Kantsu"},
    {"119m19p19s1234567z", "", "1m 12", "Kokushi 13-Wait"},
    {"222m333888p55599s", "", "9s 12", "Suuankou Tanki"},
    {"11123455678999m", "", "5m 12", "Junsei Chuuren Poutou"}
};

static void add_name(char *text, const char *name) {
    if (*text != 0) strcat(text, ", ");
    strcat(text, name);
}

static void yaku(void) {
    bool named[ZIWHAKEMO_YAKU] = {false};
    for (size_t n = 0; n < sizeof wins / sizeof *wins; n++) {
        hand h = read_hand(wins[n].tiles, wins[n].calls, wins[n].win);
        char text[MOST_TEXT] = "";
        ziwhakemo_score_answer score =
            ziwhakemo_score_win(h.counts, ZIWHAKEMO_TILES, h.calls, h.calls_length, h.win);
        for (int i = 0; i < ZIWHAKEMO_YAKU && strlen(text) < MOST_TEXT / 2; i++) {
            if (score.tallies[i] == 0) continue;
            add_name(text, ziwhakemo_yaku_name((size_t)i));
            named[i] = true;
        }
        hold(text, wins[n].yaku, wins[n].tiles);
    }
    hold_all(named, ZIWHAKEMO_YAKU, "yaku");
    hold(ziwhakemo_yaku_name(ZIWHAKEMO_YAKU), "?", "no yaku");
}

/* ---- Waits ---- */

/* A win with one reading, and how it was waited for. */
static const won waits[] = {
    {"123678m456p789s22p", "", "1m 12", "Ryanmen"},
    {"123678m456p789s22p", "", "7m 12", "Kanchan"},
    {"123678m456p789s22p", "", "3m 12", "Penchan"},
    {"123m456p789s55p111z", "", "1z 12", "Shanpon"},
    {"123678m456p789s22z", "", "2z 12", "Tanki"},
    {"119m19p19s1234567z", "", "9m 12", "Tanki"},
    {"119m19p19s1234567z", "", "1m 12", "Kokushi13"}
};

static void wait_names(void) {
    bool named[ZIWHAKEMO_WAITS] = {false};
    for (size_t n = 0; n < sizeof waits / sizeof *waits; n++) {
        hand h = read_hand(waits[n].tiles, waits[n].calls, waits[n].win);
        char text[MOST_TEXT] = "";
        ziwhakemo_waits_answer answer =
            ziwhakemo_name_waits(h.counts, ZIWHAKEMO_TILES, h.calls, h.calls_length, h.win, 0);
        for (int i = 0; i < ZIWHAKEMO_WAITS; i++) {
            if (answer.waits[i] == 0) continue;
            add_name(text, ziwhakemo_wait_name((size_t)i));
            named[i] = true;
        }
        hold(text, waits[n].yaku, waits[n].tiles);
    }
    hold_all(named, ZIWHAKEMO_WAITS, "wait");
    hold(ziwhakemo_wait_name(ZIWHAKEMO_WAITS), "?", "no wait");
}

/* ---- Levels and settlements ---- */

static void hold_level(uint8_t han, const char *expected) {
    ziwhakemo_level_answer answer = ziwhakemo_score_level(han, 30, false);
    hold(ziwhakemo_level_name(answer.level), expected, "a level");
}

static void levels(void) {
    hold_level(4, "Normal");
    hold_level(5, "Mangan");
    hold_level(6, "Haneman");
    hold_level(8, "Baiman");
    hold_level(11, "Sanbaiman");
    hold_level(13, "Yakuman");
    hold(ziwhakemo_level_name(ZIWHAKEMO_LEVEL_YAKUMAN + 1), "?", "no level");
}

/* Of a mangan's points, and of a win by the same player. */
static void hold_settlement(bool is_dealer, uint8_t win_type, const char *expected) {
    ziwhakemo_payment_answer pay = ziwhakemo_payment(2000, is_dealer, win_type);
    hand h = read_hand("234567m345p678s55s", "", is_dealer ? "6m 11" : "6m 12");
    h.win.win_type = win_type;
    ziwhakemo_score_answer score =
        ziwhakemo_score_win(h.counts, ZIWHAKEMO_TILES, h.calls, h.calls_length, h.win);
    hold(ziwhakemo_settlement_name(pay.settlement), expected, "the settlement of a payment");
    hold(ziwhakemo_settlement_name(score.settlement), expected, "the settlement of a win");
}

static void settlements(void) {
    hold_settlement(false, 2, "None");
    hold_settlement(true, 2, "None");
    hold_settlement(false, ZIWHAKEMO_RON, "Ron");
    hold_settlement(true, ZIWHAKEMO_RON, "Ron");
    hold_settlement(true, ZIWHAKEMO_TSUMO, "Dealer's Tsumo");
    hold_settlement(false, ZIWHAKEMO_TSUMO, "Tsumo");
    hold(ziwhakemo_settlement_name(ZIWHAKEMO_SETTLEMENT_TSUMO + 1), "?", "no settlement");
}

/* ---- Refusals ---- */

static bool answered[NUMBERS];

static void hold_number(uint32_t number, const char *expected) {
    hold(ziwhakemo_number_meaning(number), expected, "the number of an answer");
    if (number < NUMBERS) answered[number] = true;
}

/* What a listing of a hand is answered with. */
static uint32_t listed(const char *tiles, const char *calls, size_t counts_length, size_t bytes) {
    static uint8_t out[ZIWHAKEMO_ALWAYS_ENOUGH];
    hand h = read_hand(tiles, calls, "1m 12");
    return ziwhakemo_list_readings(h.counts, counts_length, h.calls, h.calls_length, out, bytes)
        .number;
}

/* What a win is answered with. */
static uint32_t scored(const char *tiles, const char *win, uint8_t win_type) {
    hand h = read_hand(tiles, "", win);
    h.win.win_type = win_type;
    return ziwhakemo_score_win(h.counts, ZIWHAKEMO_TILES, h.calls, h.calls_length, h.win).number;
}

/* What a reading that is not there is answered with. */
static uint32_t beyond(void) {
    hand h = read_hand("123678m456p789s22p", "", "1m 12");
    return ziwhakemo_score_reading(h.counts, ZIWHAKEMO_TILES, NULL, 0, h.win, 1).number;
}

/* What a win with more than ten indicators is answered with. */
static uint32_t shown_eleven(void) {
    hand h = read_hand("123678m456p789s22p", "", "1m 12");
    h.win.dora_indicators.count = ZIWHAKEMO_INDICATORS + 1;
    return ziwhakemo_score_win(h.counts, ZIWHAKEMO_TILES, NULL, 0, h.win).number;
}

/* What a listing of a hand with three players is answered with. */
static uint32_t three_listed(const char *tiles) {
    static uint8_t out[ZIWHAKEMO_ALWAYS_ENOUGH];
    hand h = read_hand(tiles, "", "1m 12");
    return ziwhakemo_three_list_readings(h.counts, ZIWHAKEMO_TILES, NULL, 0, out, sizeof out).number;
}

/* What a win with one indicator is answered with, with three players. */
static uint32_t three_shown(void) {
    hand h = read_hand("999m456p123789s22p", "", "1s 12");
    h.win.dora_indicators.count = 1;
    return ziwhakemo_three_score_win(h.counts, ZIWHAKEMO_TILES, NULL, 0, h.win).number;
}

/* What a draw is answered with, by the dealer's seat, on a book with this counter. */
static uint32_t drawn(uint8_t dealer, uint8_t counter) {
    ziwhakemo_seat_book book = ziwhakemo_new_book();
    ziwhakemo_deal deal = {dealer, {false, false, false, false}};
    book.counter = counter;
    return ziwhakemo_book_draw(&book, deal);
}

/* What a win on another's discard is answered with, seat 0 being the dealer. */
static uint32_t booked(uint8_t seat, uint8_t discarder, uint8_t counter) {
    hand h = read_hand("123678m456p789s22p", "", "1m 12");
    ziwhakemo_seat_book book = ziwhakemo_new_book();
    ziwhakemo_deal deal = {0, {false, false, false, false}};
    ziwhakemo_winner winner = {seat, true, discarder};
    book.counter = counter;
    return ziwhakemo_book_win(&book, h.counts, ZIWHAKEMO_TILES, NULL, 0, h.win, deal, winner);
}

/* The numbers of a booking. */
static void book_refusals(void) {
    const char *seats = "a seat is above 3, or the discarder is the winner";
    const char *full = "the book takes no deal more, or its counter would pass 255";
    hold_number(drawn(3, ZIWHAKEMO_MOST_COUNTER - 1), "accepted");
    hold_number(drawn(ZIWHAKEMO_SEATS, 0), seats);
    hold_number(drawn(0, ZIWHAKEMO_MOST_COUNTER), full);
    hold_number(booked(1, 0, ZIWHAKEMO_MOST_COUNTER), "accepted");
    hold_number(booked(1, 1, 0), seats);
    hold_number(booked(0, 1, ZIWHAKEMO_MOST_COUNTER), full);
}

static void refusals(void) {
    const char *above = "a count above 4, or with three players one of man 2 to 8 above 0";
    const char *shown =
        "an indicator is above 33, there are more than ten, or one with three players";
    const char *good = "123678m456p789s22p";
    size_t room = ZIWHAKEMO_ALWAYS_ENOUGH, tiles = ZIWHAKEMO_TILES;
    hold_number(listed(good, "", tiles, room), "accepted");
    hold_number(listed(good, "", tiles - 1, room), "the counts are not 34 long");
    hold_number(listed("", "c1mc1mc1mc1pc1p", tiles, room), "more than four calls");
    hold_number(listed(good, "c8m", tiles, room),
                "a call's kind, tile or source is not that of a call");
    hold_number(listed("11111m", "", tiles, room), above);
    hold_number(three_listed(good), above);
    hold_number(listed("11m", "p1m", tiles, room),
                "hand and calls together hold more than four of a kind");
    hold_number(listed("1m", "", tiles, room), "hand tiles are not 14 - 3 x calls");
    hold_number(listed(good, "", tiles, ZIWHAKEMO_STANDARD_LENGTH - 1),
                "the records need more bytes than were lent");
    hold_number(scored(good, "1m 12", 2), "win type, a wind or the room's setting out of range");
    hold_number(scored(good, "4m 12", ZIWHAKEMO_RON),
                "the winning tile is above 33 or not in the hand");
    hold_number(scored("123578m456p789s22p", "1m 12", ZIWHAKEMO_RON), "the hand has no reading");
    hold_number(scored(good, "7m 12", ZIWHAKEMO_RON), "no reading has a yaku");
    hold_number(beyond(), "there are not more readings than that number");
    hold_number(ziwhakemo_payment(ZIWHAKEMO_MOST_BASIC_POINTS + 1, false, ZIWHAKEMO_RON).number,
                "basic points above 152,000");
    hold_number(shown_eleven(), shown);
    hold_number(three_shown(), shown);
    book_refusals();
    hold_all(answered, NUMBERS, "number");
    hold(ziwhakemo_number_meaning(NUMBERS), "?", "no number");
}

int main(void) {
    if (ziwhakemo_version() != ZIWHAKEMO_VERSION) {
        printf("the library is of version %lu, the header of version %d\n",
               (unsigned long)ziwhakemo_version(), ZIWHAKEMO_VERSION);
        return 2;
    }
    yaku();
    wait_names();
    levels();
    settlements();
    refusals();
    printf("%d yaku, %d waits, %d levels, %d settlements, %d numbers; wrong: %u\n", ZIWHAKEMO_YAKU,
           ZIWHAKEMO_WAITS, ZIWHAKEMO_LEVEL_YAKUMAN + 1, ZIWHAKEMO_SETTLEMENT_TSUMO + 1, NUMBERS,
           wrong);
    return wrong > 0;
}
