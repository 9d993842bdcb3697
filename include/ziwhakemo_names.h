/*
 * Names to print for what the library answers with numbers: for a panel, a log or a test. Nothing
 * else needs this file. Each function takes a number of ziwhakemo.h and answers a text of ASCII that
 * stays for the whole run; a number that means nothing gets "?". examples/c/names.c holds the names
 * to the library.
 */
#ifndef ZIWHAKEMO_NAMES_H
#define ZIWHAKEMO_NAMES_H

#include "ziwhakemo.h"

#ifdef __cplusplus
extern "C" {
#endif

/* A yaku, by its place in the tallies. */
static inline const char *ziwhakemo_yaku_name(size_t yaku) {
    static const char *const names[ZIWHAKEMO_YAKU] = {
        "Riichi",
        "Ippatsu",
        "Menzen Tsumo",
        "Tanyao",
        "Pinfu",
        "Iipeikou",
        "Yakuhai East",
        "Yakuhai South",
        "Yakuhai West",
        "Yakuhai North",
        "Yakuhai White",
        "Yakuhai Green",
        "Yakuhai Red",
        "Rinshan Kaihou",
        "Chankan",
        "Haitei Raoyue",
        "Houtei Raoyui",
        "Double Riichi",
        "Toitoi",
        "Sanshoku Doujun",
        "Sanshoku Doukou",
        "Ittsu",
        "Chiitoitsu",
        "Chanta",
        "San Ankou",
        "San Kantsu",
        "Honroutou",
        "Shousangen",
        "Honitsu",
        "Junchan",
        "Ryanpeikou",
        "Chinitsu",
        "Tenhou",
        "Chiihou",
        "Kokushi Musou",
        "Suuankou",
        "Daisangen",
        "Shousuushii",
        "Daisuushii",
        "Tsuuiisou",
        "Chinroutou",
        "Ryuuiisou",
        "Chuuren Poutou",
        "Suu Kantsu",
        "Kokushi 13-Wait",
        "Suuankou Tanki",
        "Junsei Chuuren Poutou"
    };
    return yaku < ZIWHAKEMO_YAKU ? names[yaku] : "?";
}

/* A wait, by its place in the tallies. */
static inline const char *ziwhakemo_wait_name(size_t wait) {
    static const char *const names[ZIWHAKEMO_WAITS] = {
        "Ryanmen",
        "Kanchan",
        "Penchan",
        "Shanpon",
        "Tanki",
        "Kokushi13"
    };
    return wait < ZIWHAKEMO_WAITS ? names[wait] : "?";
}

/* A level, ZIWHAKEMO_LEVEL_NORMAL to ZIWHAKEMO_LEVEL_YAKUMAN. */
static inline const char *ziwhakemo_level_name(uint8_t level) {
    static const char *const names[ZIWHAKEMO_LEVEL_YAKUMAN + 1] = {
        "Normal",
        "Mangan",
        "Haneman",
        "Baiman",
        "Sanbaiman",
        "Yakuman"
    };
    return level <= ZIWHAKEMO_LEVEL_YAKUMAN ? names[level] : "?";
}

/* A settlement, ZIWHAKEMO_SETTLEMENT_NONE to ZIWHAKEMO_SETTLEMENT_TSUMO. */
static inline const char *ziwhakemo_settlement_name(uint32_t settlement) {
    static const char *const names[ZIWHAKEMO_SETTLEMENT_TSUMO + 1] = {
        "None",
        "Ron",
        "Dealer's Tsumo",
        "Tsumo"
    };
    return settlement <= ZIWHAKEMO_SETTLEMENT_TSUMO ? names[settlement] : "?";
}

/* What the number of an answer means, ZIWHAKEMO_ACCEPTED to ZIWHAKEMO_REFUSED_BOOK. */
static inline const char *ziwhakemo_number_meaning(uint32_t number) {
    static const char *const meanings[ZIWHAKEMO_REFUSED_BOOK + 1] = {
        "accepted",
        "the counts are not 34 long",
        "more than four calls",
        "a call's kind, tile or source is not that of a call",
        "a count above 4, or with three players one of man 2 to 8 above 0",
        "hand and calls together hold more than four of a kind",
        "hand tiles are not 14 - 3 x calls",
        "the records need more bytes than were lent",
        "win type, a wind or the room's setting out of range",
        "the winning tile is above 33 or not in the hand",
        "the hand has no reading",
        "no reading has a yaku",
        "there are not more readings than that number",
        "basic points above 152,000",
        "an indicator is above 33, there are more than ten, or one with three players",
        "a seat is above 3, or the discarder is the winner",
        "the book takes no deal more, or its counter would pass 255"
    };
    return number <= ZIWHAKEMO_REFUSED_BOOK ? meanings[number] : "?";
}

#ifdef __cplusplus
}
#endif

#endif
