/*
 * Ziwhakemo: a score unit for riichi mahjong tables. For x86-64 only: Linux, System V calling
 * convention.
 *
 * It lists every reading of a finished hand, scores a win by the reading that pays most, scores any
 * reading by its number, names its waits, and gives level, basic points and payments. Dora are
 * counted by the indicators that come with a win. It books deals: the points of the four seats, the
 * riichi sticks and the repeat counter stand in a book, which the caller keeps and lends (see "The
 * seat book"). The game is that of four players; that of three has functions of its own (see "Three
 * players"), and no book. Each function is proved to answer as its definition says on every input:
 * every call comes back, and malformed input gets a number (see "Refusals") instead of a score.
 * This file is not part of the proof; examples/c/boundary.c and the tests in rust/ hold it to the
 * library. ziwhakemo_names.h, which nobody has to use, has names to print: of yaku, waits, levels,
 * settlements and refusals.
 *
 * C99 and later, and C++. Link with libziwhakemo.a. All that the archive needs from outside is
 * memset, of any C library or your own.
 *
 * What is asked of a caller, and cannot be checked here:
 *   - A pointer leads to as many elements as the count after it says. A null or dangling pointer is
 *     not noticed: what is there is read, or overwritten. With a count of 0 nothing is read or
 *     written through the pointer, and NULL will do.
 *   - The buffer `out` does not overlap the counts or the calls, and no other thread changes what
 *     is lent before the call returns.
 *   - A book overlaps nothing else that is lent. It lies where its type may lie, at a multiple of
 *     8, in memory that can be written: a refused booking may write the same bytes again. No other
 *     thread reads it before the call returns.
 *   - A bool holds 0 or 1. C stores one of these in every assignment; memcpy or a cast may not.
 *     Bools cross this boundary in ziwhakemo_game_context, ziwhakemo_deal and ziwhakemo_winner, and
 *     as `is_yakuman` and `is_dealer`.
 *
 * What an answer has between its fields, where a compiler leaves room (padding), is not written. To
 * compare two answers compare their fields, not their bytes (memcmp). A book has no such room:
 * every one of its 40 bytes is a field's, and memcmp is fine on books.
 *
 * No function keeps anything between calls or allocates memory, so any number of threads may call
 * at the same time. Of stack, the deepest calls on a million random hands used 3,393 bytes in
 * ziwhakemo_book_win, 3,393 in ziwhakemo_score_win, 3,137 in ziwhakemo_score_reading, 2,849 in
 * ziwhakemo_name_waits, 865 in ziwhakemo_list_readings and 61 in ziwhakemo_book_draw. This is
 * measured and not proved: leave some room.
 */
#ifndef ZIWHAKEMO_H
#define ZIWHAKEMO_H

#include <stdbool.h>
#include <stddef.h>
#include <stdint.h>

#ifdef __cplusplus
extern "C" {
#endif

/* ---- The version --------------------------------------------------------------------------------
 *
 * The version of the interface, which rises with each change of what stands in this file. A program
 * that is compiled with the header of one version and linked with the archive of another reads wrong
 * values: let it stop where ziwhakemo_version() is not ZIWHAKEMO_VERSION.
 *
 * What changed in which version:
 *   1   The first.
 *   2   `number` is a uint32_t in every answer (in ziwhakemo_listing_answer it was a size_t). The
 *       answers of payments and scores have `settlement` after `number`. ziwhakemo_version. The
 *       header ziwhakemo_names.h.
 *   3   ziwhakemo_name_waits names the wait of thirteen orphans as players do: Kokushi13 where the
 *       pair is the winning tile, else Tanki. It was the other way round. Nothing else changed, and
 *       no struct or number.
 *   4   ziwhakemo_game_context has the byte `double_wind_fu` behind the flags, and is 13 bytes long
 *       instead of 12. Every caller has to be compiled again and has to set it: 0, like every other
 *       number but 4 and 2, is refused with 8. A caller that sets 4 gets the answers of version 3.
 *   5   Dora. ziwhakemo_game_context has `dora_indicators` and `ura_dora_indicators` behind
 *       `double_wind_fu`, and is 35 bytes long instead of 13. It goes over the stack in every call,
 *       in that of ziwhakemo_name_waits too, where it went in registers: every caller has to be
 *       compiled again. Refusal 14, which comes after 8 and before 9. ziwhakemo_score_answer has
 *       `regular_dora` and `ura_dora` behind `yakuman_count`, and its han are with dora. It is as
 *       long as it was, but `basic_points` to `from_discarder` stand four bytes further on. A caller
 *       that shows no indicator gets the answers of version 4.
 *   6   Who a called tile came from. ziwhakemo_meld has the byte `source` behind `kind`, and is 3
 *       bytes long instead of 2. A record of a pair and four melds has it in each meld, and is 17
 *       bytes long instead of 13, so that ZIWHAKEMO_ALWAYS_ENOUGH is 1,915 instead of 1,467. Every
 *       caller has to be compiled again, and one with calls has to set it: an open meld with 0 is
 *       refused with 3. A caller that sets it gets the scores and waits of version 5.
 *   7   Three players: ziwhakemo_three_list_readings, ziwhakemo_three_score_win,
 *       ziwhakemo_three_score_reading, ziwhakemo_three_name_waits and ziwhakemo_three_payment. No
 *       struct and no number changed, and the other functions answer as in version 6.
 *   8   The seat book: ziwhakemo_new_book, ziwhakemo_book_draw and ziwhakemo_book_win, the structs
 *       ziwhakemo_seat_book, ziwhakemo_deal and ziwhakemo_winner, and refusals 15 and 16, which no
 *       other function has. No other struct and no other number changed, and the other functions
 *       answer as in version 7.
 */
#define ZIWHAKEMO_VERSION 8

/* The version of the archive. An archive of version 1 does not have this function. */
uint32_t ziwhakemo_version(void);

/* ---- Tiles --------------------------------------------------------------------------------------
 *
 * A tile is a number from 0 to 33: man 1 to 9, pin 1 to 9, sou 1 to 9, the four winds, the three
 * dragons. A hand is 34 counts, one byte for each tile number, of the tiles that are not called,
 * the winning tile included.
 */
#define ZIWHAKEMO_TILES 34

#define ZIWHAKEMO_MAN(n) ((uint8_t)((n) - 1))  /* n from 1 to 9 */
#define ZIWHAKEMO_PIN(n) ((uint8_t)((n) + 8))  /* n from 1 to 9 */
#define ZIWHAKEMO_SOU(n) ((uint8_t)((n) + 17)) /* n from 1 to 9 */

enum {
    ZIWHAKEMO_EAST = 27,
    ZIWHAKEMO_SOUTH = 28,
    ZIWHAKEMO_WEST = 29,
    ZIWHAKEMO_NORTH = 30,
    ZIWHAKEMO_WHITE = 31,
    ZIWHAKEMO_GREEN = 32,
    ZIWHAKEMO_RED = 33
};

/* ---- Melds ----------------------------------------------------------------------------------- */

/* The kinds of melds. A call has one of the kinds 1, 3, 4, 5 and 6; kinds 0 and 2 stand only in the
 * records of readings. A hand is open if it has a call of another kind than 4. */
enum {
    ZIWHAKEMO_MELD_CLOSED_SEQUENCE = 0,
    ZIWHAKEMO_MELD_OPEN_SEQUENCE = 1,  /* chi */
    ZIWHAKEMO_MELD_CLOSED_TRIPLET = 2,
    ZIWHAKEMO_MELD_OPEN_TRIPLET = 3,   /* pon */
    ZIWHAKEMO_MELD_CLOSED_KAN = 4,     /* ankan */
    ZIWHAKEMO_MELD_OPEN_KAN = 5,       /* daiminkan */
    ZIWHAKEMO_MELD_ADDED_KAN = 6       /* shouminkan */
};

/* The sources of melds: who the called tile came from, in seats onward from the player who called it.
 * With seats from 0 to 3 in the order of play that is (from + 4 - caller) % 4. A closed meld, of kind
 * 0, 2 or 4, has the source 0. An open sequence has 3, as it is called from the left alone. Any other
 * open meld has 1, 2 or 3; an added kan keeps that of its triplet. A call with another source than
 * these is refused with 3. With three players the seat on the left has another number: see
 * ZIWHAKEMO_THREE_FROM_LEFT.
 *
 * Two lists of calls that differ in sources alone, and both pass, have as many readings in as many
 * bytes; reading n of the one is reading n of the other but for the sources; and scores and waits are
 * alike in every field, the number of the reading too. */
enum {
    ZIWHAKEMO_FROM_NOBODY = 0, /* no tile was called */
    ZIWHAKEMO_FROM_RIGHT = 1,  /* the next player, on the right: shimocha */
    ZIWHAKEMO_FROM_ACROSS = 2, /* the player across: toimen */
    ZIWHAKEMO_FROM_LEFT = 3    /* the player before, on the left: kamicha */
};

/* A meld. A sequence starts at 1 to 7 of a suit. */
typedef struct ziwhakemo_meld {
    uint8_t tile;   /* the number of its lowest tile */
    uint8_t kind;   /* one of the kinds above */
    uint8_t source; /* one of the sources above */
} ziwhakemo_meld;

/* ---- The win --------------------------------------------------------------------------------- */

enum {
    ZIWHAKEMO_RON = 0,
    ZIWHAKEMO_TSUMO = 1
};

/* The room's setting: the fu that it gives for a pair that is both round and seat wind. Only the fu
 * of that pair go by it: no yaku, no han, no wait. There is no default: each win carries one of the
 * two, and any other number is refused, 0 too. */
enum {
    ZIWHAKEMO_DOUBLE_WIND_FU_FOUR = 4,
    ZIWHAKEMO_DOUBLE_WIND_FU_TWO = 2
};

/* At most so many indicators, of dora and of ura dora each. */
#define ZIWHAKEMO_INDICATORS 10

/* Indicators: the tiles that are shown, not the dora themselves. The dora is the tile after the one
 * that is shown: in a suit by number, and 1 after 9; East, South, West, North, East; White, Green,
 * Red, White. Each indicator adds as many dora as hand and calls together hold of that tile: a kan of
 * it adds four, and what is shown twice adds twice. Only han, and what follows from them, go by the
 * dora: no yaku, no fu, no wait. What stands in `tiles` behind the first `count` is not read. A struct
 * that is filled with zeros shows none. */
typedef struct ziwhakemo_indicators {
    uint8_t count;                       /* how many are shown: 0 to ZIWHAKEMO_INDICATORS */
    uint8_t tiles[ZIWHAKEMO_INDICATORS]; /* their tile numbers, in any order */
} ziwhakemo_indicators;

/* How the hand was won, the room's setting, and what is shown. Every mixture of the flags is taken.
 * The winner is the dealer where the seat wind is East. Each bool must be 0 or 1. A struct that is
 * filled with zeros shows no indicator, but still has to have `double_wind_fu` set. It is 35 bytes
 * long and goes over the stack.
 *
 * Ura dora count where `is_riichi` is set and nowhere else: on an open hand too, and not by
 * `is_double_riichi` alone. Where they do not count, their indicators are checked all the same. Red
 * fives and pulled Norths are not counted. */
typedef struct ziwhakemo_game_context {
    uint8_t win_type;       /* ZIWHAKEMO_RON or ZIWHAKEMO_TSUMO */
    uint8_t winning_tile;   /* a tile that the hand holds (not one of a call) */
    uint8_t round_wind;     /* ZIWHAKEMO_EAST to ZIWHAKEMO_NORTH */
    uint8_t seat_wind;      /* ZIWHAKEMO_EAST to ZIWHAKEMO_NORTH */
    bool is_riichi;         /* set for a double riichi too */
    bool is_double_riichi;
    bool is_ippatsu;
    bool is_rinshan;
    bool is_chankan;
    bool is_last_tile;
    bool is_tenhou;
    bool is_chiihou;
    uint8_t double_wind_fu; /* ZIWHAKEMO_DOUBLE_WIND_FU_FOUR or ZIWHAKEMO_DOUBLE_WIND_FU_TWO */
    ziwhakemo_indicators dora_indicators;
    ziwhakemo_indicators ura_dora_indicators;
} ziwhakemo_game_context;

/* ---- Refusals -----------------------------------------------------------------------------------
 *
 * An answer that may be a refusal begins with `number`: 0 where the call is accepted, else the first
 * that applies of those that stand beside the function, in the order in which they stand there. That
 * is the order of the numbers, but for 14, which comes after 8 and before 9, and for 15 and 16 of a
 * booking, which come before 1; only that a dealer's win would raise a counter of 255, which is 16
 * too, comes last. A refusal has its number, and 0 in every other field. A booking answers the
 * number alone, and where it is refused the book is as it was. What is refused with three players
 * alone stands here behind "three:".
 */
enum {
    ZIWHAKEMO_ACCEPTED = 0,
    ZIWHAKEMO_REFUSED_COUNTS_LENGTH = 1,    /* the counts are not 34 long */
    ZIWHAKEMO_REFUSED_TOO_MANY_CALLS = 2,   /* more than four calls */
    ZIWHAKEMO_REFUSED_NOT_A_CALL = 3,       /* a call's kind, tile or source is not that of a call;
                                             * three: an open sequence, a call of man 2 to 8, and
                                             * the source 3 too */
    ZIWHAKEMO_REFUSED_COUNT_ABOVE_FOUR = 4, /* a count above 4; three: one of man 2 to 8 above 0 too */
    ZIWHAKEMO_REFUSED_FIVE_OF_A_KIND = 5,   /* hand and calls hold more than four of a kind */
    ZIWHAKEMO_REFUSED_NUMBER_OF_TILES = 6,  /* the hand's tiles are not 14 - 3 * calls */
    ZIWHAKEMO_REFUSED_BUFFER_TOO_SHORT = 7, /* the records need more bytes than were lent */
    ZIWHAKEMO_REFUSED_OUT_OF_RANGE = 8,     /* win type, a wind or double_wind_fu out of range */
    ZIWHAKEMO_REFUSED_WINNING_TILE = 9,     /* the winning tile is above 33 or not in the hand, where
                                             * man 2 to 8 never are with three players */
    ZIWHAKEMO_REFUSED_NO_READING = 10,      /* the hand has no reading */
    ZIWHAKEMO_REFUSED_NO_YAKU = 11,         /* no reading has a yaku */
    ZIWHAKEMO_REFUSED_NO_SUCH_READING = 12, /* there are not more readings than that number */
    ZIWHAKEMO_REFUSED_BASIC_POINTS = 13,    /* basic points above 152,000 */
    ZIWHAKEMO_REFUSED_INDICATORS = 14,      /* an indicator is above 33, or there are more than ten
                                             * of a sort; three: there is any of either sort; comes
                                             * after 8 and before 9 */
    ZIWHAKEMO_REFUSED_SEATS = 15,           /* a seat is above 3, or the discarder is the winner;
                                             * comes first of all */
    ZIWHAKEMO_REFUSED_BOOK = 16             /* the book takes no deal more: 1,024 are booked, a seat
                                             * is beyond 1,000,000,000 points either way, or there
                                             * are more than 4,096 sticks; or this deal would raise
                                             * a counter of 255; comes after 15 and before 1, but of
                                             * a dealer's win at a counter of 255 after 11 */
};

/* ---- Listing readings ---------------------------------------------------------------------------
 *
 * A reading is one way to take the hand apart: seven different pairs, thirteen orphans, or a pair
 * and four melds, the calls among them. Each is written as a record:
 *
 *   bytes 0 and 1   the length of the whole record, the low byte first
 *   bytes 2 and 3   the kind of the record, the low byte first
 *   then, by kind   1: seven tiles, ascending
 *                   2: the tile that is there twice
 *                   3: the pair's tile, then four melds of three bytes, tile, kind and source as in
 *                   ziwhakemo_meld, ascending by tile, then by kind, then by source
 *
 * Records ascend by kind, then by the bytes after the kind. Readings are numbered from 0 in this
 * order.
 */
enum {
    ZIWHAKEMO_RECORD_SEVEN_PAIRS = 1,
    ZIWHAKEMO_RECORD_ORPHANS = 2,
    ZIWHAKEMO_RECORD_STANDARD = 3
};

/* The lengths of the records. */
#define ZIWHAKEMO_SEVEN_PAIRS_LENGTH 11
#define ZIWHAKEMO_ORPHANS_LENGTH 5
#define ZIWHAKEMO_STANDARD_LENGTH 17

/* A buffer of so many bytes holds the records of any hand. */
#define ZIWHAKEMO_ALWAYS_ENOUGH 1915

typedef struct ziwhakemo_listing_answer {
    uint32_t number; /* 0, or the refusal */
    size_t readings; /* how many readings there are */
    size_t bytes;    /* how many bytes were written, from out[0] on */
} ziwhakemo_listing_answer;

/* Lists the readings of a finished hand into a lent buffer. Refuses with 1 to 7.
 *
 * Accepted: the records stand in the first `bytes` bytes of the buffer, and the bytes behind them
 * are as they were. A hand with no reading is accepted, with both counts 0. Refused: nothing is
 * written. With NULL and 0 for the buffer, a hand that passes 1 to 6 is answered with 0 if it has
 * no reading, and with 7 if it has one. */
ziwhakemo_listing_answer ziwhakemo_list_readings(const uint8_t *counts, size_t counts_length,
                                                 const ziwhakemo_meld *calls, size_t calls_length,
                                                 uint8_t *out, size_t out_length);

/* ---- Levels, points, payments ---------------------------------------------------------------- */

enum {
    ZIWHAKEMO_LEVEL_NORMAL = 0,
    ZIWHAKEMO_LEVEL_MANGAN = 1,
    ZIWHAKEMO_LEVEL_HANEMAN = 2,
    ZIWHAKEMO_LEVEL_BAIMAN = 3,
    ZIWHAKEMO_LEVEL_SANBAIMAN = 4,
    ZIWHAKEMO_LEVEL_YAKUMAN = 5
};

typedef struct ziwhakemo_level_answer {
    uint8_t level; /* one of the levels above */
    uint8_t count; /* how many times a yakuman counts; 0 below that level */
} ziwhakemo_level_answer;

/* The level of han and fu, with or without a yakuman. Takes any numbers and refuses nothing. */
ziwhakemo_level_answer ziwhakemo_score_level(uint8_t han, uint8_t fu, bool is_yakuman);

/* The basic points of han and fu, with or without a yakuman. Takes any numbers and refuses
 * nothing. */
uint32_t ziwhakemo_basic_points(uint8_t han, uint8_t fu, bool is_yakuman);

/* The greatest basic points for which a payment is given. */
#define ZIWHAKEMO_MOST_BASIC_POINTS 152000

/* The settlements: who pays, by win type and seat of the winner. Go by these and not by which
 * amounts are 0. */
enum {
    ZIWHAKEMO_SETTLEMENT_NONE = 0,         /* a refusal: nobody pays */
    ZIWHAKEMO_SETTLEMENT_RON = 1,          /* the discarder pays `from_discarder` */
    ZIWHAKEMO_SETTLEMENT_DEALER_TSUMO = 2, /* each of the others pays `from_non_dealer`: three, and
                                            * with three players two */
    ZIWHAKEMO_SETTLEMENT_TSUMO = 3         /* the dealer pays `from_dealer`, and each of the others
                                            * `from_non_dealer`: two, and with three players one */
};

/* Who pays what; 0 for who does not pay. */
typedef struct ziwhakemo_payment_answer {
    uint32_t number;          /* 0, or the refusal */
    uint32_t settlement;      /* one of the settlements above */
    uint32_t from_non_dealer; /* by tsumo: what each other player pays who is not the dealer */
    uint32_t from_dealer;     /* by tsumo of another than the dealer: what the dealer pays */
    uint32_t from_discarder;  /* by ron: what the discarder pays */
    uint64_t total;           /* what the winner gets */
} ziwhakemo_payment_answer;

/* The payment of basic points, by ZIWHAKEMO_RON or ZIWHAKEMO_TSUMO. Refuses with 8 (the win type)
 * and 13. */
ziwhakemo_payment_answer ziwhakemo_payment(uint32_t basic_points, bool is_dealer, uint8_t win_type);

/* ---- Scores ---------------------------------------------------------------------------------- */

/* The places of the yaku tallies. A tally says how often the yaku stands: 0 or 1, and 2 for the
 * yakuhai of a wind that is both round and seat wind. Where a yakuman stands, only yakuman do. */
enum {
    /* 1 han */
    ZIWHAKEMO_YAKU_RIICHI,
    ZIWHAKEMO_YAKU_IPPATSU,
    ZIWHAKEMO_YAKU_MENZEN_TSUMO,
    ZIWHAKEMO_YAKU_TANYAO,
    ZIWHAKEMO_YAKU_PINFU,
    ZIWHAKEMO_YAKU_IIPEIKOU,
    ZIWHAKEMO_YAKU_YAKUHAI_EAST,
    ZIWHAKEMO_YAKU_YAKUHAI_SOUTH,
    ZIWHAKEMO_YAKU_YAKUHAI_WEST,
    ZIWHAKEMO_YAKU_YAKUHAI_NORTH,
    ZIWHAKEMO_YAKU_YAKUHAI_WHITE,
    ZIWHAKEMO_YAKU_YAKUHAI_GREEN,
    ZIWHAKEMO_YAKU_YAKUHAI_RED,
    ZIWHAKEMO_YAKU_RINSHAN_KAIHOU,
    ZIWHAKEMO_YAKU_CHANKAN,
    ZIWHAKEMO_YAKU_HAITEI_RAOYUE,
    ZIWHAKEMO_YAKU_HOUTEI_RAOYUI,
    /* 2 han */
    ZIWHAKEMO_YAKU_DOUBLE_RIICHI,
    ZIWHAKEMO_YAKU_TOITOI,
    ZIWHAKEMO_YAKU_SANSHOKU_DOUJUN,
    ZIWHAKEMO_YAKU_SANSHOKU_DOUKOU,
    ZIWHAKEMO_YAKU_ITTSU,
    ZIWHAKEMO_YAKU_CHIITOITSU,
    ZIWHAKEMO_YAKU_CHANTA,
    ZIWHAKEMO_YAKU_SAN_ANKOU,
    ZIWHAKEMO_YAKU_SAN_KANTSU,
    ZIWHAKEMO_YAKU_HONROUTOU,
    ZIWHAKEMO_YAKU_SHOUSANGEN,
    /* 3 han */
    ZIWHAKEMO_YAKU_HONITSU,
    ZIWHAKEMO_YAKU_JUNCHAN,
    ZIWHAKEMO_YAKU_RYANPEIKOU,
    /* 6 han */
    ZIWHAKEMO_YAKU_CHINITSU,
    /* yakuman */
    ZIWHAKEMO_YAKU_TENHOU,
    ZIWHAKEMO_YAKU_CHIIHOU,
    ZIWHAKEMO_YAKU_KOKUSHI_MUSOU,
    ZIWHAKEMO_YAKU_SUUANKOU,
    ZIWHAKEMO_YAKU_DAISANGEN,
    ZIWHAKEMO_YAKU_SHOUSUUSHII,
    ZIWHAKEMO_YAKU_DAISUUSHII, /* double */
    ZIWHAKEMO_YAKU_TSUUIISOU,
    ZIWHAKEMO_YAKU_CHINROUTOU,
    ZIWHAKEMO_YAKU_RYUUIISOU,
    ZIWHAKEMO_YAKU_CHUUREN_POUTOU,
    ZIWHAKEMO_YAKU_SUU_KANTSU,
    /* double yakuman */
    ZIWHAKEMO_YAKU_KOKUSHI_13_WAIT,
    ZIWHAKEMO_YAKU_SUUANKOU_TANKI,
    ZIWHAKEMO_YAKU_JUNSEI_CHUUREN_POUTOU,
    /* how many tallies there are: 47 */
    ZIWHAKEMO_YAKU
};

/* The score of a reading. Its dora are han but no yaku: they are added to the han of the yaku, unless
 * there is a yakuman, which takes none. So a reading without a yaku may have han and a price; it is
 * never chosen. */
typedef struct ziwhakemo_score_answer {
    uint32_t number;                 /* 0, or the refusal */
    uint32_t settlement;             /* one of the settlements above */
    size_t reading;                  /* the number of the reading, counted from 0 */
    uint8_t tallies[ZIWHAKEMO_YAKU]; /* how often each yaku stands */
    uint8_t han;                     /* with dora; those of a yakuman without */
    uint8_t fu;
    bool is_yakuman;                 /* is there a yakuman among the yaku? */
    uint8_t level;                   /* one of the levels above */
    uint8_t yakuman_count;           /* how many times a yakuman counts; 0 below that level */
    uint8_t regular_dora;            /* by `dora_indicators`; counted beside a yakuman too */
    uint8_t ura_dora;                /* by `ura_dora_indicators`, likewise; 0 without riichi */
    uint32_t basic_points;
    uint32_t from_non_dealer;        /* these four as in ziwhakemo_payment_answer */
    uint32_t from_dealer;
    uint32_t from_discarder;
    uint64_t total;
} ziwhakemo_score_answer;

/* Scores a win by the reading with a yaku that pays most: the greatest total, then a yakuman before
 * none, then more han, then more fu, then the earlier record. Dora alone are no yaku. Refuses with 1
 * to 6, 8, 14, 9, 10, 11. */
ziwhakemo_score_answer ziwhakemo_score_win(const uint8_t *counts, size_t counts_length,
                                           const ziwhakemo_meld *calls, size_t calls_length,
                                           ziwhakemo_game_context win);

/* Scores the reading with a number, counted from 0 in the order of the records, with a yaku or
 * without: where it has none, its han are its dora, and level, points and payment are those of so
 * many han, though ziwhakemo_score_win never chooses it, whatever its total. Refuses with 1 to 6, 8,
 * 14, 9, 12. */
ziwhakemo_score_answer ziwhakemo_score_reading(const uint8_t *counts, size_t counts_length,
                                               const ziwhakemo_meld *calls, size_t calls_length,
                                               ziwhakemo_game_context win, size_t reading);

/* ---- Waits ----------------------------------------------------------------------------------- */

/* The places of the wait tallies. */
enum {
    ZIWHAKEMO_WAIT_RYANMEN,
    ZIWHAKEMO_WAIT_KANCHAN,
    ZIWHAKEMO_WAIT_PENCHAN,
    ZIWHAKEMO_WAIT_SHANPON,
    ZIWHAKEMO_WAIT_TANKI,
    ZIWHAKEMO_WAIT_KOKUSHI_13,
    /* how many tallies there are: 6 */
    ZIWHAKEMO_WAITS
};

typedef struct ziwhakemo_waits_answer {
    uint32_t number;                /* 0, or the refusal */
    uint8_t waits[ZIWHAKEMO_WAITS]; /* how many parts of the reading may have been won by each */
} ziwhakemo_waits_answer;

/* Names the waits of the reading with a number, counted from 0. Only a pair, a closed sequence or a
 * closed triplet may have been completed by the winning tile. For thirteen orphans the wait is
 * Kokushi13 where the pair is the winning tile, as each of the thirteen would have served then, else
 * Tanki; so ZIWHAKEMO_WAIT_KOKUSHI_13 is tallied exactly where ZIWHAKEMO_YAKU_KOKUSHI_13_WAIT is.
 * Refuses with 1 to 6, 8, 14, 9, 12. */
ziwhakemo_waits_answer ziwhakemo_name_waits(const uint8_t *counts, size_t counts_length,
                                            const ziwhakemo_meld *calls, size_t calls_length,
                                            ziwhakemo_game_context win, size_t reading);

/* ---- Three players ------------------------------------------------------------------------------
 *
 * The game of three players (sanma) has five functions of its own. Each takes and answers the same
 * structs as the function without "three" in its name, refuses with the same numbers in the same
 * order, and means the same by every field, but for what differs between the two games:
 *
 *                        four players                     three players
 *   tiles                all 34                           man 2 to 8, of tile numbers 1 to 7, are
 *                                                         absent
 *   calls                chi, pon and kans                pon and kans, and none of an absent tile
 *   source of a pon, of  1 the next player, 2 the one     1 the next player, 2 the one before; 3 is
 *   an open or added kan across, 3 the one before         refused
 *   source of a closed   0                                0
 *   kan
 *   indicators           up to ten of dora and of ura     none of either
 *                        dora each
 *   who pays by tsumo    three players                    two players
 *   total of a dealer's  3 * from_non_dealer              2 * from_non_dealer
 *   tsumo
 *   total of another's   from_dealer +                    from_dealer + from_non_dealer
 *   tsumo                2 * from_non_dealer
 *   ron                  from_discarder                   from_discarder
 *
 * What each payer pays is the same in both games; a tsumo is worth less with three, as one payer is
 * missing. The choice among the readings goes by the total of the game that is played. Yaku, fu, han,
 * levels and basic points are those of four players, and `double_wind_fu` has to be set here too.
 * North is a wind like the others, as round and as seat wind too, and no tile is set aside
 * (nukidora): every tile that the winner holds is in the counts or in a call. ziwhakemo_score_level
 * and ziwhakemo_basic_points are of both games.
 *
 * Nothing that is lent says which game is played: a win without man 2 to 8, chi, the source 3 and
 * indicators is scored by the functions of both games, and by tsumo with different totals. A table
 * has to call those of its own game.
 */

/* The sources of called melds with three players, in seats onward from the player who called, as with
 * four: with seats from 0 to 2 in the order of play that is (from + 3 - caller) % 3. Nobody sits
 * across, and the player on the left sits two seats onward and not three: ZIWHAKEMO_FROM_LEFT is 3 and
 * is refused with 3 here, and ZIWHAKEMO_FROM_ACROSS is 2 and is taken for the player on the left. A
 * closed kan has ZIWHAKEMO_FROM_NOBODY. */
enum {
    ZIWHAKEMO_THREE_FROM_RIGHT = 1, /* the next player, on the right: shimocha */
    ZIWHAKEMO_THREE_FROM_LEFT = 2   /* the player before, on the left: kamicha */
};

/* Lists the readings of a finished hand into a lent buffer, as ziwhakemo_list_readings does. Refuses
 * with 1 to 7: with 3 an open sequence, a call of man 2 to 8 and the source 3 too, with 4 a count
 * above 0 of man 2 to 8 too. ZIWHAKEMO_ALWAYS_ENOUGH bytes are enough here too. */
ziwhakemo_listing_answer ziwhakemo_three_list_readings(const uint8_t *counts, size_t counts_length,
                                                       const ziwhakemo_meld *calls,
                                                       size_t calls_length, uint8_t *out,
                                                       size_t out_length);

/* Scores a win by the reading with a yaku that pays most, as ziwhakemo_score_win does: the greatest
 * total, here of two payers by tsumo, then a yakuman before none, then more han, then more fu, then
 * the earlier record. `regular_dora` and `ura_dora` are 0. Refuses with 1 to 6, 8, 14, 9, 10, 11:
 * with 3 and 4 as ziwhakemo_three_list_readings does, with 14 any indicator of either sort, whatever
 * tile it is (a `count` above 0), with 9 a winning tile from man 2 to 8 too, as no hand holds it. */
ziwhakemo_score_answer ziwhakemo_three_score_win(const uint8_t *counts, size_t counts_length,
                                                 const ziwhakemo_meld *calls, size_t calls_length,
                                                 ziwhakemo_game_context win);

/* Scores the reading with a number, counted from 0 in the order of the records, with a yaku or
 * without, as ziwhakemo_score_reading does: one without has 0 han. Refuses with 1 to 6, 8, 14, 9, 12,
 * each as ziwhakemo_three_score_win does. */
ziwhakemo_score_answer ziwhakemo_three_score_reading(const uint8_t *counts, size_t counts_length,
                                                     const ziwhakemo_meld *calls,
                                                     size_t calls_length,
                                                     ziwhakemo_game_context win, size_t reading);

/* Names the waits of the reading with a number, counted from 0, as ziwhakemo_name_waits does. Refuses
 * with 1 to 6, 8, 14, 9, 12, each as ziwhakemo_three_score_win does. */
ziwhakemo_waits_answer ziwhakemo_three_name_waits(const uint8_t *counts, size_t counts_length,
                                                  const ziwhakemo_meld *calls, size_t calls_length,
                                                  ziwhakemo_game_context win, size_t reading);

/* The payment of basic points, by ZIWHAKEMO_RON or ZIWHAKEMO_TSUMO, as ziwhakemo_payment gives it, but
 * that the total of a tsumo is of two payers. Refuses with 8 (the win type) and 13. */
ziwhakemo_payment_answer ziwhakemo_three_payment(uint32_t basic_points, bool is_dealer,
                                                 uint8_t win_type);

/* ---- The seat book ------------------------------------------------------------------------------
 *
 * The points of the four seats, the riichi sticks on the table and the repeat counter (honba), from
 * deal to deal. The caller keeps the book, lends it to each booking, and finds it altered where it
 * is kept. A game begins with ziwhakemo_new_book, and each of its deals is booked once, by
 * ziwhakemo_book_draw or ziwhakemo_book_win.
 *
 * The book is of four players only. Nothing that is lent says which game is played: a win at a
 * table of three, if it is booked, is scored and paid as with four.
 *
 * Seats are 0 to 3 in turn order: 0, 1, 2, 3, 0. A seat keeps its number when the deal passes on.
 * What a booking does where it is accepted:
 *
 *                        draw                win by tsumo             win by ron
 *   each seat that       puts one stick of   the same                 the same
 *   declared riichi      1,000 points on
 *                        the table
 *   the hand             moves nothing       the others pay the       the discarder pays the
 *                                            winner what              winner what
 *                                            ziwhakemo_score_win      ziwhakemo_score_win
 *                                            says                     says
 *   for each repeat      nothing             each of the three        the discarder pays the
 *   counter before                           others pays the winner   winner 300
 *   this deal                                100
 *   sticks               stay on the table   all go to the winner,    the same
 *                                            this deal's too
 *   counter              rises by one        rises by one if the      the same
 *                                            winner is the dealer,
 *                                            else returns to 0
 *   deals                rises by one        the same                 the same
 *
 * So points are moved and never made: the points of the four seats and 1,000 for each stick add up
 * to the same before and after any booking, on any book. Over any bookings from a new book:
 *   - that sum is 100,000;
 *   - `sticks` are those declared in the accepted deals after the last win;
 *   - `counter` is the number of accepted deals since the last win of another than the dealer;
 *   - `deals` is the number of accepted deals.
 *
 * Of the book a booking checks the limits (refusal 16) and nothing else: within them any book is
 * taken, one that was set by hand too. A deal is not compared with the one before: the caller says
 * who deals. A seat may declare riichi with any points, and may fall below zero.
 */

/* The figures of the book. */
#define ZIWHAKEMO_SEATS 4
#define ZIWHAKEMO_START_POINTS 25000     /* what each seat starts with */
#define ZIWHAKEMO_STICK_POINTS 1000      /* what a riichi stick is worth */
#define ZIWHAKEMO_MOST_DEALS 1024        /* a book with so many deals takes no other */
#define ZIWHAKEMO_MOST_STICKS 4096       /* a book with more sticks takes no deal */
#define ZIWHAKEMO_MOST_POINTS 1000000000 /* a book with a seat beyond, either way, takes no deal */
#define ZIWHAKEMO_MOST_COUNTER 255       /* a deal that would raise this counter is not taken */

/* The book of a table. It is 40 bytes long, and what each byte holds after any booking is said
 * here, so a book may be compared, copied and stored by its bytes. */
typedef struct ziwhakemo_seat_book {
    int64_t points[ZIWHAKEMO_SEATS]; /* of seats 0 to 3; may be below zero */
    uint32_t sticks;                 /* the riichi sticks on the table */
    uint16_t deals;                  /* how many deals are booked */
    uint8_t counter;                 /* the repeat counter (honba) */
    uint8_t reserved;                /* 0 in a new book; every booking keeps it. It is there so that
                                      * the book has no padding */
} ziwhakemo_seat_book;

/* A deal. Each bool must be 0 or 1. It is 5 bytes long. */
typedef struct ziwhakemo_deal {
    uint8_t dealer;                 /* the dealer's seat */
    bool declared[ZIWHAKEMO_SEATS]; /* which of seats 0 to 3 declared riichi */
} ziwhakemo_deal;

/* Who won, and on whose discard. The bool must be 0 or 1. It is 3 bytes long. */
typedef struct ziwhakemo_winner {
    uint8_t seat;       /* the winner's seat */
    bool has_discarder; /* set: the win is by ron; not set: by tsumo */
    uint8_t discarder;  /* the discarder's seat; by tsumo it is not read */
} ziwhakemo_winner;

/* A book in which nothing is booked: each seat has 25,000 points, and every other field is 0. */
ziwhakemo_seat_book ziwhakemo_new_book(void);

/* Books a deal that ended in a draw. Answers 0, or the number of the refusal, with all 40 bytes of
 * the book as they were. Refuses with 15 (the dealer's seat) and 16 (a counter of 255 too). */
uint32_t ziwhakemo_book_draw(ziwhakemo_seat_book *book, ziwhakemo_deal deal);

/* Books a deal that ended in a win. Answers 0, or the number of the refusal, with all 40 bytes of
 * the book as they were.
 *
 * The win is scored with four players, as ziwhakemo_score_win does, but that `win_type` and
 * `seat_wind` of `win` are not read, and any byte will do. The win is by ron where there is a
 * discarder, else by tsumo. The winner's seat wind is ZIWHAKEMO_EAST + (seat + 4 - dealer) % 4: the
 * dealer is East, the next seat South, the one across West, the one before North. A caller that
 * shows the score as well sets these two and asks ziwhakemo_score_win. `is_riichi` is not compared
 * with the seats that declared.
 *
 * Refuses with 15 (dealer, winner, and the discarder where there is one), 16, 1 to 6, 8 (the round
 * wind or double_wind_fu), 14, 9, 10, 11, and with 16 again where the dealer's win scores and would
 * raise a counter of 255. At that counter another's win is booked and returns it to 0. */
uint32_t ziwhakemo_book_win(ziwhakemo_seat_book *book, const uint8_t *counts, size_t counts_length,
                            const ziwhakemo_meld *calls, size_t calls_length,
                            ziwhakemo_game_context win, ziwhakemo_deal deal,
                            ziwhakemo_winner winner);

/* ---- Layout -------------------------------------------------------------------------------------
 *
 * The sizes of these structs in the library, and where some of their fields stand. Where a compiler
 * lays them out otherwise (another machine, packed structs), it stops at the line that does not fit.
 */
#define ZIWHAKEMO_FITS(type, size) typedef char type##_fits[sizeof(type) == (size) ? 1 : -1]
#define ZIWHAKEMO_STANDS(type, field, place) \
    typedef char type##_##field##_stands[offsetof(type, field) == (place) ? 1 : -1]
ZIWHAKEMO_FITS(ziwhakemo_meld, 3);
ZIWHAKEMO_STANDS(ziwhakemo_meld, source, 2);
ZIWHAKEMO_FITS(ziwhakemo_indicators, 11);
ZIWHAKEMO_STANDS(ziwhakemo_indicators, tiles, 1);
ZIWHAKEMO_FITS(ziwhakemo_game_context, 35);
ZIWHAKEMO_STANDS(ziwhakemo_game_context, double_wind_fu, 12);
ZIWHAKEMO_STANDS(ziwhakemo_game_context, dora_indicators, 13);
ZIWHAKEMO_STANDS(ziwhakemo_game_context, ura_dora_indicators, 24);
ZIWHAKEMO_FITS(ziwhakemo_listing_answer, 24);
ZIWHAKEMO_FITS(ziwhakemo_level_answer, 2);
ZIWHAKEMO_FITS(ziwhakemo_payment_answer, 32);
ZIWHAKEMO_FITS(ziwhakemo_score_answer, 96);
ZIWHAKEMO_STANDS(ziwhakemo_score_answer, tallies, 16);
ZIWHAKEMO_STANDS(ziwhakemo_score_answer, han, 63);
ZIWHAKEMO_STANDS(ziwhakemo_score_answer, regular_dora, 68);
ZIWHAKEMO_STANDS(ziwhakemo_score_answer, ura_dora, 69);
ZIWHAKEMO_STANDS(ziwhakemo_score_answer, basic_points, 72);
ZIWHAKEMO_STANDS(ziwhakemo_score_answer, total, 88);
ZIWHAKEMO_FITS(ziwhakemo_waits_answer, 12);
ZIWHAKEMO_FITS(ziwhakemo_seat_book, 40);
ZIWHAKEMO_STANDS(ziwhakemo_seat_book, points, 0);
ZIWHAKEMO_STANDS(ziwhakemo_seat_book, sticks, 32);
ZIWHAKEMO_STANDS(ziwhakemo_seat_book, deals, 36);
ZIWHAKEMO_STANDS(ziwhakemo_seat_book, counter, 38);
ZIWHAKEMO_STANDS(ziwhakemo_seat_book, reserved, 39);
ZIWHAKEMO_FITS(ziwhakemo_deal, 5);
ZIWHAKEMO_STANDS(ziwhakemo_deal, dealer, 0);
ZIWHAKEMO_STANDS(ziwhakemo_deal, declared, 1);
ZIWHAKEMO_FITS(ziwhakemo_winner, 3);
ZIWHAKEMO_STANDS(ziwhakemo_winner, seat, 0);
ZIWHAKEMO_STANDS(ziwhakemo_winner, has_discarder, 1);
ZIWHAKEMO_STANDS(ziwhakemo_winner, discarder, 2);
#undef ZIWHAKEMO_FITS
#undef ZIWHAKEMO_STANDS

#ifdef __cplusplus
}
#endif

#endif
