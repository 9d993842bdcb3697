/* Scores the hand of the spring final: man 222 333 444, pin 567, sou 88, ron on sou 8. In the root:

     cc -std=c99 -Iinclude examples/c/score.c target/staticlib/libziwhakemo.a -o target/score
     target/score

   It prints examples/c/score.out. */
#include "ziwhakemo.h"
#include <stdio.h>
#include <string.h>

int main(void) {
    if (ziwhakemo_version() != ZIWHAKEMO_VERSION) {
        printf("the library is of version %lu, the header of version %d\n",
               (unsigned long)ziwhakemo_version(), ZIWHAKEMO_VERSION);
        return 2;
    }
    uint8_t counts[ZIWHAKEMO_TILES] = {0};
    counts[ZIWHAKEMO_MAN(2)] = counts[ZIWHAKEMO_MAN(3)] = counts[ZIWHAKEMO_MAN(4)] = 3;
    counts[ZIWHAKEMO_PIN(5)] = counts[ZIWHAKEMO_PIN(6)] = counts[ZIWHAKEMO_PIN(7)] = 1;
    counts[ZIWHAKEMO_SOU(8)] = 2;

    ziwhakemo_game_context win;
    memset(&win, 0, sizeof win); /* no flag is set, and no indicator is shown */
    win.win_type = ZIWHAKEMO_RON;
    win.winning_tile = ZIWHAKEMO_SOU(8);
    win.round_wind = ZIWHAKEMO_EAST;
    win.seat_wind = ZIWHAKEMO_SOUTH;
    win.double_wind_fu = ZIWHAKEMO_DOUBLE_WIND_FU_FOUR; /* the room's setting: 0 is refused */

    uint8_t records[ZIWHAKEMO_ALWAYS_ENOUGH];
    ziwhakemo_listing_answer listing =
        ziwhakemo_list_readings(counts, ZIWHAKEMO_TILES, NULL, 0, records, sizeof records);
    if (listing.number != ZIWHAKEMO_ACCEPTED) {
        printf("the hand is refused with %lu\n", (unsigned long)listing.number);
        return 1;
    }
    for (size_t n = 0; n < listing.readings; n++) {
        ziwhakemo_score_answer score =
            ziwhakemo_score_reading(counts, ZIWHAKEMO_TILES, NULL, 0, win, n);
        printf("reading %zu: %d han %d fu, %lu points\n", n, score.han, score.fu,
               (unsigned long)score.total);
    }
    ziwhakemo_score_answer score = ziwhakemo_score_win(counts, ZIWHAKEMO_TILES, NULL, 0, win);
    if (score.number != ZIWHAKEMO_ACCEPTED) {
        printf("the win is refused with %lu\n", (unsigned long)score.number);
        return 1;
    }
    printf("the win: reading %zu, %lu from the discarder\n", score.reading,
           (unsigned long)score.from_discarder);
    return 0;
}
