/* Wrong libraries: each is the right one with one fault in one function. */
#include "library.h"

#include <stdbool.h>
#include <string.h>

enum { STATE = TRESTLECAP_STATE_BYTES, EVENT = TRESTLECAP_EVENT_BYTES, ANSWER = TRESTLECAP_ANSWER_BYTES };
enum { MOST = TRESTLECAP_MOST_EVENTS };
enum { VALUE = 1, WRAP = 2 }; /* in an event's answer */
enum { MEMORY = 144, ADDRESS = 145, SHIFT = 146, EIGHT_LINES = 147, TWO_LINES = 148, TALL = 149, UP = 150 };
enum { BLINK = 154, HALF = 155, NUMBER = 156, BUSY_HIGH = 157, BUSY_LOW = 158 };
enum { FIGURES = 16, MARKS = 56 }; /* the cells of night 0 */

const struct library right = {
    .switch_on = trestlecap_switch_on,
    .run_list = trestlecap_run_list,
    .restart = trestlecap_restart,
    .picture = trestlecap_picture,
    .text = trestlecap_text,
    .log_night = trestlecap_log_night,
    .look_up = trestlecap_look_up,
    .quarter_bias = trestlecap_quarter_bias,
    .fifth_bias = trestlecap_fifth_bias,
    .mend = trestlecap_mend,
};

static bool is_part(const uint8_t *state, size_t length)
{
    uint8_t written, quarters;
    return trestlecap_look_up(state, length, 0, &written, &quarters) == TRESTLECAP_DONE;
}

static bool stands(const uint8_t *event)
{
    if (event[0] <= TRESTLECAP_DATA_WRITE)
        return event[1] == 0;
    if (event[0] <= TRESTLECAP_DATA_READ)
        return event[1] == 0 && event[2] == 0;
    return event[0] == TRESTLECAP_WAIT;
}

/* The bytes of the well-formed events from the front. */
static size_t front_of(const uint8_t *events, size_t length)
{
    size_t front = 0;
    while (length - front >= EVENT && stands(events + front))
        front += EVENT;
    return front;
}

static size_t room_for(size_t length)
{
    return length / EVENT * ANSWER;
}

/* Switching on */

static uint8_t switch_on_takes_158(uint8_t *state, size_t length)
{
    uint8_t whole[STATE];
    if (length != STATE - 1)
        return trestlecap_switch_on(state, length);
    trestlecap_switch_on(whole, sizeof whole);
    memcpy(state, whole, length);
    return TRESTLECAP_DONE;
}

static uint8_t switch_on_wants_159(uint8_t *state, size_t length)
{
    return length > STATE ? TRESTLECAP_SHORT_BUFFER : trestlecap_switch_on(state, length);
}

static uint8_t switch_on_clears_behind(uint8_t *state, size_t length)
{
    uint8_t answer = trestlecap_switch_on(state, length);
    if (answer == TRESTLECAP_DONE && length > STATE)
        state[STATE] = 0;
    return answer;
}

static uint8_t switch_on_not_busy(uint8_t *state, size_t length)
{
    uint8_t answer = trestlecap_switch_on(state, length);
    if (answer == TRESTLECAP_DONE)
        state[BUSY_HIGH] = state[BUSY_LOW] = 0;
    return answer;
}

/* Lists: what is refused */

static uint8_t list_events_before_room(uint8_t *state, size_t state_length, const uint8_t *events, size_t length,
                                       uint8_t *answers, size_t room)
{
    if (is_part(state, state_length) && (front_of(events, length) != length || length / EVENT > MOST))
        return TRESTLECAP_BAD_EVENTS;
    return trestlecap_run_list(state, state_length, events, length, answers, room);
}

static uint8_t list_room_before_state(uint8_t *state, size_t state_length, const uint8_t *events, size_t length,
                                      uint8_t *answers, size_t room)
{
    if (room < room_for(length))
        return TRESTLECAP_SHORT_BUFFER;
    return trestlecap_run_list(state, state_length, events, length, answers, room);
}

static uint8_t list_room_rounded_up(uint8_t *state, size_t state_length, const uint8_t *events, size_t length,
                                    uint8_t *answers, size_t room)
{
    if (is_part(state, state_length) && room < room_for(length + EVENT - 1))
        return TRESTLECAP_SHORT_BUFFER;
    return trestlecap_run_list(state, state_length, events, length, answers, room);
}

static uint8_t list_room_a_byte_short(uint8_t *state, size_t state_length, const uint8_t *events, size_t length,
                                      uint8_t *answers, size_t room)
{
    static uint8_t whole[ANSWER * (MOST + 1)];
    if (room + 1 != room_for(length) || room_for(length) > sizeof whole)
        return trestlecap_run_list(state, state_length, events, length, answers, room);
    uint8_t answer = trestlecap_run_list(state, state_length, events, length, whole, room + 1);
    if (answer == TRESTLECAP_DONE)
        memcpy(answers, whole, room);
    return answer;
}

/* The answers of the last events are cut off. */
static uint8_t list_room_of_two_bytes(uint8_t *state, size_t state_length, const uint8_t *events, size_t length,
                                      uint8_t *answers, size_t room)
{
    static uint8_t whole[ANSWER * (MOST + 1)];
    if (room < length / EVENT * WRAP || room >= room_for(length) || room_for(length) > sizeof whole)
        return trestlecap_run_list(state, state_length, events, length, answers, room);
    uint8_t answer = trestlecap_run_list(state, state_length, events, length, whole, sizeof whole);
    if (answer == TRESTLECAP_DONE)
        memcpy(answers, whole, room);
    return answer;
}

static uint8_t list_empty_refused(uint8_t *state, size_t state_length, const uint8_t *events, size_t length,
                                  uint8_t *answers, size_t room)
{
    if (length == 0 && is_part(state, state_length))
        return TRESTLECAP_BAD_EVENTS;
    return trestlecap_run_list(state, state_length, events, length, answers, room);
}

static uint8_t list_full_refused(uint8_t *state, size_t state_length, const uint8_t *events, size_t length,
                                 uint8_t *answers, size_t room)
{
    if (length == MOST * EVENT && room >= room_for(length) && is_part(state, state_length))
        return TRESTLECAP_BAD_EVENTS;
    return trestlecap_run_list(state, state_length, events, length, answers, room);
}

static uint8_t list_of_4097_taken(uint8_t *state, size_t state_length, const uint8_t *events, size_t length,
                                  uint8_t *answers, size_t room)
{
    size_t most = MOST * EVENT;
    if (length != most + EVENT || room < room_for(length) || front_of(events, length) != length)
        return trestlecap_run_list(state, state_length, events, length, answers, room);
    uint8_t answer = trestlecap_run_list(state, state_length, events, most, answers, room_for(most));
    if (answer == TRESTLECAP_DONE)
        trestlecap_run_list(state, state_length, events + most, EVENT, answers + room_for(most), ANSWER);
    return answer;
}

static uint8_t list_end_ignored(uint8_t *state, size_t state_length, const uint8_t *events, size_t length,
                                uint8_t *answers, size_t room)
{
    return trestlecap_run_list(state, state_length, events, length / EVENT * EVENT, answers, room);
}

/* The list with the values of these kinds cut to what a kind may have. */
static uint8_t list_cut(uint8_t *state, size_t state_length, const uint8_t *events, size_t length, uint8_t *answers,
                        size_t room, uint8_t least, uint8_t most)
{
    static uint8_t cut[EVENT * (MOST + 1)];
    if (length > sizeof cut || length % EVENT != 0)
        return trestlecap_run_list(state, state_length, events, length, answers, room);
    for (size_t at = 0; at < length; at += EVENT) {
        memcpy(cut + at, events + at, EVENT);
        if (events[at] < least || most < events[at])
            continue;
        cut[at + 1] = 0;
        if (events[at] >= TRESTLECAP_STATUS_READ)
            cut[at + 2] = 0;
    }
    return trestlecap_run_list(state, state_length, cut, length, answers, room);
}

static uint8_t list_high_byte_of_write_ignored(uint8_t *state, size_t state_length, const uint8_t *events,
                                               size_t length, uint8_t *answers, size_t room)
{
    return list_cut(state, state_length, events, length, answers, room, TRESTLECAP_INSTRUCTION_WRITE,
                    TRESTLECAP_DATA_WRITE);
}

static uint8_t list_value_of_read_ignored(uint8_t *state, size_t state_length, const uint8_t *events, size_t length,
                                          uint8_t *answers, size_t room)
{
    return list_cut(state, state_length, events, length, answers, room, TRESTLECAP_STATUS_READ,
                    TRESTLECAP_DATA_READ);
}

/* Lists: what is done */

static uint8_t list_run_before_refused(uint8_t *state, size_t state_length, const uint8_t *events, size_t length,
                                       uint8_t *answers, size_t room)
{
    static uint8_t unseen[ANSWER * MOST];
    uint8_t answer = trestlecap_run_list(state, state_length, events, length, answers, room);
    if (answer == TRESTLECAP_BAD_EVENTS)
        trestlecap_run_list(state, state_length, events, front_of(events, length), unseen, sizeof unseen);
    return answer;
}

static uint8_t list_answered_before_refused(uint8_t *state, size_t state_length, const uint8_t *events, size_t length,
                                            uint8_t *answers, size_t room)
{
    uint8_t unseen[STATE];
    uint8_t answer = trestlecap_run_list(state, state_length, events, length, answers, room);
    if (answer == TRESTLECAP_BAD_EVENTS) {
        memcpy(unseen, state, sizeof unseen);
        trestlecap_run_list(unseen, sizeof unseen, events, front_of(events, length), answers, room);
    }
    return answer;
}

static uint8_t list_stops_at_refused(uint8_t *state, size_t state_length, const uint8_t *events, size_t length,
                                     uint8_t *answers, size_t room)
{
    static uint8_t all[ANSWER * MOST];
    uint8_t unseen[STATE];
    if (state_length == STATE)
        memcpy(unseen, state, sizeof unseen);
    uint8_t answer = trestlecap_run_list(unseen, state_length == STATE ? STATE : 0, events, length, all,
                                         room < sizeof all ? room : sizeof all);
    if (answer != TRESTLECAP_DONE)
        return trestlecap_run_list(state, state_length, events, length, answers, room);
    size_t run = 0;
    while (run < length / EVENT && (all[ANSWER * run] == 0 || all[ANSWER * run] == TRESTLECAP_FIRST_HALF))
        run++;
    if (run < length / EVENT)
        run++;
    return trestlecap_run_list(state, state_length, events, run * EVENT, answers, room);
}

static uint8_t list_clears_behind(uint8_t *state, size_t state_length, const uint8_t *events, size_t length,
                                  uint8_t *answers, size_t room)
{
    uint8_t answer = trestlecap_run_list(state, state_length, events, length, answers, room);
    if (answer == TRESTLECAP_DONE && room > room_for(length))
        answers[room_for(length)] = 0;
    return answer;
}

static uint8_t list_value_before_answer(uint8_t *state, size_t state_length, const uint8_t *events, size_t length,
                                        uint8_t *answers, size_t room)
{
    uint8_t answer = trestlecap_run_list(state, state_length, events, length, answers, room);
    for (size_t at = 0; answer == TRESTLECAP_DONE && at < room_for(length); at += ANSWER) {
        uint8_t first = answers[at];
        answers[at] = answers[at + VALUE];
        answers[at + VALUE] = first;
    }
    return answer;
}

static uint8_t list_forgets_half(uint8_t *state, size_t state_length, const uint8_t *events, size_t length,
                                 uint8_t *answers, size_t room)
{
    uint8_t answer = trestlecap_run_list(state, state_length, events, length, answers, room);
    if (answer == TRESTLECAP_DONE)
        state[HALF] = state[NUMBER] = 0;
    return answer;
}

static uint8_t list_keeps_state_where_refused(uint8_t *state, size_t state_length, const uint8_t *events,
                                              size_t length, uint8_t *answers, size_t room)
{
    uint8_t before[STATE];
    if (state_length == STATE)
        memcpy(before, state, sizeof before);
    uint8_t answer = trestlecap_run_list(state, state_length, events, length, answers, room);
    bool refused = false;
    for (size_t at = 0; answer == TRESTLECAP_DONE && at < room_for(length); at += ANSWER)
        refused = refused || (answers[at] != 0 && answers[at] != TRESTLECAP_FIRST_HALF);
    if (refused)
        memcpy(state, before, sizeof before);
    return answer;
}

/* Lists: the wrap */

/* The list with the bytes of each event's answer laid out anew. */
static uint8_t list_laid_out(uint8_t *state, size_t state_length, const uint8_t *events, size_t length,
                             uint8_t *answers, size_t room, void lay_out(const uint8_t *, size_t, uint8_t *))
{
    static uint8_t whole[ANSWER * (MOST + 1)];
    uint8_t answer = trestlecap_run_list(state, state_length, events, length, whole,
                                         room < sizeof whole ? room : sizeof whole);
    for (size_t at = 0; answer == TRESTLECAP_DONE && at < length / EVENT; at++)
        lay_out(whole + ANSWER * at, at, answers);
    return answer;
}

/* Those before the wrap. */
static void two_bytes_an_event(const uint8_t *answer, size_t at, uint8_t *answers)
{
    memcpy(answers + WRAP * at, answer, WRAP);
}

static uint8_t list_of_two_bytes_an_event(uint8_t *state, size_t state_length, const uint8_t *events, size_t length,
                                          uint8_t *answers, size_t room)
{
    return list_laid_out(state, state_length, events, length, answers, room, two_bytes_an_event);
}

static void all_but_the_wrap(const uint8_t *answer, size_t at, uint8_t *answers)
{
    memcpy(answers + ANSWER * at, answer, WRAP);
}

static uint8_t list_leaves_wrap(uint8_t *state, size_t state_length, const uint8_t *events, size_t length,
                                uint8_t *answers, size_t room)
{
    return list_laid_out(state, state_length, events, length, answers, room, all_but_the_wrap);
}

static void wrap_before_value(const uint8_t *answer, size_t at, uint8_t *answers)
{
    memcpy(answers + ANSWER * at, (uint8_t[ANSWER]){ answer[0], answer[WRAP], answer[VALUE] }, ANSWER);
}

static uint8_t list_wrap_before_value(uint8_t *state, size_t state_length, const uint8_t *events, size_t length,
                                      uint8_t *answers, size_t room)
{
    return list_laid_out(state, state_length, events, length, answers, room, wrap_before_value);
}

/* One event of a list that was done: its answer, and the states before and behind it. */
struct turn {
    size_t at;
    const uint8_t *event, *answer, *before, *behind;
};

/* The list with the wrap of each event said anew. */
static uint8_t list_said(uint8_t *state, size_t state_length, const uint8_t *events, size_t length, uint8_t *answers,
                         size_t room, uint8_t say(const struct turn *))
{
    uint8_t before[STATE], behind[STATE], unseen[ANSWER];
    if (state_length == STATE)
        memcpy(behind, state, sizeof behind);
    uint8_t answer = trestlecap_run_list(state, state_length, events, length, answers, room);
    for (size_t at = 0; answer == TRESTLECAP_DONE && at < length / EVENT; at++) {
        struct turn turn = { at, events + EVENT * at, answers + ANSWER * at, before, behind };
        memcpy(before, behind, sizeof before);
        trestlecap_run_list(behind, sizeof behind, turn.event, EVENT, unseen, sizeof unseen);
        answers[ANSWER * at + WRAP] = say(&turn);
    }
    return answer;
}

static uint8_t never(const struct turn *turn)
{
    (void)turn;
    return 0;
}

static uint8_t list_never_wraps(uint8_t *state, size_t state_length, const uint8_t *events, size_t length,
                                uint8_t *answers, size_t room)
{
    return list_said(state, state_length, events, length, answers, room, never);
}

static uint8_t inverted(const struct turn *turn)
{
    return !turn->answer[WRAP];
}

static uint8_t list_wrap_inverted(uint8_t *state, size_t state_length, const uint8_t *events, size_t length,
                                  uint8_t *answers, size_t room)
{
    return list_said(state, state_length, events, length, answers, room, inverted);
}

static uint8_t all_bits(const struct turn *turn)
{
    return turn->answer[WRAP] ? 0xFF : 0;
}

static uint8_t list_wrap_of_255(uint8_t *state, size_t state_length, const uint8_t *events, size_t length,
                                uint8_t *answers, size_t room)
{
    return list_said(state, state_length, events, length, answers, room, all_bits);
}

static uint8_t of_first_alone(const struct turn *turn)
{
    return turn->at == 0 && turn->answer[WRAP];
}

static uint8_t list_wrap_of_first_alone(uint8_t *state, size_t state_length, const uint8_t *events, size_t length,
                                        uint8_t *answers, size_t room)
{
    return list_said(state, state_length, events, length, answers, room, of_first_alone);
}

/* Answers stand one behind the other, those before this one said anew already. */
static uint8_t from_there_on(const struct turn *turn)
{
    return turn->answer[WRAP] || (turn->at > 0 && turn->answer[WRAP - ANSWER]);
}

static uint8_t list_wrap_from_there_on(uint8_t *state, size_t state_length, const uint8_t *events, size_t length,
                                       uint8_t *answers, size_t room)
{
    return list_said(state, state_length, events, length, answers, room, from_there_on);
}

/* As if a first half of data stepped the counter, downwards from 00. */
static uint8_t with_first_half(const struct turn *turn)
{
    bool data = turn->event[0] == TRESTLECAP_DATA_WRITE || turn->event[0] == TRESTLECAP_DATA_READ;
    if (turn->answer[0] == TRESTLECAP_FIRST_HALF && data)
        return !turn->before[UP] && turn->before[ADDRESS] == 0;
    return turn->answer[WRAP];
}

static uint8_t list_wrap_with_first_half(uint8_t *state, size_t state_length, const uint8_t *events, size_t length,
                                         uint8_t *answers, size_t room)
{
    return list_said(state, state_length, events, length, answers, room, with_first_half);
}

static uint8_t not_for_data_writes(const struct turn *turn)
{
    return turn->event[0] != TRESTLECAP_DATA_WRITE && turn->answer[WRAP];
}

static uint8_t list_no_wrap_for_data_writes(uint8_t *state, size_t state_length, const uint8_t *events, size_t length,
                                            uint8_t *answers, size_t room)
{
    return list_said(state, state_length, events, length, answers, room, not_for_data_writes);
}

static uint8_t not_for_data_reads(const struct turn *turn)
{
    return turn->event[0] != TRESTLECAP_DATA_READ && turn->answer[WRAP];
}

static uint8_t list_no_wrap_for_data_reads(uint8_t *state, size_t state_length, const uint8_t *events, size_t length,
                                           uint8_t *answers, size_t room)
{
    return list_said(state, state_length, events, length, answers, room, not_for_data_reads);
}

static uint8_t not_for_cursor_moves(const struct turn *turn)
{
    return turn->event[0] != TRESTLECAP_INSTRUCTION_WRITE && turn->answer[WRAP];
}

static uint8_t list_no_wrap_for_cursor_moves(uint8_t *state, size_t state_length, const uint8_t *events,
                                             size_t length, uint8_t *answers, size_t room)
{
    return list_said(state, state_length, events, length, answers, room, not_for_cursor_moves);
}

/* Upwards an end is passed to 00 or 40. */
static uint8_t not_downwards(const struct turn *turn)
{
    return turn->answer[WRAP] && turn->behind[ADDRESS] % 0x40 == 0;
}

static uint8_t list_no_wrap_downwards(uint8_t *state, size_t state_length, const uint8_t *events, size_t length,
                                      uint8_t *answers, size_t room)
{
    return list_said(state, state_length, events, length, answers, room, not_downwards);
}

static uint8_t not_in_character_memory(const struct turn *turn)
{
    return turn->answer[WRAP] && turn->before[MEMORY] == 0;
}

static uint8_t list_no_wrap_in_character_memory(uint8_t *state, size_t state_length, const uint8_t *events,
                                                size_t length, uint8_t *answers, size_t room)
{
    return list_said(state, state_length, events, length, answers, room, not_in_character_memory);
}

static uint8_t not_between_lines(const struct turn *turn)
{
    uint8_t before = turn->before[ADDRESS], behind = turn->behind[ADDRESS];
    return turn->answer[WRAP] && (before == 0 || behind == 0);
}

static uint8_t list_no_wrap_between_lines(uint8_t *state, size_t state_length, const uint8_t *events, size_t length,
                                          uint8_t *answers, size_t room)
{
    return list_said(state, state_length, events, length, answers, room, not_between_lines);
}

/* Also where an instruction sets the address. */
static uint8_t wherever_not_the_next(const struct turn *turn)
{
    int moved = turn->behind[ADDRESS] - turn->before[ADDRESS];
    return moved < -1 || 1 < moved;
}

static uint8_t list_wrap_for_address_set(uint8_t *state, size_t state_length, const uint8_t *events, size_t length,
                                         uint8_t *answers, size_t room)
{
    return list_said(state, state_length, events, length, answers, room, wherever_not_the_next);
}

/* States */

static void exchange_busy(uint8_t *state)
{
    uint8_t high = state[BUSY_HIGH];
    state[BUSY_HIGH] = state[BUSY_LOW];
    state[BUSY_LOW] = high;
}

static uint8_t list_busy_low_byte_first(uint8_t *state, size_t state_length, const uint8_t *events, size_t length,
                                        uint8_t *answers, size_t room)
{
    uint8_t taken[STATE];
    if (state_length != STATE)
        return trestlecap_run_list(state, state_length, events, length, answers, room);
    memcpy(taken, state, sizeof taken);
    exchange_busy(taken);
    uint8_t answer = trestlecap_run_list(taken, sizeof taken, events, length, answers, room);
    if (answer == TRESTLECAP_DONE) {
        exchange_busy(taken);
        memcpy(state, taken, sizeof taken);
    }
    return answer;
}

/* The restart on a state that was first made one in range. */
static uint8_t restart_taken(uint8_t *state, size_t length, void make(uint8_t *))
{
    uint8_t taken[STATE] = { 0 };
    memcpy(taken, state, length < sizeof taken ? length : sizeof taken);
    make(taken);
    uint8_t answer = trestlecap_restart(taken, sizeof taken);
    if (answer == TRESTLECAP_DONE)
        memcpy(state, taken, length < sizeof taken ? length : sizeof taken);
    return answer;
}

static void as_it_is(uint8_t *state)
{
    (void)state;
}

static uint8_t restart_takes_160(uint8_t *state, size_t length)
{
    return length == STATE + 1 ? restart_taken(state, length, as_it_is) : trestlecap_restart(state, length);
}

static uint8_t restart_takes_158(uint8_t *state, size_t length)
{
    return length == STATE - 1 ? restart_taken(state, length, as_it_is) : trestlecap_restart(state, length);
}

static void flags_to_one(uint8_t *state)
{
    for (int place = EIGHT_LINES; place <= BLINK; place++)
        state[place] = state[place] != 0;
}

static uint8_t restart_takes_flag_of_2(uint8_t *state, size_t length)
{
    return length == STATE ? restart_taken(state, length, flags_to_one) : trestlecap_restart(state, length);
}

static void memory_to_one(uint8_t *state)
{
    state[MEMORY] = state[MEMORY] != 0;
}

static uint8_t restart_takes_memory_2(uint8_t *state, size_t length)
{
    return length == STATE ? restart_taken(state, length, memory_to_one) : trestlecap_restart(state, length);
}

static void no_number_beside_no_half(uint8_t *state)
{
    if (state[HALF] == 0)
        state[NUMBER] = 0;
}

static uint8_t restart_takes_number_alone(uint8_t *state, size_t length)
{
    return length == STATE ? restart_taken(state, length, no_number_beside_no_half)
                           : trestlecap_restart(state, length);
}

static void no_number_of_read(uint8_t *state)
{
    if (state[HALF] == 3 || state[HALF] == 4)
        state[NUMBER] = 0;
}

static uint8_t restart_takes_number_of_read(uint8_t *state, size_t length)
{
    return length == STATE ? restart_taken(state, length, no_number_of_read) : trestlecap_restart(state, length);
}

static void no_half_on_eight(uint8_t *state)
{
    bool writes = state[HALF] == 1 || state[HALF] == 2;
    if (state[EIGHT_LINES] == 1 && state[HALF] <= 4 && state[NUMBER] <= (writes ? 15 : 0))
        state[HALF] = state[NUMBER] = 0;
}

static uint8_t restart_takes_half_on_eight(uint8_t *state, size_t length)
{
    return length == STATE ? restart_taken(state, length, no_half_on_eight) : trestlecap_restart(state, length);
}

static void address_between_lines(uint8_t *state)
{
    if (state[MEMORY] == 0 && state[TWO_LINES] == 1 && 0x28 <= state[ADDRESS] && state[ADDRESS] <= 0x3F)
        state[ADDRESS] = 0;
}

static uint8_t restart_takes_address_between(uint8_t *state, size_t length)
{
    return length == STATE ? restart_taken(state, length, address_between_lines) : trestlecap_restart(state, length);
}

static void shift_of_one_line(uint8_t *state)
{
    if (state[TWO_LINES] == 1 && state[SHIFT] < 80)
        state[SHIFT] %= 40;
}

static uint8_t restart_takes_shift_of_one_line(uint8_t *state, size_t length)
{
    return length == STATE ? restart_taken(state, length, shift_of_one_line) : trestlecap_restart(state, length);
}

static void busy_at_most_3750(uint8_t *state)
{
    if ((state[BUSY_HIGH] << 8 | state[BUSY_LOW]) > TRESTLECAP_MOST_BUSY)
        state[BUSY_HIGH] = state[BUSY_LOW] = 0;
}

static uint8_t restart_takes_any_busy(uint8_t *state, size_t length)
{
    return length == STATE ? restart_taken(state, length, busy_at_most_3750) : trestlecap_restart(state, length);
}

static uint8_t restart_clears_cells(uint8_t *state, size_t length)
{
    uint8_t answer = trestlecap_restart(state, length);
    if (answer == TRESTLECAP_DONE)
        memset(state, 0x20, 80);
    return answer;
}

static uint8_t restart_leaves_not_busy(uint8_t *state, size_t length)
{
    uint8_t answer = trestlecap_restart(state, length);
    if (answer == TRESTLECAP_DONE)
        state[BUSY_LOW] = 0;
    return answer;
}

/* Pictures */

static size_t dots_of(const uint8_t *state, uint8_t digits)
{
    size_t rows = state[TWO_LINES] ? 2 * 8 : state[TALL] ? 11 : 8;
    return rows * digits;
}

static uint8_t picture_dark_ignored(const uint8_t *state, size_t state_length, uint8_t digits, const uint8_t *rom,
                                    size_t rom_length, uint8_t dark, uint8_t *dots, size_t room)
{
    (void)dark;
    return trestlecap_picture(state, state_length, digits, rom, rom_length, 0, dots, room);
}

static uint8_t picture_dark_1_alone(const uint8_t *state, size_t state_length, uint8_t digits, const uint8_t *rom,
                                    size_t rom_length, uint8_t dark, uint8_t *dots, size_t room)
{
    return trestlecap_picture(state, state_length, digits, rom, rom_length, dark == 1, dots, room);
}

static uint8_t picture_image_before_digits(const uint8_t *state, size_t state_length, uint8_t digits,
                                           const uint8_t *rom, size_t rom_length, uint8_t dark, uint8_t *dots,
                                           size_t room)
{
    uint8_t answer = trestlecap_picture(state, state_length, digits, rom, rom_length, dark, dots, room);
    return answer == TRESTLECAP_BAD_DIGITS && rom_length != TRESTLECAP_ROM_BYTES ? TRESTLECAP_BAD_IMAGE : answer;
}

static uint8_t picture_room_before_image(const uint8_t *state, size_t state_length, uint8_t digits,
                                         const uint8_t *rom, size_t rom_length, uint8_t dark, uint8_t *dots,
                                         size_t room)
{
    uint8_t answer = trestlecap_picture(state, state_length, digits, rom, rom_length, dark, dots, room);
    if (answer != TRESTLECAP_BAD_IMAGE)
        return answer;
    return room < dots_of(state, digits) ? TRESTLECAP_SHORT_BUFFER : answer;
}

static uint8_t picture_clears_behind(const uint8_t *state, size_t state_length, uint8_t digits, const uint8_t *rom,
                                     size_t rom_length, uint8_t dark, uint8_t *dots, size_t room)
{
    uint8_t answer = trestlecap_picture(state, state_length, digits, rom, rom_length, dark, dots, room);
    if (answer == TRESTLECAP_DONE && dots_of(state, digits) < room)
        dots[dots_of(state, digits)] = 0;
    return answer;
}

static uint8_t picture_begun_where_short(const uint8_t *state, size_t state_length, uint8_t digits,
                                         const uint8_t *rom, size_t rom_length, uint8_t dark, uint8_t *dots,
                                         size_t room)
{
    uint8_t whole[TRESTLECAP_MOST_DOTS];
    uint8_t answer = trestlecap_picture(state, state_length, digits, rom, rom_length, dark, dots, room);
    if (answer == TRESTLECAP_SHORT_BUFFER && room > 0) {
        trestlecap_picture(state, state_length, digits, rom, rom_length, dark, whole, sizeof whole);
        memcpy(dots, whole, room);
    }
    return answer;
}

/* The panel */

static uint8_t text_on_line_0(uint8_t *state, size_t state_length, uint8_t line, const uint8_t *text, size_t length,
                              uint8_t *wrap)
{
    return trestlecap_text(state, state_length, line == 1 ? 0 : line, text, length, wrap);
}

static uint8_t text_takes_line_2(uint8_t *state, size_t state_length, uint8_t line, const uint8_t *text, size_t length,
                                 uint8_t *wrap)
{
    return trestlecap_text(state, state_length, line > 1 ? 1 : line, text, length, wrap);
}

static uint8_t text_cut_to_16(uint8_t *state, size_t state_length, uint8_t line, const uint8_t *text, size_t length,
                              uint8_t *wrap)
{
    size_t most = TRESTLECAP_TEXT_BYTES;
    return trestlecap_text(state, state_length, line, text, length > most ? most : length, wrap);
}

static uint8_t text_before_ready(uint8_t *state, size_t state_length, uint8_t line, const uint8_t *text, size_t length,
                                 uint8_t *wrap)
{
    if (is_part(state, state_length) && (length != TRESTLECAP_TEXT_BYTES || line > 1))
        return TRESTLECAP_BAD_TEXT;
    return trestlecap_text(state, state_length, line, text, length, wrap);
}

static uint8_t text_waits_though_refused(uint8_t *state, size_t state_length, uint8_t line, const uint8_t *text,
                                         size_t length, uint8_t *wrap)
{
    uint8_t answer = trestlecap_text(state, state_length, line, text, length, wrap);
    if (answer == TRESTLECAP_BAD_TEXT)
        state[BUSY_HIGH] = state[BUSY_LOW] = 0;
    return answer;
}

static uint8_t text_leaves_wrap(uint8_t *state, size_t state_length, uint8_t line, const uint8_t *text, size_t length,
                                uint8_t *wrap)
{
    uint8_t unseen;
    (void)wrap;
    return trestlecap_text(state, state_length, line, text, length, &unseen);
}

static uint8_t text_wraps_though_refused(uint8_t *state, size_t state_length, uint8_t line, const uint8_t *text,
                                         size_t length, uint8_t *wrap)
{
    *wrap = 0;
    return trestlecap_text(state, state_length, line, text, length, wrap);
}

/* As if the address that is set behind it, 00, were an end that was passed. */
static uint8_t text_always_wraps(uint8_t *state, size_t state_length, uint8_t line, const uint8_t *text, size_t length,
                                 uint8_t *wrap)
{
    uint8_t answer = trestlecap_text(state, state_length, line, text, length, wrap);
    if (answer == TRESTLECAP_DONE)
        *wrap = 1;
    return answer;
}

static uint8_t log_exchanged(uint8_t *state, size_t length, uint8_t night, uint8_t quarters, uint8_t *wrap)
{
    return trestlecap_log_night(state, length, quarters, night, wrap);
}

static uint8_t log_quarters_before_night(uint8_t *state, size_t length, uint8_t night, uint8_t quarters, uint8_t *wrap)
{
    uint8_t answer = trestlecap_log_night(state, length, night, quarters, wrap);
    return answer == TRESTLECAP_BAD_NIGHT && quarters > TRESTLECAP_MOST_QUARTERS ? TRESTLECAP_BAD_QUARTERS : answer;
}

static uint8_t log_written_before_quarters(uint8_t *state, size_t length, uint8_t night, uint8_t quarters,
                                           uint8_t *wrap)
{
    uint8_t written, figure;
    uint8_t answer = trestlecap_log_night(state, length, night, quarters, wrap);
    if (answer != TRESTLECAP_BAD_QUARTERS)
        return answer;
    trestlecap_look_up(state, length, night, &written, &figure);
    return written ? TRESTLECAP_ALREADY_WRITTEN : answer;
}

static uint8_t log_takes_97(uint8_t *state, size_t length, uint8_t night, uint8_t quarters, uint8_t *wrap)
{
    uint8_t answer = trestlecap_log_night(state, length, night, quarters == 97 ? 96 : quarters, wrap);
    if (answer == TRESTLECAP_DONE)
        state[FIGURES + night] = quarters;
    return answer;
}

static uint8_t log_writes_again(uint8_t *state, size_t length, uint8_t night, uint8_t quarters, uint8_t *wrap)
{
    uint8_t answer = trestlecap_log_night(state, length, night, quarters, wrap);
    if (answer == TRESTLECAP_ALREADY_WRITTEN) {
        state[MARKS + night] = 0;
        answer = trestlecap_log_night(state, length, night, quarters, wrap);
    }
    return answer;
}

static uint8_t log_leaves_wrap(uint8_t *state, size_t length, uint8_t night, uint8_t quarters, uint8_t *wrap)
{
    uint8_t unseen;
    (void)wrap;
    return trestlecap_log_night(state, length, night, quarters, &unseen);
}

static uint8_t log_wraps_though_refused(uint8_t *state, size_t length, uint8_t night, uint8_t quarters, uint8_t *wrap)
{
    *wrap = 0;
    return trestlecap_log_night(state, length, night, quarters, wrap);
}

/* As the last transfer alone says it, which sets address 00. That of the last data write, or of the first, is right:
   night 23 passes both ends, and no other night passes one. */
static uint8_t log_never_wraps(uint8_t *state, size_t length, uint8_t night, uint8_t quarters, uint8_t *wrap)
{
    uint8_t answer = trestlecap_log_night(state, length, night, quarters, wrap);
    if (answer == TRESTLECAP_DONE)
        *wrap = 0;
    return answer;
}

static uint8_t log_always_wraps(uint8_t *state, size_t length, uint8_t night, uint8_t quarters, uint8_t *wrap)
{
    uint8_t answer = trestlecap_log_night(state, length, night, quarters, wrap);
    if (answer == TRESTLECAP_DONE)
        *wrap = 1;
    return answer;
}

/* Both ends that it passed, counted. */
static uint8_t log_counts_wraps(uint8_t *state, size_t length, uint8_t night, uint8_t quarters, uint8_t *wrap)
{
    uint8_t answer = trestlecap_log_night(state, length, night, quarters, wrap);
    if (answer == TRESTLECAP_DONE)
        *wrap *= 2;
    return answer;
}

static uint8_t look_up_night_before_state(const uint8_t *state, size_t length, uint8_t night, uint8_t *written,
                                          uint8_t *quarters)
{
    if (night >= TRESTLECAP_NIGHTS)
        return TRESTLECAP_BAD_NIGHT;
    return trestlecap_look_up(state, length, night, written, quarters);
}

static uint8_t look_up_writes_though_refused(const uint8_t *state, size_t length, uint8_t night, uint8_t *written,
                                             uint8_t *quarters)
{
    uint8_t answer = trestlecap_look_up(state, length, night, written, quarters);
    if (answer != TRESTLECAP_DONE)
        *quarters = 0;
    return answer;
}

static uint8_t look_up_leaves_quarters(const uint8_t *state, size_t length, uint8_t night, uint8_t *written,
                                       uint8_t *quarters)
{
    uint8_t before = *quarters;
    uint8_t answer = trestlecap_look_up(state, length, night, written, quarters);
    if (answer == TRESTLECAP_DONE && !*written)
        *quarters = before;
    return answer;
}

static uint8_t look_up_tells_unwritten(const uint8_t *state, size_t length, uint8_t night, uint8_t *written,
                                       uint8_t *quarters)
{
    uint8_t answer = trestlecap_look_up(state, length, night, written, quarters);
    if (answer == TRESTLECAP_DONE)
        *quarters = state[FIGURES + night];
    return answer;
}

/* Voltages */

static uint8_t quarter_exchanged(uint16_t vdd, uint16_t span, float *volts)
{
    uint8_t answer = trestlecap_quarter_bias(vdd, span, volts);
    if (answer == TRESTLECAP_DONE) {
        float first = volts[0];
        volts[0] = volts[2];
        volts[2] = first;
    }
    return answer;
}

static uint8_t quarter_writes_though_refused(uint16_t vdd, uint16_t span, float *volts)
{
    uint8_t answer = trestlecap_quarter_bias(vdd, span, volts);
    if (answer != TRESTLECAP_DONE)
        volts[0] = 0;
    return answer;
}

static uint8_t fifth_span_before_vdd(uint16_t vdd, uint16_t span, float *volts)
{
    uint8_t answer = trestlecap_fifth_bias(vdd, span, volts);
    return answer == TRESTLECAP_BAD_VDD && (span < 192 || 512 < span) ? TRESTLECAP_BAD_SPAN : answer;
}

/* Each part of the span is rounded before it is multiplied. */
static uint8_t fifth_quotient_first(uint16_t vdd, uint16_t span, float *volts)
{
    uint8_t answer = trestlecap_fifth_bias(vdd, span, volts);
    volatile float part = (float)span / 64.0f / 5.0f;
    for (int step = 1; answer == TRESTLECAP_DONE && step < 5; step++) {
        volatile float parts = (float)step * part;
        volts[step - 1] = (float)vdd / 64.0f - parts;
    }
    return answer;
}

/* Mending */

static uint8_t mend_never_altered(const uint8_t *record, size_t length, uint8_t *mended, size_t room, uint16_t *kept,
                                  size_t *dropped, uint8_t *altered)
{
    uint8_t answer = trestlecap_mend(record, length, mended, room, kept, dropped, altered);
    if (answer == TRESTLECAP_DONE)
        *altered = 0;
    return answer;
}

static uint8_t mend_writes_though_refused(const uint8_t *record, size_t length, uint8_t *mended, size_t room,
                                          uint16_t *kept, size_t *dropped, uint8_t *altered)
{
    uint8_t answer = trestlecap_mend(record, length, mended, room, kept, dropped, altered);
    if (answer != TRESTLECAP_DONE)
        *kept = 0;
    return answer;
}

static uint8_t mend_version_before_length(const uint8_t *record, size_t length, uint8_t *mended, size_t room,
                                          uint16_t *kept, size_t *dropped, uint8_t *altered)
{
    uint8_t answer = trestlecap_mend(record, length, mended, room, kept, dropped, altered);
    return answer == TRESTLECAP_BAD_LENGTH ? TRESTLECAP_BAD_VERSION : answer;
}

static uint8_t mend_room_before_version(const uint8_t *record, size_t length, uint8_t *mended, size_t room,
                                        uint16_t *kept, size_t *dropped, uint8_t *altered)
{
    enum { HEAD = 3 };
    uint8_t answer = trestlecap_mend(record, length, mended, room, kept, dropped, altered);
    if (answer != TRESTLECAP_BAD_VERSION)
        return answer;
    size_t front = front_of(record + HEAD, length - HEAD);
    return room < HEAD + (front < MOST * EVENT ? front : MOST * EVENT) ? TRESTLECAP_SHORT_BUFFER : answer;
}

static uint8_t mend_clears_behind(const uint8_t *record, size_t length, uint8_t *mended, size_t room, uint16_t *kept,
                                  size_t *dropped, uint8_t *altered)
{
    uint8_t answer = trestlecap_mend(record, length, mended, room, kept, dropped, altered);
    if (answer == TRESTLECAP_DONE && length - *dropped < room)
        mended[length - *dropped] = 0;
    return answer;
}

static uint8_t mend_drops_in_16_bits(const uint8_t *record, size_t length, uint8_t *mended, size_t room,
                                     uint16_t *kept, size_t *dropped, uint8_t *altered)
{
    uint8_t answer = trestlecap_mend(record, length, mended, room, kept, dropped, altered);
    if (answer == TRESTLECAP_DONE)
        *dropped = (uint16_t)*dropped;
    return answer;
}

const struct wrong wrong[] = {
    { "switch on: 158 bytes taken", { .switch_on = switch_on_takes_158 } },
    { "switch on: more than 159 bytes refused", { .switch_on = switch_on_wants_159 } },
    { "switch on: a byte behind the state cleared", { .switch_on = switch_on_clears_behind } },
    { "switch on: not busy", { .switch_on = switch_on_not_busy } },
    { "list: 9 before 6", { .run_list = list_events_before_room } },
    { "list: 6 before 16", { .run_list = list_room_before_state } },
    { "list: room rounded up to a whole event", { .run_list = list_room_rounded_up } },
    { "list: room one byte short taken", { .run_list = list_room_a_byte_short } },
    { "list: room of two bytes an event taken", { .run_list = list_room_of_two_bytes } },
    { "list: an empty one refused", { .run_list = list_empty_refused } },
    { "list: 4,096 events refused", { .run_list = list_full_refused } },
    { "list: 4,097 events taken", { .run_list = list_of_4097_taken } },
    { "list: bytes behind the last whole event ignored", { .run_list = list_end_ignored } },
    { "list: a write's high byte ignored", { .run_list = list_high_byte_of_write_ignored } },
    { "list: a read's value ignored", { .run_list = list_value_of_read_ignored } },
    { "list: events run before an ill-formed one is found", { .run_list = list_run_before_refused } },
    { "list: answers written before an ill-formed one is found", { .run_list = list_answered_before_refused } },
    { "list: stops at a refused event", { .run_list = list_stops_at_refused } },
    { "list: a byte behind the answers cleared", { .run_list = list_clears_behind } },
    { "list: value before answer", { .run_list = list_value_before_answer } },
    { "list: the half that waits forgotten", { .run_list = list_forgets_half } },
    { "list: state kept where an event is refused", { .run_list = list_keeps_state_where_refused } },
    { "list: two bytes an event", { .run_list = list_of_two_bytes_an_event } },
    { "list: wrap left as it was", { .run_list = list_leaves_wrap } },
    { "list: wrap before the value read", { .run_list = list_wrap_before_value } },
    { "list: wrap always 0", { .run_list = list_never_wraps } },
    { "list: wrap inverted", { .run_list = list_wrap_inverted } },
    { "list: wrap 255", { .run_list = list_wrap_of_255 } },
    { "list: wrap of the first event alone", { .run_list = list_wrap_of_first_alone } },
    { "list: wrap of every event behind one", { .run_list = list_wrap_from_there_on } },
    { "list: wrap with the first half", { .run_list = list_wrap_with_first_half } },
    { "list: no wrap for data writes", { .run_list = list_no_wrap_for_data_writes } },
    { "list: no wrap for data reads", { .run_list = list_no_wrap_for_data_reads } },
    { "list: no wrap for cursor moves", { .run_list = list_no_wrap_for_cursor_moves } },
    { "list: no wrap downwards", { .run_list = list_no_wrap_downwards } },
    { "list: no wrap in character memory", { .run_list = list_no_wrap_in_character_memory } },
    { "list: no wrap between 27 and 40", { .run_list = list_no_wrap_between_lines } },
    { "list: wrap where an instruction sets the address", { .run_list = list_wrap_for_address_set } },
    { "state: busy low byte first", { .run_list = list_busy_low_byte_first } },
    { "state: 160 bytes taken", { .restart = restart_takes_160 } },
    { "state: 158 bytes taken", { .restart = restart_takes_158 } },
    { "state: a flag of 2 taken for 1", { .restart = restart_takes_flag_of_2 } },
    { "state: memory 2 taken for 1", { .restart = restart_takes_memory_2 } },
    { "state: a number beside no half taken", { .restart = restart_takes_number_alone } },
    { "state: a number of a read's half taken", { .restart = restart_takes_number_of_read } },
    { "state: a half on eight lines taken", { .restart = restart_takes_half_on_eight } },
    { "state: an address between two lines taken", { .restart = restart_takes_address_between } },
    { "state: a shift of one line taken with two", { .restart = restart_takes_shift_of_one_line } },
    { "state: busy above 3,750 taken", { .restart = restart_takes_any_busy } },
    { "restart: cells cleared", { .restart = restart_clears_cells } },
    { "restart: not busy behind it", { .restart = restart_leaves_not_busy } },
    { "picture: dark ignored", { .picture = picture_dark_ignored } },
    { "picture: dark 2 taken for plain", { .picture = picture_dark_1_alone } },
    { "picture: 5 before 4", { .picture = picture_image_before_digits } },
    { "picture: 6 before 5", { .picture = picture_room_before_image } },
    { "picture: a byte behind the dots cleared", { .picture = picture_clears_behind } },
    { "picture: begun in a short buffer", { .picture = picture_begun_where_short } },
    { "text: line 1's on line 0", { .text = text_on_line_0 } },
    { "text: line 2 taken for 1", { .text = text_takes_line_2 } },
    { "text: cut to 16 characters", { .text = text_cut_to_16 } },
    { "text: 18 before 17", { .text = text_before_ready } },
    { "text: state written on refusal", { .text = text_waits_though_refused } },
    { "text: wrap left as it was", { .text = text_leaves_wrap } },
    { "text: wrap written when refused", { .text = text_wraps_though_refused } },
    { "text: wrap always 1", { .text = text_always_wraps } },
    { "log: night and quarters exchanged", { .log_night = log_exchanged } },
    { "log: 12 before 11", { .log_night = log_quarters_before_night } },
    { "log: 13 before 12", { .log_night = log_written_before_quarters } },
    { "log: 97 quarter hours taken", { .log_night = log_takes_97 } },
    { "log: a night written again", { .log_night = log_writes_again } },
    { "log: wrap left as it was", { .log_night = log_leaves_wrap } },
    { "log: wrap written when refused", { .log_night = log_wraps_though_refused } },
    { "log: wrap always 0", { .log_night = log_never_wraps } },
    { "log: wrap always 1", { .log_night = log_always_wraps } },
    { "log: wraps counted", { .log_night = log_counts_wraps } },
    { "look-up: 11 before 16", { .look_up = look_up_night_before_state } },
    { "look-up: quarters written when refused", { .look_up = look_up_writes_though_refused } },
    { "look-up: quarters left as they were", { .look_up = look_up_leaves_quarters } },
    { "look-up: the figure of a night not yet written", { .look_up = look_up_tells_unwritten } },
    { "quarter bias: volts in the wrong order", { .quarter_bias = quarter_exchanged } },
    { "quarter bias: volts written when refused", { .quarter_bias = quarter_writes_though_refused } },
    { "fifth bias: 22 before 21", { .fifth_bias = fifth_span_before_vdd } },
    { "fifth bias: quotient before product", { .fifth_bias = fifth_quotient_first } },
    { "mend: altered always 0", { .mend = mend_never_altered } },
    { "mend: kept written when refused", { .mend = mend_writes_though_refused } },
    { "mend: 8 before 7", { .mend = mend_version_before_length } },
    { "mend: 6 before 8", { .mend = mend_room_before_version } },
    { "mend: a byte behind the record cleared", { .mend = mend_clears_behind } },
    { "mend: dropped in 16 bits", { .mend = mend_drops_in_16_bits } },
};

const size_t wrong_count = sizeof wrong / sizeof *wrong;
