/* The calls of the static library target/staticlib/libtarczolin.a.
 *
 * Every call answers one word:
 *
 *   bits 56 to 63   the kind: 1 answered; 2 no more, none, no, covered, or robust; 3 refused; 4 of two files the second is refused;
 *                   5 nobody asks
 *   bits 48 to 55   a refusal's number, else 0
 *   bits  0 to 47   the length of an answer in bytes, 0 where there is none; of rows their number; of a class its size; of tarczolin_force a step;
 *                   or a refusal's place. All of them fit these bits: of rows where the output is shorter than 26 * 2^48 bytes,
 *                   of a graph text's refusal where the text is shorter than 2^48 bytes
 *
 * A call reads only the bytes that it is lent and keeps nothing for the next. It takes no memory but stack. So many bytes of stack are
 * enough for it, whatever it is lent: the frames of its code along the deepest way, where a search goes as deep as a schedule has steps.
 * No call was seen to need more on painted stacks, with programs at the limits. What the host's memcpy and memset take is not in it.
 *
 *    12288   tarczolin_check
 *    20480   tarczolin_graph, tarczolin_class, tarczolin_tso_graph, tarczolin_tso_class
 *    24576   tarczolin_judge, tarczolin_open, tarczolin_close, tarczolin_forget
 *    28672   tarczolin_ask
 *    36864   tarczolin_set, tarczolin_return
 *    40960   tarczolin_start, tarczolin_continue, tarczolin_violation, tarczolin_count, tarczolin_rows, tarczolin_rows_after
 *    61440   tarczolin_serve, tarczolin_covers_with
 *    65536   tarczolin_tso_start, tarczolin_tso_continue, tarczolin_tso_violation, tarczolin_tso_count, tarczolin_tso_rows,
 *    65536   tarczolin_tso_rows_after
 *    69632   tarczolin_violation_with
 *    73728   tarczolin_outcomes, tarczolin_kth
 *    77824   tarczolin_robust
 *    81920   tarczolin_covers, tarczolin_count_with, tarczolin_rank
 *    90112   tarczolin_force, tarczolin_force_with
 *   126976   tarczolin_tso_count_with
 *   139264   tarczolin_tso_outcomes
 *   147456   tarczolin_covers_models
 *   167936   tarczolin_tso_violation_with
 *
 * Program files and graph texts are lines of hexadecimal, each ended by 0a; A to F are read as a to f, and what is written is
 * lower case. A line that begins with # is a remark: it may hold any byte but 0a, says nothing, and counts as a line in every
 * place. A remark without its 0a is refused as any line (2, 30).
 *
 * The buffers that one call is lent must not overlap: an output shares no byte with a file, a schedule or a graph text of the
 * same call, and tarczolin_count's two words are different words. (What is only read may overlap, or be the same.) What is
 * said below holds for every call that keeps to this, whatever the bytes are.
 */
#ifndef TARCZOLIN_H
#define TARCZOLIN_H

#include <stddef.h>
#include <stdint.h>

/* The version of this header. */
#define TARCZOLIN_VERSION "0.1.0"

/* Sizes in bytes: the longest accepted file, what an output for a schedule and for a graph text needs, a row, a row of tarczolin_outcomes. */
#define TARCZOLIN_FILE 4096
#define TARCZOLIN_SCHEDULE 24
#define TARCZOLIN_GRAPH 512
#define TARCZOLIN_ROW 26
#define TARCZOLIN_OUTCOME 58

/* The same under total store order: an output for a schedule, a row, a row of tarczolin_tso_outcomes. */
#define TARCZOLIN_TSO_SCHEDULE 48
#define TARCZOLIN_TSO_ROW 50
#define TARCZOLIN_TSO_OUTCOME 82

/* The bytes that name a memory model: sequential consistency, and total store order. */
#define TARCZOLIN_SC 0
#define TARCZOLIN_TSO 1

/* An answer word taken apart: its kind, a refusal's number, the length, number of rows, size of a class or place. */
#define TARCZOLIN_KIND(word) ((unsigned)((uint64_t)(word) >> 56))
#define TARCZOLIN_NUMBER(word) ((unsigned)((uint64_t)(word) >> 48) & 0xffu)
#define TARCZOLIN_VALUE(word) ((uint64_t)(word) & (((uint64_t)1 << 48) - 1))

/* The kinds. */
#define TARCZOLIN_ANSWERED 1u
#define TARCZOLIN_NONE 2u
#define TARCZOLIN_REFUSED 3u
#define TARCZOLIN_SECOND_REFUSED 4u
#define TARCZOLIN_IDLE 5u

/* A word of tarczolin_serve: the caller in bits 40 to 47, the schedule's length in bits 0 to 39. */
#define TARCZOLIN_CALLER(word) ((unsigned)((uint64_t)(word) >> 40) & 0xffu)
#define TARCZOLIN_STEPS(word) ((uint64_t)(word) & (((uint64_t)1 << 40) - 1))

/* How many callers there are, and the last caller served before any serve. */
#define TARCZOLIN_CALLERS 4
#define TARCZOLIN_NOBODY 3

/* How many marks a caller has, and how many bytes a mark's name has at most. */
#define TARCZOLIN_MARKS 8
#define TARCZOLIN_NAME 8

/* A mark to come back to, in a caller's record: 35 bytes. All zeros is a free one, as forgetting leaves it. Any content is allowed: a mark
 * whose name has not 1 to 8 bytes, or whose place is neither the beginning nor behind a full schedule, counts as free; so does the later
 * of two others with one name. */
struct tarczolin_mark {
    uint8_t name[TARCZOLIN_NAME];         /* at  0: the name is its first `length` bytes */
    uint8_t length;                       /* at  8 */
    uint8_t place;                        /* at  9: 1 the beginning, 2 behind the first `steps` bytes of `schedule` */
    uint8_t steps;                        /* at 10 */
    uint8_t schedule[TARCZOLIN_SCHEDULE]; /* at 11 */
};

/* A caller's record, in memory of the host's: 4448 bytes, aligned to 8, and no byte of it is outside a field. All zeros is a fresh one, as
 * closing leaves it. Any content is allowed: a record whose program would be refused, or whose place is neither the beginning, behind a full
 * schedule nor the end, counts as closed and empty. The last schedule handed to it since it opened stands in `newest`; one that is not full
 * counts as none. */
struct tarczolin_caller {
    uint8_t file[TARCZOLIN_FILE];         /* at    0: the program file is its first `length` bytes */
    size_t length;                        /* at 4096 */
    uint64_t count;                       /* at 4104: how many schedules were handed to it since it opened, modulo 2^64 */
    uint8_t place;                        /* at 4112: 1 the beginning, 2 behind the first `steps` bytes of `schedule`, 3 the end */
    uint8_t asking;                       /* at 4113: it asks where this is 1 */
    uint8_t steps;                        /* at 4114 */
    uint8_t schedule[TARCZOLIN_SCHEDULE]; /* at 4115 */
    uint8_t handed;                       /* at 4139: where this is 1, the last schedule handed is the first `size` bytes of `newest` */
    uint8_t size;                         /* at 4140 */
    uint8_t newest[TARCZOLIN_SCHEDULE];   /* at 4141 */
    struct tarczolin_mark marks[TARCZOLIN_MARKS]; /* at 4165 */
    uint8_t padding[3];                   /* at 4445: means nothing; zeros where the record opens or closes, else left as it is */
};

#ifdef __cplusplus
extern "C" {
#endif

/* Is this an accepted program file? Accepted: kind 1 and the rest 0; a file of 0 bytes is one, of no thread. Refused: kind 3,
 * the number (1 to 8, or 40) and the place (the line, from 1; 0 for 1). The file is only read. */
uint64_t tarczolin_check(const uint8_t *file, size_t file_len);

/* The graph of a full schedule. Answered: the graph text stands in front of the output, the answer carries its length,
 * and the bytes behind it keep their value. Refused, in this order: the program's (1 to 8, 40); 22 at place 0, an output of
 * under 512 bytes; 20 at the first step that names no thread or an ended one (from 0); 21 at the schedule's length where
 * it is not full. A refusal changes no byte. */
uint64_t tarczolin_graph(const uint8_t *file, size_t file_len, const uint8_t *schedule, size_t schedule_len, uint8_t *out, size_t out_len);

/* How large the class of a full schedule is, listed or not: how many different graphs are alike to its own, itself counted; at
 * most 720, and 1 in a program without 02 lines. Over all listed schedules these sum to the count of the same file with its 02
 * lines taken out. Answered: kind 1, and bits 0 to 47 carry that number. Refused, in this order: the program's (1 to 8, 40); 20
 * and 21 of the schedule given, as by tarczolin_graph. No output is lent, so 22 never refuses it. */
uint64_t tarczolin_class(const uint8_t *file, size_t file_len, const uint8_t *schedule, size_t schedule_len);

/* Is this graph consistent? Yes: kind 1, the least schedule that makes it stands in front of the output, the answer
 * carries its length, and the bytes behind it keep their value. No: kind 2. Refused, in this order: the program's (1 to 8, 40);
 * 22 at place 0, an output of under 24 bytes; 30 to 33 at the first line of the text that is refused (from 1). The text may
 * have any length. No and a refusal change no byte. */
uint64_t tarczolin_judge(const uint8_t *file, size_t file_len, const uint8_t *graph, size_t graph_len, uint8_t *out, size_t out_len);

/* The least listed schedule. Answered: it stands in front of the output, the answer carries its length, and the bytes
 * behind it keep their value. Refused, in this order: the program's (1 to 8, 40); 22 at place 0, an output of under 24 bytes.
 * A refusal changes no byte. */
uint64_t tarczolin_start(const uint8_t *file, size_t file_len, uint8_t *out, size_t out_len);

/* The least listed schedule after a full one, listed or not. Answered as by tarczolin_start; no more: kind 2. Refused, in
 * this order: the program's; 22; 20 and 21 of the schedule given, as by tarczolin_graph. No more and a refusal change no
 * byte. */
uint64_t tarczolin_continue(const uint8_t *file, size_t file_len, const uint8_t *schedule, size_t schedule_len, uint8_t *out, size_t out_len);

/* The first listed schedule that fails. Answered as by tarczolin_start; none fails: kind 2, and then no schedule at all
 * fails. Refused: the program's; 22. None and a refusal change no byte. */
uint64_t tarczolin_violation(const uint8_t *file, size_t file_len, uint8_t *out, size_t out_len);

/* How many schedules are listed, and how many of these fail. Answered: kind 1 and the rest 0. Both words keep their
 * value on refusal (1 to 8, 40). `listed` and `failing` are different words, and neither lies in the file. */
uint64_t tarczolin_count(const uint8_t *file, size_t file_len, uint64_t *listed, uint64_t *failing);

/* The same two with a scratch, in which states are remembered: what was counted behind one, or that nothing fails behind it. Answer and other
 * buffers are exactly those of tarczolin_count and tarczolin_violation, whatever the scratch's length and content, 0 words too; only the
 * time depends on it. The scratch shares no byte with any other buffer. An answer, none too, leaves zeros in all of its words; a
 * refusal leaves it as it was. Its length is counted in words of 8 bytes. */
uint64_t tarczolin_count_with(const uint8_t *file, size_t file_len, uint64_t *listed, uint64_t *failing, uint64_t *scratch, size_t scratch_len);
uint64_t tarczolin_violation_with(const uint8_t *file, size_t file_len, uint8_t *out, size_t out_len, uint64_t *scratch, size_t scratch_len);

/* The listed schedule number k, from 0, with a scratch as tarczolin_count_with has it. Answered as by tarczolin_start; the list has not so many:
 * kind 2, exactly from its length on. Refused: the program's (1 to 8, 40); 22. No more and a refusal change no byte of the output; an
 * answer, no more too, leaves zeros in all words of the scratch, a refusal leaves it as it was. */
uint64_t tarczolin_kth(const uint8_t *file, size_t file_len, uint64_t k, uint8_t *out, size_t out_len, uint64_t *scratch, size_t scratch_len);

/* How many listed schedules are smaller than the full one given, which need not be listed: of the listed one number k this is k. Answered: kind 1
 * and the rest 0. Refused: the program's (1 to 8, 40); 20 and 21 of the schedule, as by tarczolin_graph. `rank` keeps its value on refusal, and
 * lies in no other buffer; the scratch as by tarczolin_kth. */
uint64_t tarczolin_rank(const uint8_t *file, size_t file_len, const uint8_t *schedule, size_t schedule_len, uint64_t *rank, uint64_t *scratch, size_t scratch_len);

/* Many listed schedules at a time, as rows of 26 bytes: the number of steps, 1 where the schedule fails and 0 where it
 * does not, and the steps, with zeros behind them up to 24. Answered: as many rows as the output has room for stand in
 * front of it: the first listed schedules, or the first of those greater than the given one (which need not be listed nor
 * full). The answer carries their number, not their bytes, and the bytes behind them keep their value; 0 where there is no
 * more or no room. Refused: the program's (1 to 8, 40), and no byte changes. */
uint64_t tarczolin_rows(const uint8_t *file, size_t file_len, uint8_t *out, size_t out_len);
uint64_t tarczolin_rows_after(const uint8_t *file, size_t file_len, const uint8_t *schedule, size_t schedule_len, uint8_t *out, size_t out_len);

/* All outcomes of a program, each once: the outcome of a full schedule is the eight final values and whether it fails. A row of 58 bytes is
 * the eight values, four bytes each, the most significant first, and then the row of tarczolin_rows of the first listed schedule that has
 * the outcome: its number of steps, 1 where it fails and else 0, the steps, zeros behind them. Rows stand in the order of these
 * schedules. From row number `from` on, counted from 0, as many rows as the output has room for stand in front of it: kind 1, and the
 * answer carries their number, 0 where there are no more; the bytes behind them keep their value. Refused, in this order: the program's (1 to
 * 8, 40); 22 at place 0, an output that has not room for one row. Outcomes and states are remembered in the scratch: the answer and the
 * output do not depend on its length or content, 0 words too, only the time does. The scratch shares no byte with any other buffer. An answer
 * leaves zeros in all of its words; a refusal leaves it, and the output, as it was. Its length is counted in words of 8 bytes. */
uint64_t tarczolin_outcomes(const uint8_t *file, size_t file_len, uint64_t from, uint8_t *out, size_t out_len, uint64_t *scratch, size_t scratch_len);

/* Does the first program cover the second: is each outcome of a full schedule of the second one of the first? The outcome of a
 * full schedule is the eight final values and whether it fails. Covered: kind 2. Not covered: kind 1, the first listed schedule
 * of the second with an outcome that the first lacks stands in front of the output, the answer carries its length, and the bytes
 * behind it keep their value. Refused, in this order: the first file (1 to 8, 40), kind 3; the second file, kind 4; 22 at place 0, an
 * output of under 24 bytes, kind 3, also where the answer would be covered. Covered and a refusal change no byte. The two files
 * may be the same bytes. */
uint64_t tarczolin_covers(const uint8_t *first, size_t first_len, const uint8_t *second, size_t second_len, uint8_t *out, size_t out_len);

/* The same with a scratch, in which outcomes of the first program and states of both are remembered. Answer and output are exactly those of
 * tarczolin_covers, whatever the scratch's length and content, 0 words too; only the time depends on it: where the outcomes of the first
 * have room in a fourth of it, nine words each, no list is walked. The scratch shares no byte with any other buffer. An answer, covered
 * too, leaves zeros in all of its words; a refusal leaves it as it was. Its length is counted in words of 8 bytes. */
uint64_t tarczolin_covers_with(const uint8_t *first, size_t first_len, const uint8_t *second, size_t second_len, uint8_t *out, size_t out_len, uint64_t *scratch, size_t scratch_len);

/* Who can force the failure of an assertion? Two sides divide the threads: bit t of the set says that thread t is the hostile
 * side's; an empty set and all threads are allowed. They step alternately, hostile first, each one of its own threads not yet
 * ended; a side with none left passes. Exactly one side can force its end, whatever the other does. The hostile side can force
 * that the full schedule fails: kind 1, with 0 where it has no step before the first one, else its least first step that keeps
 * the win, plus 1; tarczolin_violation then reports a schedule. The friendly side can force that it does not fail: kind 2.
 * Refused, in this order: the program's (1 to 8, 40); 48, the set names a thread that is not there, at the lowest such number, 6 and
 * 7 too. The file is only read. The time grows with the number of plays.
 *
 * With a scratch, in which it is remembered who wins where, the answer is exactly the same, whatever the scratch's length and content, 0
 * words too; only the time depends on it. The scratch shares no byte with the file. Kinds 1 and 2 leave zeros in all of its words; a
 * refusal leaves it as it was. Its length is counted in words of 8 bytes. */
uint64_t tarczolin_force(const uint8_t *file, size_t file_len, uint8_t set);
uint64_t tarczolin_force_with(const uint8_t *file, size_t file_len, uint8_t set, uint64_t *scratch, size_t scratch_len);

/* The listing under total store order, by the x86-TSO machine of Owens, Sarkar and Sewell: each thread has a queue of pending stores. A
 * step byte t does thread t's next access, the byte 0x10 + t moves its oldest pending store to memory, also after the thread has ended
 * or failed. A store goes into the queue; a load takes the newest own pending store to its location, else memory; a fetch and add or a
 * compare and swap, failed ones too, may step only when the thread's queue is empty, and acts on memory. Full means that all threads
 * have ended and all queues are empty. Coherence is the order of reaching memory, and a load that took a pending store reads from that
 * store. Each call answers as its namesake does for the other listing, save that: a file of more than 16 accesses is refused by 41 at
 * place 0, right behind the program's own refusals (1 to 8, 40) and before 22; a schedule needs an output of 48 bytes; 20 also refuses a
 * move from an empty queue and a fetch and add or compare and swap whose queue is not empty; rows have 50 bytes, with zeros behind the
 * steps up to 48, and those of tarczolin_tso_outcomes 82; both counts are modulo 2^64. */
uint64_t tarczolin_tso_graph(const uint8_t *file, size_t file_len, const uint8_t *schedule, size_t schedule_len, uint8_t *out, size_t out_len);
uint64_t tarczolin_tso_class(const uint8_t *file, size_t file_len, const uint8_t *schedule, size_t schedule_len);
uint64_t tarczolin_tso_start(const uint8_t *file, size_t file_len, uint8_t *out, size_t out_len);
uint64_t tarczolin_tso_continue(const uint8_t *file, size_t file_len, const uint8_t *schedule, size_t schedule_len, uint8_t *out, size_t out_len);
uint64_t tarczolin_tso_violation(const uint8_t *file, size_t file_len, uint8_t *out, size_t out_len);
uint64_t tarczolin_tso_count(const uint8_t *file, size_t file_len, uint64_t *listed, uint64_t *failing);
uint64_t tarczolin_tso_count_with(const uint8_t *file, size_t file_len, uint64_t *listed, uint64_t *failing, uint64_t *scratch, size_t scratch_len);
uint64_t tarczolin_tso_violation_with(const uint8_t *file, size_t file_len, uint8_t *out, size_t out_len, uint64_t *scratch, size_t scratch_len);
uint64_t tarczolin_tso_rows(const uint8_t *file, size_t file_len, uint8_t *out, size_t out_len);
uint64_t tarczolin_tso_outcomes(const uint8_t *file, size_t file_len, uint64_t from, uint8_t *out, size_t out_len, uint64_t *scratch, size_t scratch_len);
uint64_t tarczolin_tso_rows_after(const uint8_t *file, size_t file_len, const uint8_t *schedule, size_t schedule_len, uint8_t *out, size_t out_len);

/* Is the program robust: is the graph of every full schedule of total store order consistent? Both machines then have exactly the same
 * graphs of it, and the same outcomes. Robust: kind 2. Not robust: kind 1, the first listed schedule of total store order whose graph is
 * not consistent stands in front of the output, the answer carries its length, and the bytes behind it keep their value; no smaller full
 * schedule, listed or not, has such a graph. Refused, in this order: the program's (1 to 8, 40); 41 at place 0, more than 16 accesses;
 * 22 at place 0, an output of under 48 bytes, also where the answer would be robust. Robust and a refusal change no byte. */
uint64_t tarczolin_robust(const uint8_t *file, size_t file_len, uint8_t *out, size_t out_len);

/* Does the first program under its memory model cover the second under its own: is each outcome of a full schedule of the second there one
 * of the first here? A byte in front of each file names its model: TARCZOLIN_SC or TARCZOLIN_TSO. Covered: kind 2. Not
 * covered: kind 1, the first listed schedule of the second in its model with an outcome that the first lacks stands in front of the output,
 * the answer carries its length, and the bytes behind it keep their value. Refused, in this order: 49, a byte that names no model, at place
 * 0 for the first and 1 for the second, kind 3; the first file (1 to 8, 40, and 41 at place 0 for more than 16 accesses under total store
 * order), kind 3; the second file likewise, kind 4; 22 at place 0, an output of under 48 bytes, whatever the models, kind 3, also where the
 * answer would be covered. Covered and a refusal change no byte of the output. Answer and output do not depend on the scratch, 0 words too;
 * only the time does. It shares no byte with any other buffer; kinds 1 and 2 leave zeros in all of its words, a refusal leaves it as it was.
 * Its length is counted in words of 8 bytes. With 0 and 0 it answers as tarczolin_covers_with does, but for the length that 22 asks for. */
uint64_t tarczolin_covers_models(uint8_t first_model, const uint8_t *first, size_t first_len, uint8_t second_model, const uint8_t *second, size_t second_len, uint8_t *out, size_t out_len, uint64_t *scratch, size_t scratch_len);

/* Four callers, 0 to 3, on one explorer. Their records lie in a list that the host lends, whatever it holds; `last`, the caller served last,
 * goes into each call and comes out of it. The first list is four records of zeros, with `last` 3. Refused, in this order: 22 at place 0, a
 * list that has not exactly four records, and for serve also an output of under 24 bytes; 42 at place 0, a caller above 3; 43 at place 0,
 * open for an open caller; 44 at place 0, ask or close for a closed one; for open then the program's (1 to 8, 40). A refusal changes
 * nothing, not `last` either; any other answer gives a `last` above 3 back as 3.
 *
 * Open with a program file: before the first schedule. Ask for one schedule; twice is once. Close: the record is emptied. Each answers
 * kind 1, all else 0.
 *
 * Serve takes the next asking caller after the last one served, in turn, 0 after 3: a schedule, kind 1, which stands in front of the
 * output, with its length in bits 0 to 39 and the caller in bits 40 to 47; or no more, kind 2, the caller likewise. Its asking ends, and
 * `last` is that caller; a schedule counts in that caller's record and in no other, no more in none. Nobody asks: kind 5. In every list of
 * these calls from the first list on, each handed what the one before gave back, those on marks included: whoever asked and does not close
 * is served by the fourth serve at the latest, refused serves not counted, and from an opening to its closing, or to its first return, a
 * caller is given its program's list in order, each member once, and no more exactly when all have been given. A caller's `count` is the
 * number of schedules handed to it since it opened, repeats after a return included, modulo 2^64. What the others open, ask, mark or close
 * changes neither it nor the sequence that the caller receives: both go by its own calls and by the serves that take it. */
uint64_t tarczolin_open(struct tarczolin_caller *callers, size_t callers_len, uint64_t *last, size_t caller, const uint8_t *file, size_t file_len);
uint64_t tarczolin_ask(struct tarczolin_caller *callers, size_t callers_len, uint64_t *last, size_t caller);
uint64_t tarczolin_serve(struct tarczolin_caller *callers, size_t callers_len, uint64_t *last, uint8_t *out, size_t out_len);
uint64_t tarczolin_close(struct tarczolin_caller *callers, size_t callers_len, uint64_t *last, size_t caller);

/* Marks to come back to, eight for each caller, each under a name of 1 to 8 bytes, which may be any. Each call answers kind 1, all else 0.
 *
 * Set stores the last schedule handed to the caller since it opened, also after a return, or the beginning if there is none; a used name is
 * overwritten, a new one takes the first free mark. Return sets the caller's place to the mark's, and its serves go on behind it: up to the
 * next return or the closing they give what the list holds behind that place, in order, each member once, and no more exactly when all
 * have been given. The asking, the count and the last schedule handed stay as they are. Forget frees a name for use. Set and forget empty
 * every other mark of that name which is not free by its length or place. Opening and closing leave no mark.
 *
 * Refused, in this order: 22 and 42 as above; 44 at place 0, a closed caller; 45 at place 0, a name of another length; 46 at place 0, return
 * to or forget of an unknown name; 47 at place 0, set of a ninth name. A refusal changes nothing, not `last` either; any other answer
 * gives a `last` above 3 back as 3. */
uint64_t tarczolin_set(struct tarczolin_caller *callers, size_t callers_len, uint64_t *last, size_t caller, const uint8_t *name, size_t name_len);
uint64_t tarczolin_return(struct tarczolin_caller *callers, size_t callers_len, uint64_t *last, size_t caller, const uint8_t *name, size_t name_len);
uint64_t tarczolin_forget(struct tarczolin_caller *callers, size_t callers_len, uint64_t *last, size_t caller, const uint8_t *name, size_t name_len);

#ifdef __cplusplus
}
#endif

#endif
